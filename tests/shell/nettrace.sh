# nettrace as a person uses it: what it never writes over, what a build leaves of it, and a long trace that comes line by line.
. "$ROOT/tests/shell/lib.sh"

cp "$ROOT/examples/update.nettext" "$ROOT/examples/update.net" .
echo "0 0" >picks

# Neither the net nor the list of picks is written over, by whatever name.
ln -s update.nettext link
ln update.nettext other
for name in update.nettext link other; do
    tries nettrace update.nettext -o "$name"
    exits 2
    says "are one file"
    cmp -s update.nettext "$ROOT/examples/update.nettext" || complains "the net is not what it was"
done
tries nettrace update.nettext --picks-from picks -o picks
exits 2
says "are one file"
[ "$(cat picks)" = "0 0" ] || complains "the picks are not what they were"

# A trace goes to a file of its own, and a full disk leaves the old one.
tries nettrace update.nettext -o trace
exits 0
prints_nothing
tries nettrace update.nettext
cmp -s out trace || complains "the trace in the file is another"
nettrace update.nettext >/dev/full 2>err
status=$?
tried="nettrace update.nettext >/dev/full"
exits 2
says "<stdout>"

# What is needed to see into a pick.
tries nettrace update.nettext
exits 0
prints "thread 0 (A) at site 0: line 13 of brighten"
prints "stays: x1 + 2147483609 is outside 32 bits"
tries nettrace "$ROOT/examples/refused-steps.nettext"
exits 0
prints "refused: 12, x0, read in the tuple, is unbound"
prints "refused: 14, @self is site 0, which has no table CARD; CARD is at site 1"

# A byte order mark is no part of a text; texts and records are not taken for each other.
printf '\357\273\277' | cat - update.nettext >marked.nettext
nettrace update.nettext >plain
tries nettrace marked.nettext
exits 0
cmp -s out plain || complains "the trace is another with a byte order mark"
cp update.nettext text.net
tries nettrace text.net
exits 1
says "text.net: this is a text, and records are expected"
cp update.net records.nettext
tries nettrace records.nettext
exits 1
says "records.nettext: these are records, and a text is expected"

# A text that is too long is held to the limit of texts, however long it is; a list of picks to that of files.
for size in 1048577 70000000; do
    for call in "--text" "--text long.net" "long.nettext"; do
        yes "# a comment" | head -c "$size" >long.nettext
        ln -f long.nettext long.net
        tried="nettrace $call < long.nettext, of $size bytes"
        nettrace $call <long.nettext >out 2>err
        status=$?
        exits 1
        prints_nothing
        says "over 1048576 bytes, and no net needs so much"
    done
done
yes 0 | head -c 1100000 >many
tries nettrace update.nettext --picks-from many -o /dev/null
exits 0
rm long.nettext long.net many
tries nettrace update.nettext --picks 0 --picks 1
exits 2
says "nettrace: --picks is given twice"

# What netasm warns of, nettrace warns of in the same words.
printf 'table CARD at site 0 (Int)\nprocess p:\n    drop CRAD @self\nprocess q:\n    drop CARD @self\nstart p at site 0\npick thread 0\n' >warned.nettext
echo "# only a comment" >comment.nettext
for text in warned.nettext comment.nettext; do
    netasm "$text" 2>warnings >/dev/null
    tries nettrace "$text"
    exits 0
    says "warning: "
    prints "in all: "
    cmp -s err warnings || complains "other warnings than netasm's"
done
tries nettrace /dev/null
exits 0
says "/dev/null: warning: the file has no record, so the net is empty"
# Of a net that is refused the errors are enough.
printf 'process p:\n    drop CRAD @self\n    drop CRAD @self then p\n' >refused.nettext
netasm refused.nettext 2>errors >/dev/null
tries nettrace refused.nettext
exits 1
cmp -s err errors || complains "other errors than netasm's"

# A build of the whole workspace leaves a nettrace that has the engine.
tries cargo build --release --offline --quiet --manifest-path "$ROOT/Cargo.toml"
exits 0
tries nettrace update.nettext
exits 0
says_nothing
prints "in all: 1 pick done"

# The first lines of a long trace come while it runs: it has written many times before anyone read the second line. When nobody reads on, it ends in silence.
yes 0 | head -n 100000 >long
mkfifo pipe
tried="nettrace update.net --picks-from long >pipe"
nettrace update.net --picks-from long >pipe 2>err &
running=$!
exec 3<pipe
read -r first <&3
echo "$first" >out
prints "before the first pick"
writes=0
for _ in $(seq 100); do
    writes=$(sed -n 's/^syscw: //p' "/proc/$running/io")
    [ "${writes:-0}" -lt 20 ] || break
    sleep 0.1
done
[ "${writes:-0}" -ge 20 ] || complains "only ${writes:-0} writes while its output was waited for"
exec 3<&-
wait "$running"
status=$?
exits 0
says_nothing

# The whole of it adds up.
tries nettrace update.net --picks-from long
exits 0
prints "in all: 1 pick done, 99999 refused; 1 row added, 1 taken"

finish
