# netasm, as a person calls it.
. "$ROOT/tests/shell/lib.sh"

# kept FILE: the file is still the one in ./old.
kept() { cmp -s old "$1" || complains "$1 is no longer what it was"; }
# holds_only NAME..: the folder has these files, and out, err and old, and nothing else.
holds_only() {
    [ "$(ls -A | grep -vxE 'out|err|old' | tr '\n' ' ')" = "$(printf '%s ' "$@")" ] || complains "the folder holds $(ls -A | tr '\n' ' ')"
}

# A text is not overwritten with its own records, by whatever name.
cp "$ROOT/examples/update.nettext" a.nettext
cp a.nettext old
ln -s a.nettext soft
ln a.nettext hard
for other in a.nettext ./a.nettext soft hard; do
    tries netasm a.nettext -o "$other"
    exits 2; prints_nothing; says "are one file; write to another"; kept a.nettext
done
tries netasm soft -o a.nettext
exits 2; says "are one file"; kept a.nettext
tried="netasm -o a.nettext < a.nettext"
netasm -o a.nettext <a.nettext >out 2>err
status=$?
exits 2; prints_nothing; says "input <stdin> and output a.nettext are one file"; kept a.nettext
tried="netasm a.nettext >> a.nettext"
netasm a.nettext >>a.nettext 2>err
status=$?
: >out
exits 2; says "output <stdout> are one file"; kept a.nettext
rm soft hard

# What is written is all there, and nothing stays beside it.
tries netasm a.nettext -o a.net
exits 0; says_nothing; prints_nothing
cmp -s a.net "$ROOT/examples/update.net" || complains "a.net is not the records of the text"
holds_only a.net a.nettext

# A file that is replaced keeps its permissions; a link leads on to what is written.
chmod 640 a.net
ln -s a.net link
ln -s fresh.net dangling
for name in link dangling; do
    tries netasm a.nettext -o "$name"
    exits 0
    [ -L "$name" ] || complains "$name is a link no longer"
    cmp -s "$name" "$ROOT/examples/update.net" || complains "$name does not lead to the records"
done
[ "$(stat -c %a a.net)" = 640 ] || complains "a.net has other permissions: $(stat -c %a a.net)"
rm link dangling fresh.net

# A fault of the text, or a disk that is full, leaves the old file.
echo "before" >a.net
cp a.net old
echo "pick thread x" >wrong.nettext
tries netasm wrong.nettext -o a.net
exits 1; kept a.net
for _ in $(seq 40); do echo "pick thread 0"; done >long.nettext
tried="netasm long.nettext -o a.net, with room for 1 KiB"
(trap '' XFSZ; ulimit -f 1; exec netasm long.nettext -o a.net) >out 2>err
status=$?
exits 2; says "netasm: a.net: "; kept a.net
holds_only a.net a.nettext long.nettext wrong.nettext
tried="netasm a.nettext > /dev/full"
netasm a.nettext >/dev/full 2>err
status=$?
: >out
exits 2; says "netasm: <stdout>: No space left on device"

# Devices and pipes are written as they are.
tries netasm a.nettext -o /dev/null
exits 0; says_nothing
[ -c /dev/null ] || complains "/dev/null is no device any more"
mkfifo pipe
timeout 10 cat pipe >through &
tries netasm a.nettext -o pipe
wait $!
exits 0
cmp -s through "$ROOT/examples/update.net" || complains "the pipe did not carry the records"
tries netasm $'\377.nettext'
exits 2; says ".nettext: No such file"
tries netasm a.nettext -o .
exits 2; says "netasm: .: Is a directory"

# Whatever is given, netasm takes no more than 200 MB for 100 MB of it.
hundred_megabytes() {
    case $1 in
        zeros) head -c 100000000 /dev/zero ;;
        letters) yes a | tr -d '\n' | head -c 100000000 ;;
        newlines) yes '' | head -c 100000000 ;;
        noise) head -c 100000000 /dev/urandom ;;
        *) yes "$1" | head -c 100000000 ;;
    esac
}
for what in zeros letters newlines noise "pick thread 0" "drop A @1" "(" '"' "# a comment" "p: q: r:" "1" "row (1" "@ ! - <"; do
    tried="netasm on 100 MB of $what"
    hundred_megabytes "$what" 2>/dev/null | (ulimit -v 200000; exec netasm -o big.net) >out 2>err
    status=$?
    exits 1; says "<stdin>: over 1048576 bytes, and no net needs so much: it has at most 256 records"
    [ ! -e big.net ] || complains "big.net was written"
    # As much of it as a text may have is read whole.
    tried="netasm on 1 MiB of $what"
    hundred_megabytes "$what" 2>/dev/null | head -c 1048576 | (ulimit -v 200000; exec netasm --unchecked) >out 2>err
    status=$?
    [ "$status" -le 1 ] || complains "exit status $status, expected 0 or 1"
done

# What Notepad writes, and the wrong file.
printf '\357\273\277pick thread 0\r\n' >marked.nettext
printf 'pick thread 0\n' >plain.nettext
netasm plain.nettext -o plain.net
tries netasm marked.nettext
exits 0; says_nothing
cmp -s out plain.net || complains "other records than without the byte order mark"
printf '\357\273\277pick thread x\r\n' >marked.nettext
tries netasm marked.nettext
exits 1; says 'marked.nettext:1:13: found "x", expected a thread place 0..255'
printf '\377\376p\000i\000c\000k\000' >wide.nettext
tries netasm wide.nettext
exits 1; prints_nothing; says "wide.nettext: this is text in UTF-16"; says "save it as UTF-8"
printf 'p\000i\000c\000k\000' >wide.nettext
tries netasm wide.nettext
exits 1; prints_nothing; says "wide.nettext: this is text in UTF-16"
printf '\000p\000i\000c\000k' >wide.nettext
tries netasm wide.nettext
exits 1; prints_nothing; says "wide.nettext: this is text in UTF-16"
printf '# a\rtable A at site 0 (Int)\r' >returns.nettext
tries netasm returns.nettext -o returns.net
exits 1; says "returns.nettext: lines end in carriage returns alone, and line feeds are expected"; says "what to do: "
[ ! -e returns.net ] || complains "returns.net was written"
tr '\r' '\n' <returns.nettext >fed.nettext
tries netasm fed.nettext
exits 0; says_nothing
[ "$(stat -c %s out)" = 104 ] || complains "the table is not there"
tries netasm "$ROOT/examples/update.net"
exits 1; prints_nothing; says "update.net: these are records"; says "netdump"; says "netrun"

# All errors at once, and warnings beside the records.
printf 'pick thread x\nrow (1) in CARD at site 0\npick thread y\n' >several.nettext
tries netasm several.nettext
exits 1; prints_nothing
says 'several.nettext:1:13: found "x"'; says "several.nettext:2:1: load 5 at 1: "; says 'several.nettext:3:13: found "y"'
printf 'table CARD at site 0 (Int)\nprocess p:\n    drop CRAD @self\nstart p at site 0\n' >warned.nettext
tries netasm warned.nettext -o warned.net
exits 0; says "warned.nettext:3:5: warning: no table CRAD is declared or created; did you mean CARD?"
[ "$(stat -c %s warned.net)" = 312 ] || complains "the records are not written"

# Options that can't be meant.
tries netasm plain.nettext -o one.net -o two.net
exits 2; says "netasm: -o is given twice"; says "--help"
[ ! -e one.net ] && [ ! -e two.net ] || complains "a file was written"
tries netasm plain.nettext -o ''
exits 2; says "netasm: a file name is missing after -o"
netasm --help >help
tries netasm -h
exits 0; cmp -s out help || complains "not what --help shows"

# Nothing at all is assembled, but not in silence.
tried="netasm -o plain.net <&-"
netasm -o plain.net <&- >out 2>err
status=$?
exits 0; says "<stdin>: warning: the text has no statement, so the net is empty"; says "what to do: "
echo "# only a comment" >comment.nettext
for text in /dev/null comment.nettext; do
    tries netasm "$text"
    exits 0; prints_nothing; says "$text: warning: the text has no statement, so the net is empty"
done

finish
