# netrun, as a person calls it: what can't be read or written is said, and nothing runs that was not read whole.
. "$ROOT/tests/shell/lib.sh"
net=$ROOT/examples/printed-run.net

tries netrun <"$net"
prints "pick 0 done 1 1"
says_nothing

# Arguments: how to call it, at once.
tries timeout 5 netrun "$net" </dev/zero
prints_nothing
says "netrun < NET.net"

# Input that can't be read.
tries netrun <"$ROOT"
prints_nothing
says "standard input could not be read to its end: Is a directory"
tries netrun <&-
prints_nothing
says "standard input could not be read to its end"

# A read that fails after three records, which are a net by themselves: dd leaves the pipe so that a read fails where it would wait.
mkfifo pipe
exec 3<>pipe
head -c 312 "$net" >&3
dd iflag=nonblock count=0 <&3 2>dd.err
tries netrun <&3
prints_nothing
says "nothing was run: standard input could not be read to its end"
exec 3>&-

# Output that can't be written, be it short, the line of a refused file, or more than one write.
onto_full() {
    netrun <"$1" >/dev/full
}
for table in A B C D E F G H; do
    echo "table $table at site 0 (Int, Int, Int, Int)"
done >rows.nettext
for table in A B C D E F G H; do
    for row in 1 2 3 4 5 6 7 8 9 10 11 12; do
        echo "row ($row, -2147483648, -2147483648, -2147483648) in $table at site 0"
    done
done >>rows.nettext
tries netasm rows.nettext -o rows.net
exits 0
for file in "$net" "$ROOT/examples/refused-file.net" rows.net; do
    tries onto_full "$file"
    says "standard output could not be written: No space left on device"
    [ "$(wc -l <err)" -eq 1 ] || complains "standard error has more than one line"
done
tries netrun <rows.net
prints "row 12 -2147483648 -2147483648 -2147483648"
[ "$(wc -l <out)" -eq 104 ] || complains "standard output lacks lines"

# Text in place of records: the line as ever, and a hint.
for text in "$ROOT"/examples/*.nettext; do
    tries netrun <"$text"
    prints "load "
    says "netasm makes records of a text"
done
printf '\357\273\277# one line\r\n' >marked
tries netrun <marked
says "netasm makes records of a text"
head -c 200000 /dev/zero | tr '\0' x >long
tries netrun <long
prints "load 1 at 1923"
says "netasm makes records of a text"

# A refused file of records gets no hint, nor does an empty one, which is a file of no records.
tries netrun <"$ROOT/examples/refused-file.net"
prints "load "
says_nothing
head -c 200000 /dev/zero >zeros
tries netrun <zeros
prints "load 1 at 1923"
says_nothing
tries netrun </dev/null
prints_nothing
says_nothing

# Where nobody reads the pipe, the status is 141 and standard error is empty, of a text in place of records, too.
for input in marked "$ROOT/examples/update.net"; do
    tried="netrun <$input | true"
    : >out
    {
        sleep 0.2
        netrun <"$input" 2>err
        echo $? >told
    } | true
    status=$(cat told)
    exits 141
    says_nothing
done

# What valgrind reports of printed Ints is harmless, and the file that says why suppresses it.
if command -v valgrind >valgrind.path; then
    for example in insert aggregates; do
        tries valgrind -q --error-exitcode=9 --suppressions="$ROOT/tests/valgrind.supp" "$ROOT/target/bin/netrun" <"$ROOT/examples/$example.net"
        exits 0
        says_nothing
    done
fi

finish
