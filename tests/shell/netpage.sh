# netpage, as a person calls it: the pages of the tables, and in all else what netrun says.
. "$ROOT/tests/shell/lib.sh"
net=$ROOT/examples/page.net
refused=$ROOT/examples/refused-file.net

tries netpage <"$net"
exits 0
says_nothing
cmp -s out "$ROOT/examples/page.page" || complains "not the stored pages"

# A refused file has its line alone, and a file of no records prints nothing.
tries netpage <"$refused"
exits 0
says_nothing
cmp -s out "$ROOT/examples/refused-file.out" || complains "not the line of a refused file"
tries netpage </dev/null
exits 0
prints_nothing
says_nothing

# Arguments: how to call it, at once.
tries timeout 5 netpage "$net" </dev/zero
exits 0
prints_nothing
says "netpage < NET.net"

# Input that can't be read.
tries netpage <"$ROOT"
exits 0
prints_nothing
says "netpage: nothing was run: standard input could not be read to its end: Is a directory"
tries netpage <&-
prints_nothing
says "netpage: nothing was run: standard input could not be read to its end"

# Eight tables of sixteen rows: as many pages as a net can have, more than one write, and the least sum there is.
for table in A B C D E F G H; do
    echo "table $table at site 7 (Int, Int, Text, Loc)"
done >full.nettext
for table in A B C D E F G H; do
    for row in 1 2 3 4 5 6 7 8 9 10 11 12 13 14 15 16; do
        echo "row ($row, -2147483648, \"RIG1\", @7) in $table at site 7"
    done
done >>full.nettext
tries netasm full.nettext -o full.net
exits 0
tries netpage <full.net
exits 0
says_nothing
[ "$(wc -l <out)" -eq 144 ] || complains "standard output lacks lines"
[ "$(grep -cx '           16  -2147483648RIG1         @7           ' out)" -eq 8 ] || complains "a row is not as it should be"
[ "$(grep -cx '          136 -34359738368                          ' out)" -eq 8 ] || complains "a sum is not as it should be"

# Output that can't be written, be it short, the line of a refused file, or more than one write.
onto_full() {
    netpage <"$1" >/dev/full
}
for file in "$net" "$refused" full.net; do
    tries onto_full "$file"
    exits 0
    says "netpage: standard output could not be written: No space left on device"
    [ "$(wc -l <err)" -eq 1 ] || complains "standard error has more than one line"
done
onto_closed() {
    netpage <"$net" >&-
}
tries onto_closed
exits 0
says "netpage: standard output could not be written"

# Text in place of records: the line as ever, and a hint.
tries netpage <"$ROOT/examples/page.nettext"
prints "load "
says "netasm makes records of a text"

# What valgrind reports of printed Ints is harmless, and the file that says why suppresses it: of the program, and of one that calls the library.
if command -v valgrind >valgrind.path; then
    tries valgrind -q --error-exitcode=9 --suppressions="$ROOT/tests/valgrind.supp" "$ROOT/target/bin/netpage" <"$net"
    exits 0
    says_nothing
    tries cc -I"$ROOT/include" "$ROOT/tools/embed/tests/header/page.c" "$ROOT/target/staticlib/libtivgeral.a" -o paging
    exits 0
    tries valgrind -q --error-exitcode=9 --suppressions="$ROOT/tests/valgrind.supp" ./paging <"$net"
    exits 0
    says_nothing
    cmp -s out "$ROOT/examples/page.page" || complains "not the stored pages"
fi

finish
