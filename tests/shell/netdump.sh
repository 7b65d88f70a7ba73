# netdump, as a person calls it.
. "$ROOT/tests/shell/lib.sh"

# Records are not overwritten with their own text.
cp "$ROOT/examples/update.net" a.net
ln -s a.net soft
for other in a.net soft; do
    tries netdump a.net -o "$other"
    exits 2; prints_nothing; says "input a.net and output $other are one file; write to another"
    cmp -s a.net "$ROOT/examples/update.net" || complains "a.net is no longer what it was"
done
tried="netdump -o a.net < a.net"
netdump -o a.net <a.net >out 2>err
status=$?
exits 2; says "input <stdin> and output a.net are one file"
cmp -s a.net "$ROOT/examples/update.net" || complains "a.net is no longer what it was"

# Who reads only the first line has it, and no complaint.
tried="netdump | head -n 1"
for _ in 1 2 3; do
    for program in "netdump a.net" "netdump --help"; do
        ($program; echo "$?" >left) 2>err | true >out
        status=$(cat left)
        exits 0; says_nothing
    done
done
netdump a.net 2>err | head -n 1 >out
prints "alias @1"; says_nothing

# A text is told, in whatever encoding.
tries netdump "$ROOT/examples/update.nettext"
exits 1; prints_nothing; says "update.nettext: this is a text, and records are expected"; says "netasm"
printf '\377\376p\000i\000c\000k\000' >wide.nettext
tries netdump wide.nettext
exits 1; says "this is a text"; says "netasm"
printf '#\000a\000\n\000' >wide.nettext
tries netdump wide.nettext
exits 1; says "this is a text"

# A refused file is shown if one asks for it, with what is at fault, and assembles again.
refused=$ROOT/examples/refused-file.net
tries netdump "$refused"
exits 1; prints_nothing; says "load 7 at 1: "
tries netdump --unchecked "$refused"
exits 0; says_nothing
prints "# load 7 at 1: the row's table is absent"; prints "# what to do: "; prints "row (1, @1) in CARD at site 0"
netdump --unchecked "$refused" | netasm --unchecked | cmp -s - "$refused" || complains "other records come back"
head -c 150 "$refused" >cut.net
tries netdump --unchecked cut.net
exits 0; prints "# load 1 at 1: "; prints "table CARD at site 0 (Int, Text)"; prints "# record 1: 46 of 104 bytes: 0300000043415244"
tries netdump --unchecked a.net
netdump a.net >plain
exits 0; cmp -s out plain || complains "a file that loads has another text"

# A file of no records is a net, but hardly the one that was meant.
for option in "" --unchecked; do
    tries netdump $option /dev/null
    exits 0; prints_nothing; says "/dev/null: warning: the file has no record, so the net is empty"; says "what to do: "
done
tried="netdump <&-"
netdump <&- >out 2>err
status=$?
exits 0; says "<stdin>: warning: the file has no record, so the net is empty"

finish
