# netsums, as a person calls it: it says what netrun says.
. "$ROOT/tests/shell/lib.sh"
net=$ROOT/examples/printed-run.net

tries netsums <"$net"
prints "run 1 1"
says_nothing

tries timeout 5 netsums "$net" </dev/zero
prints_nothing
says "netsums < NET.net"

tries netsums <"$ROOT"
prints_nothing
says "netsums: nothing was run: standard input could not be read to its end: Is a directory"

onto_full() {
    netsums <"$1" >/dev/full
}
tries onto_full "$net"
says "netsums: standard output could not be written: No space left on device"

tries netsums <"$ROOT/examples/insert.nettext"
prints "load "
says "netasm makes records of a text"

finish
