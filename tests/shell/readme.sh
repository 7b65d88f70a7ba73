# What the README tells a newcomer to type does what it shows, and leaves its files where git does not look.
. "$ROOT/tests/shell/lib.sh"
readme=$ROOT/README.md
ln -s "$ROOT/build" "$ROOT/target" "$ROOT/examples" .

# block KIND: what stands in the README's blocks of that kind.
block() {
    awk -v first='```'"$1" '$0 == first { on = 1; next } /^```/ { on = 0 } on' "$readme"
}

# same FILE: the last try printed what the file has.
same() { diff out "$1" >difference || complains "not what the README shows: $(head -n 3 difference)"; }

block sh >commands
block netrun >shown
block netpage >>shown
block trace >>shown
tries bash commands
exits 0
says_nothing
same shown
made=$(ls -d -- */ | tr -d '\n')
[ "$made" = "build/examples/scratch/target/" ] || complains "made more than scratch/: $made"
tries git -C "$ROOT" check-ignore -q scratch/gamma.net
exits 0

# The end of the build.
sed -n '/^built:/,/^END/p' "$ROOT/tools/build" | grep -v '^END' | sed 's/^/    /' >built
tries grep -A 7 '^    built:' "$readme"
same built

# The program in C.
block c >program.c
tries cc -std=c99 -Wall -Wextra -Werror -I"$ROOT/include" program.c "$ROOT/target/staticlib/libtivgeral.a" -o program
exits 0
tries ./program <"$ROOT/examples/printed-run.net"
exits 0
prints "0: 1 added, 1 taken"
prints "11: 0 added, 0 taken"
tries ./program <"$ROOT/examples/refused-file.net"
exits 1
prints "refused by 7 at 1: the row's table is absent, or the row does not fit"

finish
