# What docs/TEXT.md and examples/README.md tell to type works as it stands, and leaves its files where git does not look; what docs/TOUR.md shows of netpage, it prints.
. "$ROOT/tests/shell/lib.sh"

# types PAGE: the commands of its blocks, but for those that build.
types() {
    awk '$0 == "```sh" { on = 1; next } /^```/ { on = 0 } on' "$ROOT/$1" | grep -vE '^(tools/build|cargo) *' >commands
    [ -s commands ] || complains "$1 has no commands"
    rm -rf scratch
    tries bash -e commands
    exits 0
    says_nothing
    made=$(ls -d -- * | grep -vxE 'commands|out|err' | tr '\n' ' ')
    [ "$made" = "build examples include scratch target " ] || complains "made more than scratch/: $made"
}

ln -s "$ROOT/build" "$ROOT/target" "$ROOT/examples" "$ROOT/include" .
types docs/TEXT.md
prints "update (!x0, !x1) in CARD @1"
cmp -s scratch/update.net examples/update.net || complains "scratch/update.net is not the records of the text"
types examples/README.md
cat examples/update.out examples/update.out examples/page.page examples/update.out >expected
cmp -s out expected || complains "not what netrun and netpage print"

# The calls of netpage in the tour, and what it shows of them.
awk '/^\$ / { on = /^\$ target.bin.netpage / } /^```/ { on = 0 } on' "$ROOT/docs/TOUR.md" >shown
sed -n 's/^\$ //p' shown >commands
sed '/^\$ /d' shown >expected
[ -s commands ] || complains "docs/TOUR.md does not call netpage"
tries bash -e commands
exits 0
says_nothing
cmp -s out expected || complains "not what docs/TOUR.md shows"

# What the README says of netsums.
tries grep -F 'netsums prints `run ADDED TAKEN`, the sums over all picks, and then the tables as netrun prints them.' "$ROOT/README.md"
exits 0
{ echo "run 1 1"; grep -v '^pick' examples/printed-run.out; } >expected
tried="netsums < examples/printed-run.net"
netsums <examples/printed-run.net >out 2>err
cmp -s out expected || complains "not what the README says"

finish
