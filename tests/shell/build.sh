# What tools/build says that it built is there, and a plain cargo build leaves it working.
. "$ROOT/tests/shell/lib.sh"

tries grep -oE '^    (target|build)/[^ ]+' "$ROOT/tools/build"
[ "$(wc -l <out)" -eq 7 ] || complains "expected seven names"
while read -r built; do
    [ -s "$ROOT/$built" ] || complains "$built is not there"
done <out

plain_build() {
    (cd "$ROOT" && cargo build --release --offline --quiet)
}
tries plain_build
exits 0
tries nettrace "$ROOT/examples/printed-run.net"
exits 0
prints "pick 0: "

finish
