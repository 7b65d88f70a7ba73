# What the scripts beside this one share. A script tries one program: `. "$ROOT/tests/shell/lib.sh"` first, `finish` last.
# $ROOT is the repository; the programs are on the path; the working folder is empty and goes away.
wrong=0

# tries COMMAND..: runs it; its standard output is in ./out, its standard error in ./err, its exit status in $status.
tries() {
    tried="$*"
    "$@" >out 2>err
    status=$?
}

# complains WHAT: the last try was not as it should be.
complains() {
    echo "$(basename "$0"): $tried: $1"
    sed 's/^/    out: /' out | head -n 5
    sed 's/^/    err: /' err | head -n 5
    wrong=1
}

exits() { [ "$status" -eq "$1" ] || complains "exit status $status, expected $1"; }
says() { grep -qF -- "$1" err || complains "standard error lacks: $1"; }
prints() { grep -qF -- "$1" out || complains "standard output lacks: $1"; }
prints_nothing() { [ ! -s out ] || complains "standard output is not empty"; }
says_nothing() { [ ! -s err ] || complains "standard error is not empty"; }

finish() { exit "$wrong"; }
