# The archive for C needs memcpy and memset from outside and nothing else, as its header says.
. "$ROOT/tests/shell/lib.sh"

tries grep -F 'It needs memcpy and memset of the C library and nothing else' "$ROOT/include/tivgeral.h"
exits 0

# A line of nm that names something has two words, a letter and the name.
from_outside() {
    set -o pipefail
    nm -u "$ROOT/target/staticlib/libtivgeral.a" | awk 'NF == 2 { print $2 }' | sort -u
}
tries from_outside
exits 0
says_nothing
[ "$(cat out)" = "$(printf 'memcpy\nmemset')" ] || complains "expected memcpy and memset alone"

finish
