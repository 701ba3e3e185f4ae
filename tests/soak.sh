#!/usr/bin/env bash
# Some seconds of `tests/soak`: four clients make, open, rename and delete files of nested zones beside fills, rollovers and
# re-encryptions, the server is stopped or killed among them, each file opens to its key, and `hkms replay` goes on over the same logs.
set -u
. "$(dirname "${BASH_SOURCE[0]}")/room.bash"
command -v python3 >/dev/null || { echo 'tests/soak.sh: skipped, the command python3 is not here'; exit 0; }
[ "$("$hkms" build </dev/null)" = 'usage refused' ] || exit 1

# Its folder stays if something is wrong, so it is not one that is removed here. In memory a sync costs nothing.
[ ! -w /dev/shm ] || export TMPDIR=/dev/shm
output=$(tests/soak 0.0022) || { echo "$output"; exit 1; }

# How often something was done, by the last lines.
count() {
    awk -v what="$1" '{ line = $0; sub(/^ *[0-9]+  /, "", line) } line == what { n = $1 } END { print n + 0 }' <<<"$output"
}

for least in '100 requests' '20 files' '1 rolls' '1 re-encryptions' '20 compared'; do
    read -r wanted what <<<"$least"
    found=$(count "$what")
    [ "$found" -ge "$wanted" ] || { echo "tests/soak.sh: only $found $what"; exit 1; }
done
[ $(($(count kills) + $(count stops))) -ge 1 ] || { echo 'tests/soak.sh: the server did not end'; exit 1; }
