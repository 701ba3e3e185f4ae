#!/usr/bin/env bash
# A few seconds of random input with a seed that stays. `tests/fuzz SECONDS` tries others.
set -u
. "$(dirname "${BASH_SOURCE[0]}")/room.bash"
command -v python3 >/dev/null || { echo 'tests/fuzz.sh: skipped, the command python3 is not here'; exit 0; }
[ "$("$hkms" build </dev/null)" = 'usage refused' ] || exit 1

# Its folder stays if something is wrong, so it is not one that is removed here. In memory a sync costs nothing.
[ ! -w /dev/shm ] || export TMPDIR=/dev/shm
output=$(tests/fuzz 6 1) || { echo "$output"; exit 1; }
[ "${output%% cases*}" -ge 12 ] || { echo "tests/fuzz.sh: only $output"; exit 1; }
