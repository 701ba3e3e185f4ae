#!/usr/bin/env bash
# Materials of versions that are not current, which the service reads from keys.log. Whatever the size of the cache, each opens to
# what its version opened to while it was current, after a restart and in another run too. If the file ends before a material, the
# call is refused by StoreFault, and the current versions go on.
set -u
. "$(dirname "${BASH_SOURCE[0]}")/room.bash"
command -v python3 >/dev/null || { echo 'tests/materials.sh: skipped, since python3 is not here'; exit 0; }
[ "$("$hkms" build </dev/null)" = 'usage refused' ] || exit 1

python3 tests/materials.py "$PWD/crates/hkms_tool/out/hkms_tool" "$quick" || failures=$((failures + 1))
exit "$((failures > 0))"
