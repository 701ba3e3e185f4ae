#!/usr/bin/env bash
# Edit logs that are built byte by byte, and what the program makes of each.
set -u
. "$(dirname "${BASH_SOURCE[0]}")/room.bash"

# The program is run hundreds of times, so it is built once and then run without the script that builds it.
[ "$("$hkms" build </dev/null)" = 'usage refused' ] || exit 1
python3 tests/records.py "$PWD/crates/hkms_tool/out/hkms_tool" "$quick"
