#!/usr/bin/env bash
# Zones that lie in zones: random events on small trees, and what the program answers beside the model of inner_zones.py.
set -u
. "$(dirname "${BASH_SOURCE[0]}")/room.bash"
command -v python3 >/dev/null || { echo 'tests/inner_zones.sh: skipped, the command python3 is not here'; exit 0; }

[ "$("$hkms" build </dev/null)" = 'usage refused' ] || exit 1
python3 -B tests/inner_zones.py "$PWD/crates/hkms_tool/out/hkms_tool" "$quick" 2500 1 2 3 4 5 6
