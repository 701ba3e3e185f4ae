#!/usr/bin/env bash
# Inputs of `replay` and of `pipe` and properties that are cut short: at each fifth length, and with `tests/cuts.sh 1` at each.
# tests/cuts.py says what is compared.
set -u
. "$(dirname "${BASH_SOURCE[0]}")/room.bash"
command -v python3 >/dev/null || { echo 'tests/cuts.sh: skipped, the command python3 is not here'; exit 0; }
[ "$("$hkms" build </dev/null)" = 'usage refused' ] || exit 1

python3 -B tests/cuts.py "$PWD/crates/hkms_tool/out/hkms_tool" "$quick" "${1:-5}"
