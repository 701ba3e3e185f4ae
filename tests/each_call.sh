#!/usr/bin/env bash
# One script of both services in memory: stopped at each call of the disk, with each call of the disk, the input, the properties and the
# output failing, and its logs cut and changed at each byte. tests/each_call.py says what is compared.
set -u
. "$(dirname "${BASH_SOURCE[0]}")/room.bash"
command -v python3 >/dev/null || { echo 'tests/each_call.sh: skipped, the command python3 is not here'; exit 0; }
. tests/trial_program.bash

python3 -B tests/each_call.py "$trial" "$quick"
