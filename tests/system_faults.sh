#!/usr/bin/env bash
# Real files whose system calls fail: a script of both services, with each call on the logs failing in turn, in each way that a system
# has, and killed before each; then the same for a server and its client. tests/system_faults.py and tests/server_faults.py say what is
# looked at, and tests/system_faults.c what fails how.
set -u
. "$(dirname "${BASH_SOURCE[0]}")/room.bash"
for tool in cc python3 openssl; do
    command -v "$tool" >/dev/null || { echo "tests/system_faults.sh: skipped, the command $tool is not here"; exit 0; }
done
[ "$("$hkms" build </dev/null)" = 'usage refused' ] || exit 1

cc -O1 -Wall -Wextra -Werror -shared -fPIC -o "$folder/faults.so" tests/system_faults.c -ldl || exit 1
program=$PWD/crates/hkms_tool/out/hkms_tool
python3 -B tests/system_faults.py "$program" "$folder/faults.so" "$quick" || failures=$((failures + 1))
python3 -B tests/server_faults.py "$program" "$folder/faults.so" "$quick" || failures=$((failures + 1))

exit $((failures > 0))
