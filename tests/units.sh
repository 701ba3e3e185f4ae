#!/usr/bin/env bash
# The units in packaging/systemd, as systemd reads them: no setting is unknown, and what they start is there.
set -u
. "$(dirname "${BASH_SOURCE[0]}")/room.bash"
command -v systemd-analyze >/dev/null || { echo "tests/units.sh: skipped, the command systemd-analyze is not here"; exit 0; }

# Copies the units to the folder $room, where they start scripts that do nothing. A sed script may change them.
place() {
    fresh
    printf '#!/bin/sh\n' >"$room/nothing"
    chmod 755 "$room/nothing"
    for unit in packaging/systemd/*; do
        sed "s#/usr/local/[a-z]*/hkms[a-z-]*#$room/nothing#; ${1-}" "$unit" >"$room/${unit##*/}"
    done
}

# What systemd says of the units.
read_units() {
    output=$(cd "$room" && SYSTEMD_LOG_TARGET=console systemd-analyze --man=no verify ./hkms.service ./hkms.socket ./hkms@.service 2>&1 | grep -E "$room|hkms[.@]")
    status=0
}

place
read_units
expect 'the units' 0 ''

# It does say something of what is wrong.
place 's/^TriggerLimitIntervalSec/TriggerLimits/'
read_units
same 'an unknown setting' 1 "$(grep -c 'hkms.socket.*TriggerLimits' <<<"$output")"
place 's#^ExecStart=.*#ExecStart=/none#'
read_units
same 'commands that are not there' 2 "$(grep -c 'Command /none is not executable' <<<"$output")"

exit $((failures > 0))
