#!/usr/bin/env bash
# The logs of earlier versions in tests/old_logs: each folder there has both logs as a version left them, and what hkms answers when
# it is asked for what is in a copy of them. docs/logs.md has the rule that this keeps.
#
#   tests/old_logs.sh                   compares
#   tests/old_logs.sh --make VERSION    adds the logs of the present program, as those of this version
set -u
. "$(dirname "${BASH_SOURCE[0]}")/room.bash"
old=$PWD/tests/old_logs

# answers FOLDER: what hkms answers of a copy of the logs of this folder, with the statuses of both runs.
answers() {
    local room
    room=$(mktemp -d -p "$folder") || exit 1
    cp "$1"/*.log "$room/"
    (
        cd "$room" || exit 1
        "$hkms" replay <"$1/questions.events"
        echo "status $?"
        "$hkms" pipe <"$1/questions.http"
        echo "status $?"
    ) | tr -d '\r'
}

# make_logs VERSION: makes a folder with logs, questions and answers.
make_logs() {
    local to=$old/$1
    [ ! -e "$to" ] || { echo "tests/old_logs.sh: $to is there already" >&2; return 1; }
    fresh
    (cd "$room" && "$hkms" replay <"$old/changes.events" && "$hkms" pipe <"$old/changes.http") >"$folder/made" || return 1
    if grep -a -e refused -e unknown -e '^HTTP/1.1 [345]' "$folder/made"; then return 1; fi
    mkdir "$to"
    cp "$room"/*.log "$to/"
    cp "$old"/questions.* "$to/"
    python3 tests/logs.py "$to/names.log" | grep -oE '[^ :]+@[0-9]+:[0-9a-f]{32}:[0-9a-f]+' | sort -u | tr : ' ' |
        sed 's/^/kms alice decrypt /' >>"$to/questions.events"
    answers "$to" >"$to/answers"
}

"$hkms" --version >/dev/null || exit 1
if [ "${1-}" = --make ]; then
    make_logs "$2"
    exit
fi
count=0
for logs in "$old"/*/; do
    [ -e "$logs/keys.log" ] || continue
    count=$((count + 1))
    same "the logs of $(basename "$logs")" "$(cat "$logs/answers")" "$(answers "${logs%/}")"
done
[ "$count" -gt 0 ] || { echo 'tests/old_logs.sh: there are no logs'; failures=1; }

exit $((failures > 0))
