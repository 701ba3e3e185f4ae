#!/usr/bin/env bash
# Snapshots, which share the rows that did not change: random events on two trees, and what the program answers beside a model that
# copies all rows (snapshots.py). Then many snapshots of directories of a thousand rows in little memory.
set -u
. "$(dirname "${BASH_SOURCE[0]}")/room.bash"
command -v python3 >/dev/null || { echo 'tests/snapshots.sh: skipped, the command python3 is not here'; exit 0; }

[ "$("$hkms" build </dev/null)" = 'usage refused' ] || exit 1
program=$PWD/crates/hkms_tool/out/hkms_tool
python3 -B tests/snapshots.py "$program" "$quick" 4000 1 2 3 4 || failures=1

# ---- memory

# make_rows DIRECTORY: makes it with a thousand rows in it, and lets it have snapshots.
make_rows() {
    echo "nn a mkdir /$1"
    for number in {1..1000}; do echo "nn a mkdir /$1/$number"; done
    echo "nn hdfs allow /$1"
}

# Copies of the rows would take 150 MB.
unchanged() {
    make_rows a
    for number in {1..1000}; do echo "nn a snap /a s$number"; done
}

# None of these rows has a copy in a snapshot that is left. All that were taken would need 150 MB.
removed() {
    make_rows a
    make_rows b
    for _ in {1..500}; do
        printf 'nn a snap /%s s\nnn a unsnap /%s s\n' a a b b
    done
}

# The program has 60 MB for all that it maps.
for events in unchanged removed; do
    room=$(mktemp -d -p "$quick") || exit 1
    "$events" >"$room/events"
    answers=$(cd "$room" && ulimit -v 60000 && "$program" replay <events 2>&1)
    same "snapshots of $events rows in little memory: the answers" "$(sed 's/.*/done/' "$room/events" | cat -n | awk '{ print $1, $2 }')" "$answers"
done

exit $((failures > 0))
