#!/usr/bin/env bash
# Starts with closed standard descriptors, in all seven combinations and for each command. A closed input reads as empty, and a
# closed output can't be written: each run must end with the status, and leave the logs, of one whose input is /dev/null and whose
# output is /dev/full. No log is taken for a standard descriptor.
set -u
. "$(dirname "${BASH_SOURCE[0]}")/room.bash"

# The descriptors are closed for the program alone, and not for the script that builds it.
[ "$("$hkms" build </dev/null)" = 'usage refused' ] || exit 1
program=$PWD/crates/hkms_tool/out/hkms_tool
material=2b7e151628aed2a6abf7158809cf4f3c

cat >"$folder/replay" <<EOT
kms a create k 128 $material
nn a mkdir /d
kms a create j 128 $material
EOT
body='{"name":"k","length":128,"material":"K34VFiiu0qar9xWICc9PPA"}'
printf 'POST /kms/v1/keys?user.name=a HTTP/1.1\r\nContent-Length: %s\r\n\r\n%sPOST /nn/v1/mkdir?path=/d&user.name=a HTTP/1.1\r\n\r\n' \
    "${#body}" "$body" >"$folder/pipe"
: >"$folder/none"

# Runs the command in the array words with these descriptors closed: 1 is the input, 2 the output and 4 standard error. Its input is
# the file $2.
run_closed() {
    (
        cd "$room" || exit 99
        exec <"$2" >"$room.out" 2>"$room.errors"
        [ $(($1 & 1)) -eq 0 ] || exec <&-
        [ $(($1 & 2)) -eq 0 ] || exec >&-
        [ $(($1 & 4)) -eq 0 ] || exec 2>&-
        exec "$program" "${words[@]}"
    )
    status=$?
}

# The same with descriptors that are open, and that read and write as closed ones do.
run_open() {
    (
        cd "$room" || exit 99
        exec <"$2" >"$room.out" 2>"$room.errors"
        [ $(($1 & 1)) -eq 0 ] || exec </dev/null
        [ $(($1 & 2)) -eq 0 ] || exec >/dev/full
        [ $(($1 & 4)) -eq 0 ] || exec 2>/dev/full
        exec "$program" "${words[@]}"
    )
    status=$?
}

# Prints how the log $1 of the last two runs differs. Except in a replay, a key that was created at 18 has a moment of the clock,
# at 38.
differences() {
    cmp -l "$open/$1" "$room/$1" 2>&1 | awk -v command="${words[0]}" 'command == "replay" || !($1 > 38 && $1 <= 46)'
}

# compare NAME: compares the last two runs, that with open descriptors first.
compare() {
    same "$1: the status" "$wanted" "$status"
    same "$1: the files" "$(ls -A "$open")" "$(ls -A "$room")"
    local log
    for log in keys.log names.log; do
        [ ! -e "$open/$log" ] || same "$1: $log" '' "$(differences "$log")"
    done
    cmp -s "$open.out" "$room.out" || same "$1: the output" "$(cat "$open.out")" "$(cat "$room.out")"
}

# check NAME INPUT STATUSES: runs the command in words in all combinations. STATUSES are those for an open input and output, a
# closed input, a closed output, and both closed.
check() {
    local closed statuses
    read -r -a statuses <<<"$3"
    for closed in 1 2 3 4 5 6 7; do
        fresh
        open=$room
        run_open "$closed" "$2"
        wanted=$status
        same "$1, $closed as if closed: the status" "${statuses[closed & 3]}" "$status"
        fresh
        run_closed "$closed" "$2"
        compare "$1, $closed closed"
        [ ! -e "$room/keys.log" ] && continue
        (cd "$room" && "$program" replay </dev/null >"$room.again" 2>&1)
        same "$1, $closed closed: the next start" 0 "$?"
        same "$1, $closed closed: what the next start says" '' "$(cat "$room.again")"
    done
}

words=(replay) && check replay "$folder/replay" '0 0 8 0'
words=(pipe) && check pipe "$folder/pipe" '0 0 8 0'
words=(load 2) && check load "$folder/none" '0 0 8 8'
words=(--help) && check --help "$folder/none" '0 0 8 8'
words=(--version) && check --version "$folder/none" '0 0 8 8'
words=(build) && check 'a mistake' "$folder/none" '2 2 8 8'
words=(serve --port 0) && check 'a mistake of serve' "$folder/none" '2 2 8 8'

# ---- a server, which a client asks for a key and a directory

if ! command -v curl >/dev/null || ! command -v python3 >/dev/null; then
    echo 'tests/descriptors.sh: no server, since curl or python3 is not here'
    [ "$failures" -eq 0 ]
    exit
fi

# Runs a server by the function $1 with the descriptors $2, and asks it in one connection.
serve_once() {
    local port server
    port=$(python3 -c 'import socket; s = socket.socket(); s.bind(("127.0.0.1", 0)); print(s.getsockname()[1])')
    words=(serve --port "$port" --conns 1)
    ("$1" "$2" "$folder/none" && exit "$status") &
    server=$!
    curl -s -m 20 --retry 100 --retry-delay 1 --retry-connrefused -d "$body" "http://127.0.0.1:$port/kms/v1/keys?user.name=a" \
        --next -s -m 20 -X POST "http://127.0.0.1:$port/nn/v1/mkdir?path=/d&user.name=a" >"$room.answers"
    wait "$server"
    status=$?
    same "serve, $1 $2: the answer" '{"material":"K34VFiiu0qar9xWICc9PPA","name":"k@0"}' "$(cat "$room.answers")"
}

for closed in 1 2 3 4 5 6 7; do
    fresh
    open=$room
    serve_once run_open "$closed"
    wanted=$status
    same "serve, $closed as if closed: the status" 0 "$status"
    fresh
    serve_once run_closed "$closed"
    compare "serve, $closed closed"
    (cd "$room" && "$program" replay >"$room.again" 2>&1 <<<'kms a current k')
    same "serve, $closed closed: the next start" "1 version k@0 $material" "$(cat "$room.again")"
done

[ "$failures" -eq 0 ]
