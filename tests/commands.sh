#!/usr/bin/env bash
# Both commands over the same logs: each finds the keys that the other made.
set -u
. "$(dirname "${BASH_SOURCE[0]}")/room.bash"

# run COMMAND: runs a command in this folder.
run() {
    output=$(cd "$room" && "$hkms" "$1" 2>"$folder/errors")
    status=$?
}

fresh
body='{"name":"k","cipher":"AES/CTR/NoPadding","length":128,"material":"K34VFiiu0qar9xWICc9PPA"}'
run pipe < <(printf 'POST /kms/v1/keys?user.name=alice HTTP/1.1\r\nContent-Length: %s\r\n\r\n%s' "${#body}" "$body")
expect 'a key that a connection creates' 0 $'HTTP/1.1 201 Created\r\nContent-Type: application/json\r\nContent-Length: 50\r\n\r\n{"material":"K34VFiiu0qar9xWICc9PPA","name":"k@0"}'
run replay <<'EOT'
kms a current k
kms a create j 128 2b7e151628aed2a6abf7158809cf4f3c
EOT
expect 'the key of the connection in a replay' 0 '1 version k@0 2b7e151628aed2a6abf7158809cf4f3c
2 version j@0 2b7e151628aed2a6abf7158809cf4f3c'
run pipe < <(printf 'GET /kms/v1/keys/names?user.name=alice HTTP/1.1\r\n\r\n')
expect 'the keys of both in a connection' 0 $'HTTP/1.1 200 OK\r\nContent-Type: application/json\r\nContent-Length: 9\r\n\r\n["j","k"]'

[ "$failures" -eq 0 ]
