#!/usr/bin/env bash
# A server, and an operator who works with it by curl: a key, a zone and files, then a roll and a re-encryption of the zone, which
# the server's workers do while the operator watches its status. Run it as `bash examples/serve.sh`, or with another port than
# 9600 as `bash examples/serve.sh PORT`. It builds the program if its sources are newer, and works in a folder of its own.
set -u
root=$(cd "$(dirname "${BASH_SOURCE[0]}")/.." && pwd) || exit 1
port=${1-9600}
folder=$(mktemp -d) || exit 1
"$root/hkms" --version >/dev/null || exit 1

: >"$folder/messages"
(cd "$folder" && exec "$root/hkms" serve --port "$port" 2>messages) &
server=$!
# It may be stopped at any moment: what it answered is in its logs.
trap 'kill "$server"; wait; rm -rf "$folder"' EXIT
until grep -q listening "$folder/messages"; do
    kill -0 "$server" 2>/dev/null || { cat "$folder/messages"; exit 1; }
    sleep 0.1
done

# ask METHOD PATH [BODY]: sends a request, and prints it with its response, whose body is left in body.
ask() {
    local response
    response=$(curl -sS -X "$1" ${3+-d "$3"} -w ' %{http_code}' "http://127.0.0.1:$port$2") || exit 1
    body=${response% *}
    printf '%s %s %s\n    %s\n' "$1" "$2" "${3-}" "$response"
}

# open_file PATH: opens the encrypted key of a file.
open_file() {
    local edek version iv sealed
    ask GET "/nn/v1/info?path=$1&user.name=alice"
    edek=${body##* }
    edek=${edek%\"*}
    IFS=: read -r version iv sealed <<<"$edek"
    ask POST "/kms/v1/keyversion/${version/@/%40}/_eek?eek_op=decrypt&user.name=alice" \
        "{\"name\":\"${version%@*}\",\"iv\":\"$(base64url "$iv")\",\"material\":\"$(base64url "$sealed")\"}"
}

# base64url HEX: the namesystem writes bytes in hexadecimal, and the KMS takes them in base64.
base64url() {
    local hex=$1 bytes=''
    while [ -n "$hex" ]; do
        bytes+="\\x${hex:0:2}"
        hex=${hex:2}
    done
    # shellcheck disable=SC2059
    printf "$bytes" | base64 -w 0 | tr '+/' '-_'
}

echo '== A key, a zone and three files'
ask POST '/kms/v1/keys?user.name=alice' '{"name":"k","length":128}'
ask POST '/nn/v1/mkdir?path=/vault&user.name=alice'
ask POST '/nn/v1/zone?path=/vault&key=k&user.name=hdfs'
for name in a b c; do
    ask POST "/nn/v1/create?path=/vault/$name&user.name=alice"
done
open_file /vault/a

echo '== The key is rolled, and the zone is re-encrypted'
ask POST '/kms/v1/key/k?user.name=alice' '{}'
ask POST '/nn/v1/reencrypt?path=/vault&user.name=hdfs'
for _ in $(seq 100); do
    ask GET '/nn/v1/status?path=/vault&user.name=hdfs'
    [[ $body != *Completed* ]] || break
    sleep 0.1
done
[[ $body == *Completed* ]] || exit 1
open_file /vault/a
