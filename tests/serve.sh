#!/usr/bin/env bash
# `hkms serve`: curl against a server on a port of its own. Both services are called, also by many connections at once. The server
# is killed under load and started again, and tests/headline.py reads its logs after each kill. It re-encrypts a zone while it
# serves, and, where connections end it, after the last of them. The lines for curl of docs/rest.md and the backup of
# docs/operations.md are run as the pages have them.
set -u
. "$(dirname "${BASH_SOURCE[0]}")/room.bash"
for tool in curl python3 openssl flock; do
    command -v "$tool" >/dev/null || { echo "tests/serve.sh: skipped, the command $tool is not here"; exit 0; }
done

# A port that nobody has.
free_port() {
    python3 -c 'import socket; s = socket.socket(); s.bind(("127.0.0.1", 0)); print(s.getsockname()[1])'
}

# start OPTION..: starts a server in the room, and waits until it listens.
start() {
    : >"$room/messages"
    (cd "$room" && exec "$hkms" serve --port "$port" "$@" >"$room/out" 2>"$room/messages") &
    server=$!
    for _ in $(seq 300); do
        grep -q listening "$room/messages" && return
        kill -0 "$server" 2>/dev/null || break
        sleep 0.1
    done
    echo 'tests/serve.sh: it does not listen' && cat "$room/messages" && exit 1
}

# Waits for the server to end. Its status is left in status, and what it wrote in output.
finish() {
    wait "$server" 2>/dev/null
    status=$?
    output=$(cat "$room/out")
}

# ask METHOD PATH [BODY]: what curl shows of a response: body and status.
ask() {
    curl -s -m 20 -X "$1" ${3+-d "$3"} -w ' %{http_code}' "http://127.0.0.1:$port$2"
}

# Waits until the re-encryption of /z is completed.
complete() {
    for _ in $(seq 200); do
        [[ $(ask GET '/nn/v1/status?path=/z&user.name=hdfs') != *Completed* ]] || return
        sleep 0.1
    done
}

# ---- both services, one connection after another

fresh
"$hkms" --version >/dev/null || exit 1
port=$(free_port)
start
same 'a create' '{"material":"K34VFiiu0qar9xWICc9PPA","name":"k@0"} 201' \
    "$(ask POST '/kms/v1/keys?user.name=alice' '{"name":"k","length":128,"material":"K34VFiiu0qar9xWICc9PPA"}')"
same 'a directory' ' 200' "$(ask POST '/nn/v1/mkdir?path=/z&user.name=alice')"
same 'a zone of another user' '{"RemoteException":{"exception":"NotSuperuser","message":"N6 NotSuperuser"}} 403' \
    "$(ask POST '/nn/v1/zone?path=/z&key=k&user.name=alice')"
same 'a zone' ' 200' "$(ask POST '/nn/v1/zone?path=/z&key=k&user.name=hdfs')"
ask POST '/nn/v1/mkdir?path=/empty&user.name=alice' >/dev/null
same 'a zone of no key' '{"RemoteException":{"exception":"KeyRefused","message":"N21 KeyRefused K4 NoSuchKey"}} 404' \
    "$(ask POST '/nn/v1/zone?path=/empty&key=j&user.name=hdfs')"
for name in a b c d e; do
    same "a file $name" ' 201' "$(ask POST "/nn/v1/create?path=/z/$name&user.name=alice")"
done
same 'a list' '{"answer":"list a b c d e"} 200' "$(ask GET '/nn/v1/list?path=/z&user.name=alice')"
same 'a file that exists' '{"RemoteException":{"exception":"Exists","message":"N3 Exists"}} 409' "$(ask POST '/nn/v1/create?path=/z/a&user.name=alice')"
same 'no route' '{"RemoteException":{"exception":"NoRoute","message":"NoRoute"}} 404' "$(ask GET '/nn/v1/other?user.name=a')"

# ---- a client that sends no more gets its response, and then the end

closed=$(timeout 20 python3 -c '
import socket, sys
s = socket.create_connection(("127.0.0.1", int(sys.argv[1])))
s.sendall(b"GET /kms/v1/keys/names?user.name=a HTTP/1.1\r\n\r\n")
s.shutdown(socket.SHUT_WR)
got = b""
while part := s.recv(4096):
    got += part
print(got.decode().splitlines()[-1])' "$port")
same 'the end of a connection' '["k"]' "$closed"

# ---- a second server for the folder, and one for the port

output=$(cd "$room" && "$hkms" serve --port "$(free_port)" 2>/dev/null)
status=$?
expect 'a folder that another server has' 5 'store fault'
other=$(mktemp -d -p "$folder")
output=$(cd "$other" && "$hkms" serve --port "$port" 2>/dev/null)
status=$?
expect 'a port that another server has' 9 'door fault'

# ---- a re-encryption, by the workers

ask POST '/kms/v1/key/k?user.name=alice' '{}' >/dev/null
same 'a submission' ' 200' "$(ask POST '/nn/v1/reencrypt?path=/z&user.name=hdfs')"
complete
same 'it is completed' '{"answer":"status Completed k@1 5 0 no e"} 200' "$(ask GET '/nn/v1/status?path=/z&user.name=hdfs')"
same 'each file has the new version' 5 "$(for name in a b c d e; do ask GET "/nn/v1/info?path=/z/$name&user.name=alice"; done | grep -o ' k@1:' | wc -l)"

# ---- many connections at once

requests() {
    local worker=$1 k
    for k in $(seq 20); do
        ask POST "/nn/v1/create?path=/z/$worker-$k&user.name=alice"
        ask GET "/kms/v1/key/k/_eek?eek_op=generate&num_keys=1&user.name=alice" | grep -c '"versionName":"k@1"'
    done
}
# Creates a key and rolls it.
make_key() {
    ask POST '/kms/v1/keys?user.name=alice' "{\"name\":\"$1\"}"
    ask POST "/kms/v1/key/$1?user.name=alice" '{}'
}
# Makes and deletes a key again and again, and leaves it with two versions.
replace_key() {
    for _ in $(seq 10); do
        make_key "$1"
        ask DELETE "/kms/v1/key/$1?user.name=alice"
    done
    make_key "$1"
}
versions() {
    ask GET "/kms/v1/key/$1/_versions?user.name=alice"
}
for worker in $(seq 24); do
    requests "$worker" >"$folder/worker-$worker" &
    workers[worker]=$!
done
for key in own1 own2; do
    replace_key "$key" >"$folder/$key" &
    workers+=($!)
done
wait "${workers[@]}"
same 'each file was made' 480 "$(cat "$folder"/worker-* | grep -o ' 201' | wc -l)"
same 'each key was generated' 480 "$(cat "$folder"/worker-* | sed 's/ 201//' | awk '{ n += $1 } END { print n }')"
same 'all files are there' 485 "$(ask GET '/nn/v1/list?path=/z&user.name=alice' | sed 's/"} 200$//' | tr ' ' '\n' | grep -c '^[a-e0-9]')"
declare -A shown
for key in own1 own2; do
    same "what came of $key" '11 created, 11 rolled, 10 deleted' \
        "$(sed 's/ 20[01]/&\n/g' "$folder/$key" | awk '/@0.* 201$/ { c++ } /@1.* 200$/ { r++ } /^ 200$/ { d++ } END { print c " created, " r " rolled, " d " deleted" }')"
    shown[$key]=$(versions "$key")
    same "the versions of $key" 2 "$(grep -o "\"name\":\"$key@[01]\"" <<<"${shown[$key]}" | wc -l)"
done

# ---- kills under load: each file that was answered is there, and opens by the logs; keys are as they were

for round in 1 2 3 4 5 6; do
    for worker in 1 2 3 4; do
        (for k in $(seq 1000); do
            [ "$(ask POST "/nn/v1/create?path=/z/r$round-$worker-$k&user.name=alice")" = ' 201' ] || exit
            echo "r$round-$worker-$k"
        done) >"$folder/made-$worker" &
        workers[worker]=$!
    done
    ask POST '/kms/v1/key/k?user.name=alice' '{}' >/dev/null
    ask POST '/nn/v1/reencrypt?path=/z&user.name=hdfs' >/dev/null
    sleep "0.$((round * 137 % 900 + 100))"
    kill -KILL "$server"
    finish 2>/dev/null
    wait "${workers[@]:1:4}"
    python3 tests/headline.py "$room" >"$folder/report" || same "round $round: the logs" '' "$(cat "$folder/report")"
    start
    present=$(ask GET '/nn/v1/list?path=/z&user.name=alice')
    for worker in 1 2 3 4; do
        while read -r name; do
            [[ $present == *" $name"[\ \"]* ]] || same "round $round: a file that was answered" "$name" ''
        done <"$folder/made-$worker"
    done
    complete
    same "round $round: the re-encryption went on" Completed "$(ask GET '/nn/v1/status?path=/z&user.name=hdfs' | grep -o Completed)"
done
for key in own1 own2; do
    same "the versions of $key after the kills" "${shown[$key]}" "$(versions "$key")"
done
kill -KILL "$server"
finish 2>/dev/null

# ---- a server that so many connections end: a last round completes what was submitted

start --conns 3
ask POST '/kms/v1/key/k?user.name=alice' '{}' >/dev/null
same 'a submission before the end' ' 200' "$(ask POST '/nn/v1/reencrypt?path=/z&user.name=hdfs')"
ask GET '/kms/v1/keys/names?user.name=alice' >/dev/null
finish
expect 'the connections were served' 0 ''
same 'it says that it ended' 1 "$(grep -c 'ended' "$room/messages")"
same 'the last round completed it' Completed "$(cd "$room" && printf 'nn hdfs status /z\n' | "$hkms" replay | grep -o Completed)"
python3 tests/headline.py "$room" >"$folder/report" || same 'the logs in the end' '' "$(cat "$folder/report")"

# ---- the namesystem's lines for curl in docs/rest.md

fresh
printf 'default.key.acl.%s=*\n' MANAGEMENT GENERATE_EEK DECRYPT_EEK READ >"$room/kms-acls.properties"
start
ask POST '/kms/v1/keys?user.name=alice' '{"name":"k","length":128}' >/dev/null
# shellcheck disable=SC2034
N=http://127.0.0.1:$port/nn/v1
lines=0
while read -r line; do
    lines=$((lines + 1))
    wanted=200
    [[ $line != *'/create?'* ]] || wanted=201
    got=$(eval "curl -s -m 20 -o /dev/null -w '%{http_code}' ${line#curl }")
    # The workers may have completed the re-encryption by then.
    [[ $line != *'/cancel?'* || $got != 409 ]] || got=200
    same "$line" "$wanted" "$got"
done < <(sed -n 's/^| .* | `\(curl .*"$N.*\)` |$/\1/p' docs/rest.md)
same 'each route of the namesystem has a line' 15 "$lines"

# ---- the backup of docs/operations.md: nothing is copied beside the server, which a signal ends at once

backup=$(mktemp -d -p "$folder")
line=$(sed -n 's/^    \(flock -n keys.log cp .*\)$/\1/p' docs/operations.md)
line=${line/\/backup\/hkms-1\//$backup}
(cd "$room" && eval "$line") && same 'a backup beside the server' refused made
same 'nothing was copied' '' "$(ls "$backup")"
kill "$server"
finish 2>/dev/null
same 'the signal ended it' 143 "$status"
(cd "$room" && eval "$line") || same 'a backup after the stop' made refused
same 'the backup has the key' '1 names k' "$(cd "$backup" && printf 'kms alice names\n' | "$hkms" replay)"

[ "$failures" -eq 0 ]
