#!/usr/bin/env bash
# A byte on the named pipe hkms.stop ends `hkms serve`: it accepts no more connections, answers the requests that it has begun, ends
# the connections that wait, and has status 0. A byte of before its start does nothing, and neither does an entry of another kind. The
# commands of the unit for systemd do what they say.
set -u
. "$(dirname "${BASH_SOURCE[0]}")/room.bash"
for tool in curl python3 mkfifo; do
    command -v "$tool" >/dev/null || { echo "tests/stop.sh: skipped, the command $tool is not here"; exit 0; }
done
[ "$("$hkms" build </dev/null)" = 'usage refused' ] || exit 1
program=$PWD/crates/hkms_tool/out/hkms_tool

# Starts a server in the room, and waits until it listens.
start() {
    port=$(python3 -c 'import socket; s = socket.socket(); s.bind(("127.0.0.1", 0)); print(s.getsockname()[1])')
    : >"$room/messages"
    (cd "$room" && exec "$program" serve --port "$port" >"$room/out" 2>"$room/messages") &
    server=$!
    for _ in $(seq 300); do
        grep -q listening "$room/messages" && return
        kill -0 "$server" 2>/dev/null || break
        sleep 0.1
    done
    echo 'tests/stop.sh: it does not listen' && cat "$room/messages" && exit 1
}

# Tells the server to end, as docs/operations.md says.
tell() {
    (cd "$room" && printf . 1<>hkms.stop)
}

# Waits for the end of the server, at most ten seconds.
finish() {
    for _ in $(seq 100); do
        kill -0 "$server" 2>/dev/null || break
        sleep 0.1
    done
    kill -KILL "$server" 2>/dev/null
    wait "$server" 2>/dev/null
    status=$?
    output=$(cat "$room/out"; sed 's/:[0-9]*$/:PORT/' "$room/messages")
}

ask() {
    curl -s -m 20 -X "$1" ${3+-d "$3"} -w ' %{http_code}' "http://127.0.0.1:$port$2"
}

key='{"name":"k","length":128,"material":"K34VFiiu0qar9xWICc9PPA"}'
ended=$'hkms: listening on 127.0.0.1:PORT\nhkms: ended with status 0'

# ---- one request has begun, one connection waits, and a third client comes too late

fresh
mkfifo -m 600 "$room/hkms.stop"
tell
start
same 'a create' '{"material":"K34VFiiu0qar9xWICc9PPA","name":"k@0"} 201' "$(ask POST '/kms/v1/keys?user.name=alice' "$key")"
cat >"$folder/clients.py" <<'EOT'
import socket, subprocess, sys, time

def connect():
    s = socket.create_connection(("127.0.0.1", int(sys.argv[1])), 10)
    s.settimeout(10)
    return s

def read_all(s):
    got = b""
    while part := s.recv(4096):
        got += part
    return got

get = b"GET /kms/v1/keys/names?user.name=a HTTP/1.1\r\n\r\n"
kept = connect()
kept.sendall(get)
first = kept.recv(4096)
begun = connect()
begun.sendall(get[:20])
time.sleep(0.3)
subprocess.run(["sh", "-c", "printf . 1<>hkms.stop"], cwd=sys.argv[2], check=True)
print("kept:", first.split(b"\r\n")[0].decode(), read_all(kept))
begun.sendall(get[20:])
print("begun:", read_all(begun).split(b"\r\n")[0].decode())
try:
    connect()
    print("late: it was let in")
except ConnectionRefusedError:
    print("late: refused")
EOT
same 'clients' $'kept: HTTP/1.1 200 OK b\'\'\nbegun: HTTP/1.1 200 OK\nlate: refused' \
    "$(timeout 60 python3 "$folder/clients.py" "$port" "$room")"
finish
expect 'a server that was told to end' 0 "$ended"
start
same 'what it acknowledged' '["k"] 200' "$(ask GET '/kms/v1/keys/names?user.name=alice')"
tell
finish
expect 'the same folder again' 0 "$ended"

# ---- the commands of the unit for systemd: they make the pipe, and wait for the end of the server

fresh
# run_unit SETTING PID: runs a command of the unit in the room, as systemd does for the server with this PID.
run_unit() {
    local command
    command=$(sed -n "s/^$1=//p" packaging/systemd/hkms.service)
    (cd "$room" && MAINPID=$2 timeout 20 bash -c "$command")
}
run_unit ExecStartPre ''
same 'the pipe of the unit' 'fifo 600' "$(stat -c '%F %a' "$room/hkms.stop")"
start
same 'a stop by the unit' '' "$(run_unit ExecStop "$server" 2>&1)"
finish
expect 'a server that the unit stopped' 0 "$ended"
same 'a stop of a server that has ended by itself' '' "$(run_unit ExecStop '' 2>&1)"

# ---- another kind of entry

fresh
: >"$room/hkms.stop"
start
same 'a server beside a file' '[] 200' "$(ask GET '/kms/v1/keys/names?user.name=alice')"
same 'what it says of the file' 'hkms: hkms.stop cannot be watched: not a named pipe' "$(head -n 1 "$room/messages")"
{ kill -KILL "$server" && wait "$server"; } 2>/dev/null

exit $((failures > 0))
