#!/usr/bin/env bash
# How `hkms serve` ends connections, and goes on without descriptors. A client that reads to the end of the stream gets its whole
# response and then the end, at once and without help of other clients, whenever no further request will be answered: also if it
# still has bytes to send. A server whose table of descriptors is full waits, and serves again once some are free.
set -u
. "$(dirname "${BASH_SOURCE[0]}")/room.bash"
for tool in curl python3; do
    command -v "$tool" >/dev/null || { echo "tests/serve_ends.sh: skipped, the command $tool is not here"; exit 0; }
done
[ "$("$hkms" build </dev/null)" = 'usage refused' ] || exit 1
program=$PWD/crates/hkms_tool/out/hkms_tool

# Starts a server in a new room, and waits until it listens. It may have $descriptors descriptors.
descriptors=1024
start() {
    fresh
    port=$(python3 -c 'import socket; s = socket.socket(); s.bind(("127.0.0.1", 0)); print(s.getsockname()[1])')
    : >"$room/messages"
    (cd "$room" && ulimit -n "$descriptors" && exec "$program" serve --port "$port" >"$room/out" 2>"$room/messages") &
    server=$!
    for _ in $(seq 300); do
        grep -q listening "$room/messages" && return
        kill -0 "$server" 2>/dev/null || break
        sleep 0.1
    done
    echo 'tests/serve_ends.sh: it does not listen' && cat "$room/messages" && exit 1
}

stop() {
    kill -KILL "$server"
    wait "$server" 2>/dev/null
}

# Asks the server for the names of its keys.
ask() {
    curl -s -m 20 -w ' %{http_code}' "http://127.0.0.1:$port/kms/v1/keys/names?user.name=a"
}

# Sends bytes and reads to the end of the stream; prints the status line and the length of the response's body, or what failed.
# Each step has eight seconds. The client doesn't end its side.
cat >"$folder/client.py" <<'EOT'
import socket, sys
port, case, rest = int(sys.argv[1]), sys.argv[2], int(sys.argv[3])
get = "GET /kms/v1/keys/names?user.name=a HTTP/1.%s\r\n"
post = "POST /kms/v1/keys?user.name=a HTTP/1.1\r\n"
heads = {
    "close": get % 1 + "Connection: close\r\n\r\n",
    "http10": get % 0 + "\r\n",
    "400": "nonsense\r\n\r\n",
    "length": post + "Content-Length: x\r\n\r\n",
    "413": post + "Content-Length: 100000000\r\n\r\n",
    "431": get % 1 + "X: " + "x" * 200000 + "\r\n\r\n",
    "501": post + "Transfer-Encoding: chunked\r\n\r\n",
}
s = socket.create_connection(("127.0.0.1", port), 8)
s.settimeout(8)
got = b""
try:
    s.sendall(heads[case].encode() + b"x" * rest)
    while part := s.recv(4096):
        got += part
except OSError as error:
    print(type(error).__name__, end=" ")
head, _, body = got.partition(b"\r\n\r\n")
lines = head.decode().split("\r\n")
length = [line for line in lines if line.startswith("Content-Length: ")]
print((lines[0].split(" ") + [""])[1], "whole" if length == ["Content-Length: %d" % len(body)] else "cut")
EOT

# end NAME CASE WANTED: sends the request CASE alone, and then with more bytes after it.
end() {
    same "$1" "$3 whole" "$(python3 "$folder/client.py" "$port" "$2" 0)"
    same "$1, with 100 bytes after it" "$3 whole" "$(python3 "$folder/client.py" "$port" "$2" 100)"
    same "$1, with 20 MB after it" "$3 whole" "$(python3 "$folder/client.py" "$port" "$2" 20000000)"
}

start
open_at_first=$(find "/proc/$server/fd" -mindepth 1 2>/dev/null | wc -l)
end 'a request that closes' close '200'
end 'a request of HTTP/1.0' http10 '200'
end 'bytes that are no request' 400 '400'
end 'a length that is no number' length '400'
end 'a body that is too long' 413 '413'
end 'a head that is too long' 431 '431'
end 'a body in chunks' 501 '501'

# The descriptors are free again, though no more connections came than may run at a time.
if [ -d "/proc/$server/fd" ]; then
    sleep 3
    same 'the descriptors of ended connections' "$open_at_first" "$(find "/proc/$server/fd" -mindepth 1 | wc -l)"
fi
failed=0
for _ in $(seq 40); do
    [ "$(python3 "$folder/client.py" "$port" close 100)" = '200 whole' ] || failed=$((failed + 1))
done
same 'failures of forty connections, one after another' 0 "$failed"
same 'a request after those' '[] 200' "$(ask)"
stop

# ---- a table of descriptors that is full

descriptors=18
start
cat >"$folder/idle.py" <<'EOT'
import socket, sys
idle = [socket.create_connection(("127.0.0.1", int(sys.argv[1]))) for _ in range(40)]
print("open", flush=True)
sys.stdin.readline()
EOT
coproc idle { exec python3 "$folder/idle.py" "$port"; }
read -r -t 20 line <&"${idle[0]}"
same 'idle clients' open "${line-}"
# It waits for a free one, and doesn't turn in circles: in two seconds it takes less than half a second of processor time.
ticks() {
    awk '{ print $14 + $15 }' "/proc/$server/stat" 2>/dev/null || echo 0
}
before=$(ticks)
sleep 2
[ $(($(ticks) - before)) -lt 50 ] || same 'the processor time of a server with a full table' '' "$(($(ticks) - before)) ticks"
kill -0 "$server" 2>/dev/null || same 'the server with a full table' running ended
echo >&"${idle[1]}"
# shellcheck disable=SC2154 # `coproc` sets it.
wait "$idle_PID" 2>/dev/null
same 'a request once the others are gone' '[] 200' "$(ask)"
same 'a second one' '[] 200' "$(ask)"
stop

[ "$failures" -eq 0 ]
