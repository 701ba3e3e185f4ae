#!/usr/bin/env bash
# How `hkms serve` shares its places among connections. A connection that has ended gives its place back, whatever its age. A client
# that comes while no place is free gets that of the one that has waited longest for a request. A client that sends little by little
# stops nobody else. After a sync that failed the server answers what it has begun, and ends. It ends too if its listener is lost, and
# has what it answered before when it is started again.
set -u
. "$(dirname "${BASH_SOURCE[0]}")/room.bash"
command -v python3 >/dev/null || { echo 'tests/connections.sh: skipped, the command python3 is not here'; exit 0; }
[ "$("$hkms" build </dev/null)" = 'usage refused' ] || exit 1
program=$PWD/crates/hkms_tool/out/hkms_tool
before=()

# start OPTION..: starts a server in a new room, and waits until it listens.
start() {
    fresh
    port=$(python3 -c 'import socket; s = socket.socket(); s.bind(("127.0.0.1", 0)); print(s.getsockname()[1])')
    : >"$room/messages"
    (cd "$room" && exec "${before[@]}" "$program" serve --port "$port" "$@" >"$room/out" 2>"$room/messages") &
    server=$!
    for _ in $(seq 300); do
        grep -q listening "$room/messages" && return
        kill -0 "$server" 2>/dev/null || break
        sleep 0.1
    done
    echo 'tests/connections.sh: it does not listen' && cat "$room/messages" && exit 1
}

stop() {
    kill -KILL "$server"
    wait "$server" 2>/dev/null
}

# clients CASE: what the clients of a case report.
clients() {
    timeout 60 python3 tests/connections.py "$port" "$1"
}

start
same 'one client stays and fifteen have left' 'answered at once' "$(clients left)"
same 'sixteen clients stay idle' 'answered at once, the first one found the end' "$(clients idle)"
same 'sixteen clients send little by little' 'answered' "$(clients slowly)"
stop

start --connections 1
same 'one place' 'each was answered, one after another' "$(clients one)"
stop

# Each connection has a descriptor at both ends.
if (ulimit -n 2600) 2>/dev/null; then
    ulimit -n 2600
    start --connections 1000
    same 'a thousand clients stay' 'all were answered twice' "$(clients thousand)"
    stop
else
    echo 'tests/connections.sh: skipped a thousand clients, there are too few descriptors'
fi

# ---- a disk that fails, and a listener that is lost

if command -v strace >/dev/null && strace -o /dev/null true 2>/dev/null; then
    # Calls are counted thread by thread. An opening syncs each log four times, so the ninth sync of a thread is one of a change.
    before=(strace -f -o /dev/null -e trace=fdatasync -e 'inject=fdatasync:error=EIO:when=9')
    start
    same 'clients of a disk that fails' 'the requests were answered' "$(clients failing)"
    wait "$server"
    status=$?
    output=$(cat "$room/out")
    expect 'a sync that failed' 5 'store fault'
    same 'the message on standard error' 1 "$(grep -c 'sync failed' "$room/messages")"

    # An accept ends once a second if nobody comes, so the tenth one fails after some connections.
    before=(strace -f -o /dev/null -e trace=accept,accept4 -e 'inject=accept,accept4:error=EBADF:when=10+')
    start
    same 'clients of a listener that is lost' 'the key was made, and then the server was gone' "$(clients listener)"
    wait "$server"
    status=$?
    output=$(cat "$room/out")
    expect 'a listener that was lost' 9 'door fault'
    same 'the key is there after it' '1 names k' "$(cd "$room" && printf 'kms a names\n' | "$program" replay)"
else
    echo 'tests/connections.sh: skipped a disk that fails and a listener that is lost, strace does not work here'
fi

[ "$failures" -eq 0 ]
