#!/usr/bin/env bash
# The servers of packaging/ that start a process for each connection: inetd by inetd.conf, and a socket of systemd with the path of
# hkms.socket, whose connections get the command of hkms@.service from systemd-socket-activate. Both run hkms-connection over one
# folder, one after the other.
set -u
. "$(dirname "${BASH_SOURCE[0]}")/room.bash"
PATH=$PATH:/usr/sbin:/sbin
for tool in inetd systemd-socket-activate curl flock; do
    command -v "$tool" >/dev/null || { echo "tests/activation.sh: skipped, the command $tool is not here"; exit 0; }
done
inetd -h 2>&1 | grep -q 'R rate' || { echo 'tests/activation.sh: skipped, inetd is not that of OpenBSD'; exit 0; }

# A file of packaging/, with the paths and the account of this run.
here() {
    sed "s#/run/hkms#$room#; s#/usr/local/libexec/hkms-connection#$room/connection#; s#/var/lib/hkms#$data#
        s#/usr/local/bin/hkms#$hkms#; s#\(nowait.[0-9]*\) hkms #\1 $(id -un) #" "packaging/$1"
}

# The value of a setting in such a file.
setting() {
    here "$2" | sed -n "s/^$1=-\{0,1\}//p"
}

# serve COMMAND..: starts a server, and waits for its socket.
serve() {
    "$@" >"$room/server.log" 2>&1 &
    server=$!
    for _ in $(seq 100); do [ -S "$room/kms.sock" ] && return; sleep 0.1; done
    echo 'tests/activation.sh: no socket' && cat "$room/server.log" && exit 1
}
stop() {
    kill "$server"
    wait "$server" 2>/dev/null
    rm -f "$room/kms.sock"
}

# What curl shows of a response: body and status.
ask() {
    curl -s --http0.9 --unix-socket "$room/kms.sock" -w ' %{http_code}' "$@"
}
base=http://localhost/kms/v1
decrypt() {
    ask -d '{"name":"k","iv":"Dw4NDAsKCQgHBgUEAwIBAA","material":"h01hkbYg4yYb72hkmQ22zg"}' "$base/keyversion/k%400/_eek?eek_op=decrypt&user.name=alice"
}
decrypted='{"material":"a8G-4i5An5bpPX4Rc5MXKg","name":"EK"} 200'

fresh
data=$quick/data
mkdir "$data"
"$hkms" --help >/dev/null || exit 1
here pipe/hkms-connection >"$room/connection"
chmod 700 "$room/connection"
here pipe/inetd.conf >"$room/inetd.conf"
socket=$(setting ListenStream systemd/hkms.socket)
command=$(setting ExecStart systemd/hkms@.service)
trap 'kill "$server"; wait; rm -rf "$folder" "$quick"' EXIT

serve inetd -i "$room/inetd.conf"
same 'inetd: a create' '{"material":"K34VFiiu0qar9xWICc9PPA","name":"k@0"} 201' \
    "$(ask -d '{"name":"k","length":128,"material":"K34VFiiu0qar9xWICc9PPA"}' "$base/keys?user.name=alice")"
same 'inetd: a decryption' "$decrypted" "$(decrypt)"
same 'inetd: many at once' '20 ["k"] 200' \
    "$(for _ in $(seq 20); do { printf "%s\n" "$(ask "$base/keys/names?user.name=alice")"; } & done | sort | uniq -c | sed 's/^ *//')"
stop
serve inetd -i "$room/inetd.conf"
same 'inetd: a decryption after a restart' "$decrypted" "$(decrypt)"
mv "$data/keys.log" "$data/keys.kept"
mkdir "$data/keys.log"
same 'inetd: no message for the client' ' 000' "$(ask "$base/keys/names?user.name=alice")"
rmdir "$data/keys.log"
mv "$data/keys.kept" "$data/keys.log"
stop

serve systemd-socket-activate --accept --inetd --listen="$socket" "$command"
same 'systemd: a decryption' "$decrypted" "$(decrypt)"
same 'systemd: a create' '{"material":"AAECAwQFBgcICQoLDA0ODw","name":"j@0"} 201' \
    "$(ask -d '{"name":"j","length":128,"material":"AAECAwQFBgcICQoLDA0ODw"}' "$base/keys?user.name=alice")"
same 'systemd: a request that is no HTTP' 400 "$(ask -o /dev/null -X 'A B' "$base/keys" | tr -d ' ')"
stop
serve systemd-socket-activate --accept --inetd --listen="$socket" "$command"
same 'systemd: many at once after a restart' '20 ["j","k"] 200' \
    "$(for _ in $(seq 20); do { printf "%s\n" "$(ask "$base/keys/names?user.name=alice")"; } & done | sort | uniq -c | sed 's/^ *//')"

exit $((failures > 0))
