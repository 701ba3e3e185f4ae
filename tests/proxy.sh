#!/usr/bin/env bash
# nginx by packaging/nginx/hkms.conf, which asks for a client certificate and names its holder as the user. First socat gives each
# connection to a process of its own, by packaging/pipe/hkms-connection, and then `hkms serve` has all of them. No client can name
# another user, in neither service.
set -u
. "$(dirname "${BASH_SOURCE[0]}")/room.bash"
for tool in nginx socat openssl curl flock python3; do
    command -v "$tool" >/dev/null || { echo "tests/proxy.sh: skipped, the command $tool is not here"; exit 0; }
done

# A file of packaging/, with the paths of this folder.
here() {
    sed "s#/run/hkms#$room#; s#/etc/hkms#$room#; s#/var/lib/hkms#$room/data#; s#listen 9643#listen unix:$room/tls.sock#; s#/usr/local/bin/hkms#$hkms#" \
        "packaging/$1"
}

# certificate NAME SUBJECT: makes NAME.key and NAME.pem, by the authority of this folder.
certificate() {
    openssl req -newkey rsa:2048 -nodes -keyout "$room/$1.key" -out "$room/$1.csr" -subj "$2" &&
        openssl x509 -req -in "$room/$1.csr" -CA "$room/ca.pem" -CAkey "$room/ca.key" -CAcreateserial -days 2 -out "$room/$1.pem"
} >/dev/null 2>&1

# What a client with this certificate gets: body and status.
ask() {
    local who=$1
    shift
    curl -s --unix-socket "$room/tls.sock" --insecure --cert "$room/$who.pem" --key "$room/$who.key" -w ' %{http_code}' "$@"
}

fresh
mkdir "$room/data"
printf '%s\n' hadoop.kms.acl.GET_KEYS=alice 'default.key.acl.MANAGEMENT=*' >"$room/data/kms-acls.properties"
"$hkms" --help >/dev/null || exit 1
openssl req -x509 -newkey rsa:2048 -nodes -keyout "$room/ca.key" -out "$room/ca.pem" -days 2 -subj /CN=ca 2>/dev/null || exit 1
certificate server /O=Example/CN=localhost && certificate alice /O=Example/CN=alice && certificate bob /O=Example/CN=bob || exit 1
certificate odd '/O=Example/CN=alice&user.name=bob' && certificate other /O=Other/CN=alice || exit 1
certificate hdfs /O=Example/CN=hdfs || exit 1

here pipe/hkms-connection >"$room/connection"
chmod 700 "$room/connection"
{
    [ "$(id -u)" -ne 0 ] || echo 'user root;'
    printf 'daemon off;\npid %s/nginx.pid;\nerror_log %s/error.log;\nevents {}\nhttp {\naccess_log off;\n' "$room" "$room"
    for kind in client_body proxy fastcgi uwsgi scgi; do echo "${kind}_temp_path $room/$kind;"; done
    here nginx/hkms.conf
    echo '}'
} >"$room/nginx.conf"
same 'both services have a location' 2 "$(grep -c '^ *location .* proxy_pass' "$room/nginx.conf")"
server=
nginx=
trap 'kill $server $nginx 2>/dev/null; wait; rm -rf "$folder" "$quick"' EXIT

# start_nginx: starts nginx, and waits until it listens.
start_nginx() {
    nginx -c "$room/nginx.conf" -e "$room/error.log" &
    nginx=$!
    for _ in $(seq 100); do [ -S "$room/tls.sock" ] && return; sleep 0.1; done
    echo 'tests/proxy.sh: nginx does not listen' && cat "$room/error.log" && exit 1
}

base=https://localhost/kms/v1
files=https://localhost/nn/v1
twice='{"RemoteException":{"exception":"BadRequest","message":"K1 BadRequest"}} 400'
not_superuser='{"RemoteException":{"exception":"NotSuperuser","message":"N6 NotSuperuser"}} 403'

# names_no_other WHAT: whoever asks is the user of the certificate, in both services and whatever the query says.
names_no_other() {
    same "$1: names of keys for alice" '["j","k"] 200' "$(ask alice "$base/keys/names")"
    same "$1: names of keys for bob" '{"RemoteException":{"exception":"Denied","message":"K3 Denied ServiceAcl GET_KEYS"}} 403' \
        "$(ask bob "$base/keys/names")"
    same "$1: zones for hdfs" '{"answer":"zones"} 200' "$(ask hdfs "$files/zones")"
    same "$1: zones for alice" "$not_superuser" "$(ask alice "$files/zones")"
    for other in user.name=hdfs user%2Ename=hdfs 'x=1&user.name=hdfs' user.name= doAs=hdfs; do
        same "$1: keys, $other" "$twice" "$(ask bob "$base/keys/names?$other")"
        same "$1: files, $other" "$twice" "$(ask alice "$files/zones?$other")"
        same "$1: files, $other, a change" "$twice" "$(ask alice -X POST "$files/allow?path=/d&$other")"
    done
    same "$1: files, a query inside the path" '{"RemoteException":{"exception":"NoRoute","message":"NoRoute"}} 404' \
        "$(ask alice "$files/zones%3Fuser.name=hdfs%26x=")"
    same "$1: files, by the path of keys" "$not_superuser" "$(ask alice --path-as-is "$base/../../nn/v1/zones")"
    same "$1: no location" 404 "$(ask alice -o /dev/null "https://localhost/other?user.name=hdfs" | tr -d ' ')"
    for who in odd other; do
        same "$1: files, the subject of $who" 403 "$(ask "$who" -o /dev/null "$files/zones?user.name=hdfs" | tr -d ' ')"
    done
    same "$1: HEAD" '405' "$(ask alice -I -o /dev/null -m 10 "$base/keys/names" | tr -d ' ')"
}

socat UNIX-LISTEN:"$room/kms.sock",mode=660,fork,max-children=1,backlog=64 EXEC:"$room/connection" 2>"$room/socat.log" &
server=$!
for _ in $(seq 100); do [ -S "$room/kms.sock" ] && break; sleep 0.1; done
start_nginx
same 'a create' '{"material":"K34VFiiu0qar9xWICc9PPA","name":"k@0"} 201' \
    "$(ask alice -d '{"name":"k","length":128,"material":"K34VFiiu0qar9xWICc9PPA"}' "$base/keys")"
same 'names' '["k"] 200' "$(ask alice "$base/keys/names")"
same 'a body in chunks' '{"material":"AAECAwQFBgcICQoLDA0ODw","name":"j@0"} 201' \
    "$(ask bob -H 'Transfer-Encoding: chunked' -d '{"name":"j","material":"AAECAwQFBgcICQoLDA0ODw"}' "$base/keys")"
same 'names for bob' '{"RemoteException":{"exception":"Denied","message":"K3 Denied ServiceAcl GET_KEYS"}} 403' "$(ask bob "$base/keys/names")"
same 'another user' "$twice" "$(ask bob "$base/keys/names?user.name=alice")"
same 'another user, escaped' "$twice" "$(ask bob "$base/keys/names?user%2Ename=alice&x=1")"
same 'doAs' "$twice" "$(ask bob "$base/keys/names?doAs=alice")"
same 'a query inside the path' '{"RemoteException":{"exception":"NoRoute","message":"NoRoute"}} 404' \
    "$(ask bob "$base/keys/names%3Fuser.name=alice%26x=")"
for who in odd other; do
    same "the subject of $who" 403 "$(ask "$who" -o /dev/null "$base/keys/names" | tr -d ' ')"
done
same 'no certificate' 400 "$(curl -s --unix-socket "$room/tls.sock" --insecure -o /dev/null -w '%{http_code}' "$base/keys/names")"
same 'many at once' '20 ["j","k"] 200' "$(for _ in $(seq 20); do { ask alice "$base/keys/names"; echo; } & done | sort | uniq -c | sed 's/^ *//')"
same 'a directory' ' 200' "$(ask alice -X POST "$files/mkdir?path=/d")"
names_no_other pipe

# The same over a server, as docs/operations.md says: its port in place of the socket.
kill "$server" "$nginx"
wait
rm -f "$room/tls.sock"
port=$(python3 -c 'import socket; s = socket.socket(); s.bind(("127.0.0.1", 0)); print(s.getsockname()[1])')
sed -i "s#proxy_pass http://unix:[^;]*;#proxy_pass http://127.0.0.1:$port;#" "$room/nginx.conf"
(cd "$room/data" && exec "$hkms" serve --port "$port" 2>"$room/messages") &
server=$!
for _ in $(seq 300); do grep -q listening "$room/messages" && break; sleep 0.1; done
start_nginx
names_no_other serve

exit $((failures > 0))
