#!/usr/bin/env bash
# The KMS over REST: requests as curl writes them, over a loopback connection whose bytes are the input and the output of
# `hkms pipe`, and requests written byte by byte here.
set -u
. "$(dirname "${BASH_SOURCE[0]}")/room.bash"
for tool in curl python3; do
    command -v "$tool" >/dev/null || { echo "tests/pipe.sh: skipped, the command $tool is not here"; exit 0; }
done

# The service runs in a folder of its own. The first run builds the program.
fresh
(cd "$room" && "$hkms" pipe) </dev/null
same 'the status at no request' 0 "$?"
mkfifo "$folder/hold"
(cd "$room" && python3 "$OLDPWD/tests/listen.py" "$folder/statuses" "$hkms" pipe) <"$folder/hold" >"$folder/port" &
exec 3>"$folder/hold"
until [ -s "$folder/port" ]; do sleep 0.1; done
base=http://127.0.0.1:$(cat "$folder/port")/kms/v1

# What curl shows of a response: body, status, type.
ask() {
    curl -s -w ' %{http_code} %{content_type}' "$@"
}
json() {
    ask -H 'Content-Type: application/json' "$@"
}

same 'a create' '{"material":"K34VFiiu0qar9xWICc9PPA","name":"k@0"} 201 application/json' \
    "$(json -d '{"name":"k","cipher":"AES/CTR/NoPadding","length":128,"material":"K34VFiiu0qar9xWICc9PPA"}' "$base/keys?user.name=alice")"
same 'a decryption' '{"material":"a8G-4i5An5bpPX4Rc5MXKg","name":"EK"} 200 application/json' \
    "$(json -d '{"name":"k","iv":"Dw4NDAsKCQgHBgUEAwIBAA","material":"h01hkbYg4yYb72hkmQ22zg"}' "$base/keyversion/k%400/_eek?eek_op=decrypt&user.name=alice")"
same 'a decryption of padded texts' '{"material":"a8G-4i5An5bpPX4Rc5MXKg","name":"EK"} 200 application/json' \
    "$(json -d '{"name":"k","iv":"Dw4NDAsKCQgHBgUEAwIBAA==","material":"h01hkbYg4yYb72hkmQ22zg=="}' "$base/keyversion/k@0/_eek?eek_op=decrypt&user.name=alice")"
same 'a key that stands' '{"RemoteException":{"exception":"KeyExists","message":"K6 KeyExists"}} 409 application/json' \
    "$(json -d '{"name":"k"}' "$base/keys?user.name=alice")"
same 'names' '["k"] 200 application/json' "$(ask "$base/keys/names?user.name=alice")"
same 'names without a user' '{"RemoteException":{"exception":"NoUser","message":"K2 NoUser"}} 401 application/json' "$(ask "$base/keys/names")"
same 'a path that is no route' '{"RemoteException":{"exception":"NoRoute","message":"NoRoute"}} 404 application/json' "$(ask "$base/other?user.name=a")"
same 'a method of another route' '{"RemoteException":{"exception":"BadMethod","message":"BadMethod"}} 405 application/json' \
    "$(ask -X PUT "$base/keys/names?user.name=a")"
same 'a roll with an empty body' ' 200 application/json' \
    "$(ask -X POST "$base/key/k?user.name=alice" | sed 's/^{"material":"[A-Za-z0-9_-]\{22\}","name":"k@1"}//')"
same 'a key encrypted again' '"EEK" "k@1" 200' \
    "$(json -d '{"name":"k","iv":"Dw4NDAsKCQgHBgUEAwIBAA","material":"h01hkbYg4yYb72hkmQ22zg"}' "$base/keyversion/k%400/_eek?eek_op=reencrypt&user.name=alice" |
        sed 's/^{"encryptedKeyVersion":{"material":"[A-Za-z0-9_-]\{22\}","versionName":\("EEK"\)},"iv":"Dw4NDAsKCQgHBgUEAwIBAA","versionName":\("k@1"\)} \(200\) .*/\1 \2 \3/')"
same 'two keys drawn' '2 200' "$(ask "$base/key/k/_eek?eek_op=generate&num_keys=2&user.name=alice" |
    sed 's/ application\/json$//' | awk '{ print gsub(/"versionName":"k@1"/, ""), $NF }')"
same 'the material of a version' '{"material":"K34VFiiu0qar9xWICc9PPA","name":"k@0"} 200 application/json' "$(ask "$base/keyversion/k%400?user.name=alice")"
same 'an invalidation' ' 200 ' "$(ask -X POST "$base/key/k/_invalidatecache?user.name=alice")"
same 'metadata' '{"cipher":"AES/CTR/NoPadding","description":"","length":128,"name":"k","versions":2} 200' \
    "$(ask "$base/key/k/_metadata?user.name=alice" | sed 's/"created":[0-9]*,//; s/ application\/json$//')"
same 'a body that is sent in chunks' '{"RemoteException":{"exception":"Chunked","message":"Chunked"}} 501 application/json' \
    "$(json -H 'Transfer-Encoding: chunked' -d '{"name":"c"}' "$base/keys?user.name=alice")"
same 'requests on one connection' '["k"]["k"]' "$(curl -s "$base/keys/names?user.name=a" "$base/keys/names?user.name=b")"
same 'a deletion' ' 200 ' "$(ask -X DELETE "$base/key/k?user.name=alice")"
same 'a deleted key' '{"RemoteException":{"exception":"NoSuchKey","message":"K4 NoSuchKey"}} 404 application/json' \
    "$(ask "$base/key/k/_currentversion?user.name=alice")"

# Statuses: each connection ended as curl closed it, but the one whose body came in chunks.
exec 3>&-
wait
same 'the statuses of the connections' '0 3' "$(sort -u "$folder/statuses" | tr '\n' ' ' | sed 's/ $//')"

# Requests written here. The output and the status of one process.
pipe() {
    output=$(cd "$room" && "$hkms" pipe)
    status=$?
}
names=$'HTTP/1.1 200 OK\r\nContent-Type: application/json\r\nContent-Length: 2\r\n\r\n[]'
pipe < <(printf 'GET /kms/v1/keys/names?user.name=a HTTP/1.1\r\n\r\nGET /kms/v1/keys/names?user.name=b HTTP/1.1\r\n\r\n')
same 'two requests in one read' "0 $names$names" "$status $output"
pipe < <(printf 'GET /kms/v1/keys/names?user.name=a HTTP/1.1\r\nConnection: close\r\n\r\nGET /kms/v1/keys/names?user.name=b HTTP/1.1\r\n\r\n')
same 'a request that closes' "0 $names" "$status $output"
pipe < <(printf 'GET /kms/v1/keys/names?user.name=a HTTP/1.1\r\n' && head -c 20000 /dev/zero | tr '\0' 'a')
same 'a head without an end' $'3 HTTP/1.1 431 Request Header Fields Too Large\r' "$status $(head -n 1 <<<"$output")"
pipe < <(printf 'POST /kms/v1/keys?user.name=a HTTP/1.1\r\nContent-Length: 10\r\n\r\nfour')
same 'a body that ends early' '3 ' "$status $output"
pipe < <(printf 'POST /kms/v1/keys?user.name=a HTTP/1.1\r\nContent-Length: 4194305\r\n\r\n')
same 'a body that is too long' $'3 HTTP/1.1 413 ' "$status $(head -n 1 <<<"$output" | cut -c 1-13)"
pipe < <(printf 'GET /kms/v1/keys/names?user.name=a\r\n\r\n')
same 'a line that is no request' $'3 HTTP/1.1 400 Bad Request\r' "$status $(head -n 1 <<<"$output")"
pipe < <(printf 'HEAD /kms/v1/keys/names?user.name=a HTTP/1.1\r\n\r\nGET /kms/v1/keys/names?user.name=b HTTP/1.1\r\n\r\n')
head=$'HTTP/1.1 405 Method Not Allowed\r\nContent-Type: application/json\r\nContent-Length: 67\r\n\r\n'
same 'a request for a head, and one more' "0 $head$names" "$status $output"
pipe </dev/null
same 'no request' '0 ' "$status $output"

# Verdicts.
printf '%s\n' 'default.key.acl.MANAGEMENT=*' 'default.key.acl.DECRYPT_EEK=*' 'hadoop.kms.blacklist.DECRYPT_EEK=hdfs' >"$room/kms-acls.properties"
body='{"name":"k","iv":"Dw4NDAsKCQgHBgUEAwIBAA","material":"h01hkbYg4yYb72hkmQ22zg"}'
pipe < <(printf 'POST /kms/v1/keyversion/k@0/_eek?eek_op=decrypt&user.name=hdfs HTTP/1.1\r\nContent-Length: %s\r\n\r\n%s' "${#body}" "$body")
same 'a denial' $'0 HTTP/1.1 403 Forbidden\r\n{"RemoteException":{"exception":"Denied","message":"K3 Denied ServiceBlacklist DECRYPT_EEK"}}' \
    "$status $(head -n 1 <<<"$output")"$'\n'"$(tail -n 1 <<<"$output")"
printf 'hadoop.kms.acl.READ=*' >"$room/kms-acls.properties"
pipe </dev/null
same 'properties that are refused' '3 ' "$status $output"

[ "$failures" -eq 0 ]
