#!/usr/bin/env bash
# Requests byte by byte: heads, lengths, bodies and ends of a connection. Each case is a connection of its own. Bytes are
# given as formats of printf.
# shellcheck disable=SC2059
set -u
. "$(dirname "${BASH_SOURCE[0]}")/room.bash"
fresh

# A request that is answered by 200.
names=$'GET /kms/v1/keys/names?user.name=a HTTP/1.1\r\n\r\n'

# answered NAME STATUS RESPONSES: serves standard input, and compares the status of the process and its responses: the
# status of each, and its exception if it has one.
answered() {
    output=$(cd "$room" && "$hkms" pipe | grep -aoE 'HTTP/1\.1 [0-9]{3} |"exception":"[A-Za-z]+"' |
        sed 's/HTTP.1.1 \([0-9]*\) /\1/; s/"exception":"\(.*\)"/\1/' | tr '\n' ' ' | sed 's/ $//'; exit "${PIPESTATUS[0]}")
    status=$?
    expect "$1" "$2" "$3"
}

# accepts REQUEST: REQUEST, as printf writes it, is one request. It has no route, and the next one is answered.
accepts() {
    answered "the request $1" 0 '404 NoRoute 200' < <(printf "$1"; printf '%s' "$names")
}

# refuses BYTES RESPONSE: BYTES are answered so after a request, and the connection ends before the next one.
refuses() {
    answered "the bytes $1" 3 "200 $2" < <(printf '%s' "$names"; printf "$1"; printf '%s' "$names")
}

# ends BYTES STATUS: the input ends with BYTES, which are not answered.
ends() {
    answered "an end with $1" "$2" '200' < <(printf '%s' "$names"; printf "$1")
}

# closes REQUEST: the connection ends after the response to REQUEST.
closes() {
    answered "the last request $1" 0 '404 NoRoute' < <(printf "$1"; printf '%s' "$names")
}

# responds BYTES RESPONSE NAME: BYTES are answered by the status line and the exception, in a whole response.
responds() {
    local body="{\"RemoteException\":{\"exception\":\"$3\",\"message\":\"$3\"}}"
    output=$(cd "$room" && printf "$1" | "$hkms" pipe)
    status=$?
    expect "the response to $1" 3 "HTTP/1.1 $2"$'\r\nContent-Type: application/json\r\nContent-Length: '"${#body}"$'\r\n\r\n'"$body"
}

# Heads.
accepts '\r\nGET /x HTTP/1.1\r\n\r\n'
accepts 'GET /x HTTP/1.1\n\n'
accepts 'GET /\xc3\xa4 HTTP/1.1\r\n\n'
refuses 'x\r\n\r\n' '400 BadHead'
refuses '\r\n\r\n' '400 BadHead'
refuses '\n\nGET /x HTTP/1.1\n\n' '400 BadHead'
refuses 'GET /x HTTP/1.2\r\n\r\n' '400 BadHead'
refuses 'GET /\xff HTTP/1.1\r\n\r\n' '400 BadHead'
refuses 'GET /x HTTP/1.1\r\nHost : a\r\n\r\n' '400 BadHead'
refuses 'GET /x HTTP/1.1\r\na: b\r\n c\r\n\r\n' '400 BadHead'

# Lengths of bodies. The bytes after a body are the next request.
accepts 'POST /x HTTP/1.1\r\nHost: a\r\n\r\n'
accepts 'POST /x HTTP/1.1\r\ncontent-length:4\r\n\r\nabcd'
accepts 'POST /x HTTP/1.1\r\nCONTENT-LENGTH: 4 \r\nContent-Length: 4\r\n\r\nabcd'
accepts 'POST /x HTTP/1.1\r\nContent-Length: 4\r\nContent-Length: 004\r\n\r\nabcd'
accepts 'POST /x HTTP/1.1\r\nContent-Length: 0000000000000000003\r\n\r\nabc'
accepts 'POST /x HTTP/1.1\r\nContent-Length: 2\r\nExpect: 100-continue\r\n\r\nab'
for length in x +4 '' '4, 4' $'4\r\nContent-Length: 5' 00000000000000000003; do
    refuses "POST /x HTTP/1.1\r\nContent-Length: $length\r\n\r\n" '400 BadLength'
done
refuses 'POST /x HTTP/1.1\r\nContent-Length: 9999999999999999999\r\n\r\n' '413 BodyTooLong'
refuses 'POST /x HTTP/1.1\r\nContent-Length: 4194305\r\n\r\n' '413 BodyTooLong'
for field in 'Transfer-Encoding: chunked' 'TRANSFER-encoding: identity' $'Content-Length: x\r\ntransfer-encoding: chunked' \
    $'Content-Length: 9999999\r\nTransfer-Encoding:'; do
    refuses "POST /x HTTP/1.1\r\n$field\r\n\r\n" '501 Chunked'
done
responds 'POST /x HTTP/1.1\r\nContent-Length: 4194305\r\n\r\n' '413 Payload Too Large' BodyTooLong
responds 'POST /x HTTP/1.1\r\nTransfer-Encoding: chunked\r\n\r\n' '501 Not Implemented' Chunked

# Ends of the input: between two requests, in a head and in a body.
ends '' 0
ends '\n' 3
ends 'GET /x HTTP/1.1\r\n\r' 3
ends 'GET /kms/v1/keys/names?user.name=a HTTP/1.1\r\n' 3
ends 'POST /x HTTP/1.1\r\nContent-Length: 4194304\r\n\r\nabcdef' 3
ends 'POST /x HTTP/1.1\r\nContent-Length: 7\r\n\r\nabcdef' 3
answered 'no bytes' 0 '' </dev/null

# Requests that keep the connection, and requests that don't.
accepts 'GET /x HTTP/1.1\nConnection: closed\n\n'
accepts 'GET /x HTTP/1.1\nConnections: close\n\n'
closes 'GET /x HTTP/1.0\n\n'
closes 'GET /x HTTP/1.0\nConnection: keep-alive\n\n'
closes 'GET /x HTTP/1.1\nConnection: Close\n\n'
closes 'GET /x HTTP/1.1\nCONNECTION:  close \n\n'

# letters COUNT
letters() {
    head -c "$1" /dev/zero | tr '\0' x
}

# head_of SIZE: a head with this many bytes.
head_of() {
    printf 'GET /x HTTP/1.1\r\nX: '
    letters $(($1 - 24))
    printf '\r\n\r\n'
}

# Heads have at most 16,384 bytes.
for size in 16383 16384; do
    answered "a head of $size bytes" 0 '404 NoRoute 200' < <(head_of "$size"; printf '%s' "$names")
done
answered 'a head of 16,385 bytes' 3 '431 HeadTooLong' < <(head_of 16385; printf '%s' "$names")
answered '16,383 bytes of a head' 3 '' < <(letters 16383)
answered '16,384 bytes of a head' 3 '431 HeadTooLong' < <(letters 16384)

# with_fields COUNT: a request with this many fields.
with_fields() {
    printf 'GET /x HTTP/1.1\r\n'
    for ((field = 0; field < $1; field++)); do printf 'a: b\r\n'; done
    printf '\r\n'
}

# Heads have at most 64 fields.
answered '64 fields' 0 '404 NoRoute 200' < <(with_fields 64; printf '%s' "$names")
answered '65 fields' 3 '400 BadHead' < <(with_fields 65; printf '%s' "$names")

# Bodies have at most 4,194,304 bytes.
answered 'a body of 4 MiB' 0 '404 NoRoute 200' < <(printf 'POST /x HTTP/1.1\nContent-Length: 4194304\n\n'; letters 4194304; printf '%s' "$names")

[ "$failures" -eq 0 ]
