#!/usr/bin/env bash
# What may stand in place of kms-acls.properties and of the logs. Only if there is no entry of that name may everybody do
# everything: any other entry that isn't a file, or a link to one, is a fault, and none is waited for.
set -u
. "$(dirname "${BASH_SOURCE[0]}")/room.bash"

[ "$("$hkms" build </dev/null)" = 'usage refused' ] || exit 1
program=$PWD/crates/hkms_tool/out/hkms_tool
properties=kms-acls.properties

# run COMMAND..: runs the program in this folder, with the input given. A run that waits is ended.
run() {
    output=$(cd "$room" && timeout 20 "$program" "$@" 2>"$folder/errors")
    status=$?
}

# refuse NAME: each command must end with 7 and make no log.
refuse() {
    run replay <<<'kms a create k 128 -'
    expect "$1" 7 'read fault'
    run pipe < <(printf 'GET /kms/v1/keys/names?user.name=a HTTP/1.1\r\n\r\n')
    expect "$1 under pipe" 7 ''
    run serve --port 9 --conns 1
    expect "$1 under serve" 7 'read fault'
    same "$1: a message" 1 "$(grep -c "^hkms: $properties cannot be opened here: ." "$folder/errors")"
    same "$1: what is there" "$properties" "$(cd "$room" && ls -A)"
}

fresh
ln -s gone "$room/$properties"
refuse 'a link that leads nowhere'
fresh
ln -s "$properties" "$room/$properties"
refuse 'a link to itself'
fresh
mkdir "$room/$properties"
refuse 'a folder'
fresh
ln -s /tmp "$room/$properties"
refuse 'a link to a folder'
fresh
mkfifo "$room/$properties"
refuse 'a named pipe'
fresh
mkfifo "$folder/pipe"
ln -s "$folder/pipe" "$room/$properties"
refuse 'a link to a named pipe'
for device in /dev/null /dev/zero; do
    fresh
    ln -s "$device" "$room/$properties"
    refuse "a link to $device"
done
if command -v python3 >/dev/null; then
    fresh
    (cd "$room" && python3 -c 'import socket, sys; socket.socket(socket.AF_UNIX).bind(sys.argv[1])' "$properties")
    refuse 'a socket'
fi
if [ "$(id -u)" -ne 0 ]; then
    fresh
    : >"$room/$properties"
    chmod 0 "$room/$properties"
    refuse 'a file that may not be read'
fi

# ---- what is read

fresh
run replay <<<'kms a create k 128 -'
same 'no entry' '0 1 version k@0' "$status ${output% *}"
fresh
printf 'default.key.acl.MANAGEMENT=b\n' >"$folder/lists"
ln -s "$folder/lists" "$room/$properties"
run replay <<<'kms a create k 128 -'
expect 'a link to a file' 0 '1 refused K3 Denied DefaultAcl MANAGEMENT'
fresh
ln -s "$folder/lists" "$folder/link"
ln -s "$folder/link" "$room/$properties"
run replay <<<'kms a create k 128 -'
expect 'a link to a link to a file' 0 '1 refused K3 Denied DefaultAcl MANAGEMENT'

# ---- logs that are no files

for log in keys.log names.log; do
    fresh
    mkfifo "$room/$log"
    run replay <<<'kms a create k 128 -'
    expect "a named pipe as $log" 5 'store fault'
    run pipe </dev/null
    expect "a named pipe as $log under pipe" 5 ''
    run serve --port 9 --conns 1
    expect "a named pipe as $log under serve" 5 'store fault'
    fresh
    mkdir "$room/$log"
    run replay <<<'kms a create k 128 -'
    expect "a folder as $log" 5 'store fault'
    fresh
    ln -s /dev/zero "$room/$log"
    run replay <<<'kms a create k 128 -'
    expect "a link to a device as $log" 5 'store fault'
done

[ "$failures" -eq 0 ]
