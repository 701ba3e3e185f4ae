#!/usr/bin/env bash
# `--dir FOLDER` before a command: each program does with that folder what it does when it is started there, and makes nothing in the
# folder that it is started in. A folder that cannot be entered ends it with status 5 and a message, and nothing is made.
set -u
. "$(dirname "${BASH_SOURCE[0]}")/room.bash"

hkms=${HKMS:-$hkms}
hkfs=${HKFS:-$PWD/hkfs}
hkcopy=${HKCOPY:-$PWD/hkcopy}
for program in "$hkms" "$hkfs" "$hkcopy"; do
    "$program" --version >/dev/null || exit 1
done
elsewhere=$folder/elsewhere
mkdir "$elsewhere" || exit 1

# run PROGRAM WORD..: runs a program elsewhere, on standard input.
run() {
    local program=${!1}
    shift
    output=$(cd "$elsewhere" && timeout 60 "$program" "$@" 2>"$folder/errors")
    status=$?
    same "what $* makes where it is started" '' "$(ls -A "$elsewhere")"
}

# run_there PROGRAM WORD..: runs a program in the room.
run_there() {
    local program=${!1}
    shift
    output=$(cd "$room" && timeout 60 "$program" "$@" 2>"$folder/errors")
    status=$?
}

# files NAME WANTED: the entries of the room.
files() {
    same "$1: the files" "$2" "$(cd "$room" && LC_ALL=C ls -A | tr '\n' ' ')"
}

material=2b7e151628aed2a6abf7158809cf4f3c
request=$'GET /kms/v1/keys/names?user.name=alice HTTP/1.1\r\n\r\n'

# ---- the files of the folder are used, and no others

fresh
run hkms --dir "$room" replay <<<"kms alice create k 128 $material"
expect 'a key by an absolute path' 0 "1 version k@0 $material"
files 'a key by an absolute path' 'keys.log names.log '
run hkms "--dir=../$(basename "$room")" replay <<<'nn alice mkdir /data'
expect 'a directory by a relative path' 0 '1 done'
run hkms --dir "$room/./" pipe < <(printf %s "$request")
piped=$output
expect 'a connection' 0 "$piped"
run_there hkms pipe < <(printf %s "$request")
expect 'the same connection in the folder' 0 "$piped"
grep -qx '\["k"\]' <<<"$piped" || { echo "tests/folder.sh: no key in: $piped" && failures=$((failures + 1)); }
run_there hkms replay < <(printf '%s\n' 'kms alice names' 'nn alice info /data')
made=$output
run hkms --dir "$room" replay < <(printf '%s\n' 'kms alice names' 'nn alice info /data')
expect 'what a run in the folder sees' 0 "$made"

# its properties
printf '%s\n' 'default.key.acl.MANAGEMENT=*' 'default.key.acl.READ=bob' >"$room/kms-acls.properties"
run hkms --dir "$room" replay < <(printf '%s\n' 'kms alice current k' 'kms bob current k')
expect 'the properties of the folder' 0 "1 refused K3 Denied DefaultAcl READ
2 version k@0 $material"

# bodies, and copies of them
fresh
run hkms --dir "$room" replay < <(printf '%s\n' 'kms a create k 128 -' 'nn a mkdir /z' 'ask hdfs zone /z k' 'draw 1' 'finish 1')
head -c 6000 /dev/urandom >"$folder/bytes"
run hkfs --dir "$room" put alice /z/b <"$folder/bytes"
expect 'a put' 0 'put 6000'
files 'a put' 'bodies keys.log names.log '
run hkcopy --dir "$room" copy /.reserved/raw/z /w/z </dev/null
expect 'a copy' 0 'copied 1 1'
files 'a copy' 'backup bodies copies keys.log names.log '
for reader in 'hkfs /z/b' 'hkcopy /w/z/b'; do
    read -r program path <<<"$reader"
    (cd "$elsewhere" && "${!program}" "--dir=$room" read alice "$path" 0 9000 </dev/null >"$folder/range")
    cmp "$folder/bytes" "$folder/range" || failures=$((failures + 1))
    (cd "$room" && "${!program}" read alice "$path" 0 9000 </dev/null >"$folder/range")
    cmp "$folder/bytes" "$folder/range" || failures=$((failures + 1))
done

# a name that begins with -, and a link to a folder
mkdir "$folder/-d"
room=$folder/-d
run hkms --dir=../-d replay <<<'kms alice names'
expect 'a folder whose name begins with -' 0 '1 names'
files 'a folder whose name begins with -' 'keys.log names.log '
ln -s "$room" "$folder/link"
run hkms --dir ../link replay <<<"kms alice create k 128 $material"
expect 'a link to a folder' 0 "1 version k@0 $material"

# ---- a folder that cannot be entered

# refused NAME FOLDER WHY: each command ends with status 5, and tells why.
refused() {
    local program command
    for command in 'hkms replay' 'hkms pipe' 'hkms serve --port 9' 'hkfs put alice /a' 'hkfs read alice /a 0 1' \
        'hkcopy copy /.reserved/raw/z /w' 'hkcopy read alice /a 0 1'; do
        program=${command%% *}
        # shellcheck disable=SC2086
        run "$program" --dir "$2" ${command#* } </dev/null
        expect "$1: $command" 5 "$([ "$command" = 'hkms pipe' ] || echo 'store fault')"
        same "$1: what $command says" "$program: the folder $2 cannot be opened: $3" "$(cat "$folder/errors")"
    done
}

refused 'a folder that is missing' "$folder/gone" 'No such file or directory (os error 2)'
[ ! -e "$folder/gone" ] || { echo 'tests/folder.sh: the missing folder was made' && failures=$((failures + 1)); }
refused 'no name' '' 'No such file or directory (os error 2)'
refused 'a file' "$folder/bytes" 'Not a directory (os error 20)'
if [ "$(id -u)" -ne 0 ]; then
    mkdir -m 000 "$folder/closed"
    refused 'a folder without permission' "$folder/closed" 'Permission denied (os error 13)'
fi

# ---- what is no such option

# usage PROGRAM WORD..: the words are a mistake, and make nothing.
usage() {
    run "$@" </dev/null
    expect "the words $*" 2 'usage refused'
}

fresh
for program in hkms hkfs hkcopy; do
    command='read alice /a 0 1'
    [ "$program" != hkms ] || command=replay
    # shellcheck disable=SC2086
    for words in '--dir' "--dir $room" "--dir $room --dir $room $command" "--dir=$room --dir=$room $command" \
        "$command --dir $room" "--dir -x $command" "--dir $command" "--folder $room $command" "-d $room $command"; do
        usage "$program" $words
    done
done
usage hkms --dir "$room" serve --port +1
usage hkms --dir "$folder/gone" serve --port x
usage hkfs --dir "$room" put '' /a
files 'words that are refused' ''
run hkms --dir "$folder/gone" --version </dev/null
expect 'the version' 0 'hkms 0.1.0'
run hkms --dir "$folder/gone" load 3 </dev/null
output=
expect 'a load, which uses no files' 0 ''
for program in hkms hkfs hkcopy; do
    run "$program" --help </dev/null
    grep -qE '^ +--dir <FOLDER> +Use the files of FOLDER, not those of the current folder$' <<<"$output" ||
        { echo "tests/folder.sh: $program --help has no --dir" && failures=$((failures + 1)); }
done

# ---- a server, and its named pipe

for tool in curl python3 mkfifo; do
    command -v "$tool" >/dev/null || { echo "tests/folder.sh: no server was started, the command $tool is not here"; exit $((failures > 0)); }
done
port=$(python3 -c 'import socket; s = socket.socket(); s.bind(("127.0.0.1", 0)); print(s.getsockname()[1])')
fresh
mkfifo -m 600 "$room/hkms.stop"
(cd "$elsewhere" && exec "$hkms" --dir "$room" serve --port "$port" >"$folder/out" 2>"$folder/messages") &
server=$!
for _ in $(seq 300); do
    grep -q listening "$folder/messages" && break
    kill -0 "$server" 2>/dev/null || break
    sleep 0.1
done
key="{\"name\":\"k\",\"length\":128,\"material\":\"K34VFiiu0qar9xWICc9PPA\"}"
same 'a key from a server' '{"material":"K34VFiiu0qar9xWICc9PPA","name":"k@0"}' \
    "$(curl -s -m 20 -X POST -d "$key" "http://127.0.0.1:$port/kms/v1/keys?user.name=alice")"
run hkms --dir "$room" replay <<<'kms alice names'
expect 'another process' 5 'store fault'
printf . 1<>"$room/hkms.stop"
for _ in $(seq 100); do
    kill -0 "$server" 2>/dev/null || break
    sleep 0.1
done
kill -KILL "$server" 2>/dev/null
wait "$server" 2>/dev/null
status=$?
output=$(cat "$folder/out"; sed 's/:[0-9]*$/:PORT/' "$folder/messages")
expect 'a server that its pipe ends' 0 $'hkms: listening on 127.0.0.1:PORT\nhkms: ended with status 0'
run_there hkms replay <<<'kms alice current k'
expect 'its key in the folder' 0 "1 version k@0 $material"
files 'a server' 'hkms.stop keys.log names.log '
same 'what a server makes where it is started' '' "$(ls -A "$elsewhere")"

exit $((failures > 0))
