#!/usr/bin/env bash
# The re-encryption of a zone, cut off by a kill and by a crash inside a write. After each of them every file still opens. Run it
# as `bash examples/headline.sh`: it builds the program if its sources are newer, and works in a folder of its own, or in that of
# `bash examples/headline.sh FOLDER`, where it leaves the logs. tests/headline.py reads them from their bytes, and opens the files
# by openssl.
set -u
root=$(cd "$(dirname "${BASH_SOURCE[0]}")/.." && pwd) || exit 1
folder=${1-}
if [ -z "$folder" ]; then
    folder=$(mktemp -d) || exit 1
    trap 'rm -rf "$folder"' EXIT
fi
mkdir "$folder/room" && mkfifo "$folder/lines" "$folder/answers" || exit 1
"$root/hkms" --version >/dev/null || exit 1

# start ROOM TITLE: starts the program in the folder of the logs.
start() {
    (cd "$folder/$1" && exec "$root/hkms" replay <"$folder/lines" >"$folder/answers") &
    program=$!
    exec 3<>"$folder/lines" 4<"$folder/answers"
    printf '\n== %s\n' "$2"
}

# tell LINE ..: gives the program each line, and prints it with its answer, which is left in answer.
tell() {
    local line
    for line; do
        echo "$line" >&3
        read -r answer <&4 || exit 1
        printf '%s\n    %s\n' "$line" "$answer"
    done
}

# Waits until the program has read its input to its end.
finish() {
    exec 3>&- 4<&-
    wait "$program"
}

# Kills the program.
cut_off() {
    kill -KILL "$program"
    finish
} 2>/dev/null

# check ROOM: reads the logs without the program. What does each encrypted key open to, and are these the keys of the ledger?
check() {
    printf '\n$ python3 tests/headline.py %s\n' "$1"
    python3 "$root/tests/headline.py" "$folder/$1" || exit 1
    printf '\n$ python3 tests/headline.py %s --ledger ledger\n' "$1"
    python3 "$root/tests/headline.py" "$folder/$1" --ledger "$folder/ledger" || exit 1
}

# At most two files are in a batch.
cat >"$folder/room/kms-acls.properties" <<'END'
default.key.acl.MANAGEMENT=*
default.key.acl.GENERATE_EEK=*
default.key.acl.DECRYPT_EEK=*
default.key.acl.READ=*
hkms.reencrypt.batch=2
END

start room 'A key, a zone, three files and a snapshot'
tell 'kms alice create k 128 2b7e151628aed2a6abf7158809cf4f3c' 'nn alice mkdir /vault'
tell 'ask hdfs zone /vault k' 'draw 1' 'finish 1'
tell 'ask alice create /vault/a' 'draw 2' 'finish 2'
tell 'ask alice create /vault/b' 'draw 3' 'finish 3'
tell 'ask alice create /vault/c' 'draw 4' 'finish 4'
tell 'nn hdfs allow /vault' 'nn alice snap /vault monday'
# The ledger has the data encryption key of each file as it is now.
for file in /vault/{a,b,c}; do
    tell "nn alice info $file"
    read -r _ _ id _ edek <<<"$answer"
    tell "kms alice decrypt ${edek//:/ }"
    echo "$id ${answer##* }" >>"$folder/ledger"
done
finish
check room

start room 'The key is rolled and the zone submitted. The program is killed before the second batch is delivered'
tell 'kms alice roll k 000102030405060708090a0b0c0d0e0f'
tell 'ask hdfs submit /vault' 'draw 1' 'finish 1'
tell 'walk /vault' 'serve 1' 'walk /vault' 'serve 2' 'deliver 2' 'nn hdfs status /vault'
cut_off
check room

start room 'Started again. The late reply is unknown, and the walk begins after the mark'
tell 'deliver 3' 'nn hdfs status /vault' 'walk /vault' 'serve 1'
cp -r "$folder/room" "$folder/crashed"
tell 'deliver 1'
finish

# The record of that delivery was written from the byte after the end byte on. The end byte became its commit byte only when all of
# it was synced. So a crash inside the write leaves a part of the record after an end byte of 0.
before=$(stat -c %s "$folder/crashed/names.log")
after=$(stat -c %s "$folder/room/names.log")
head -c $(((before + after) / 2)) "$folder/room/names.log" | tail -c +$((before + 1)) >>"$folder/crashed/names.log"
check crashed

start crashed 'What a crash inside that write leaves: half of the record. The file is as it was, and the re-encryption goes on'
tell 'nn alice info /vault/c' 'walk /vault' 'serve 1' 'deliver 1' 'walk /vault' 'nn hdfs status /vault'
tell 'nn alice info /vault/c' 'nn alice info /vault/.snapshot/monday/c'
finish
check crashed
