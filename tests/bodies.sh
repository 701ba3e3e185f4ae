#!/usr/bin/env bash
# Bodies of files from outside: put and read by hkfs, with keys of three lengths, sizes round the length of a block and of a piece,
# and odd ranges; after a roll and a re-encryption by hkms; and what is stored, decrypted by openssl.
set -u
. "$(dirname "${BASH_SOURCE[0]}")/room.bash"

hkfs=${HKFS:-$PWD/hkfs}
openssl=$(command -v openssl) || echo "$0: what is stored is not decrypted, the command openssl is not here"

# Replays these lines in this folder.
lines() {
    (cd "$room" && "$hkms" replay 2>"$folder/errors")
}

# Runs hkfs in this folder.
files_do() {
    output=$(cd "$room" && "$hkfs" "$@" 2>"$folder/errors")
    status=$?
}

# Puts a file, and expects its length.
put() {
    output=$(cd "$room" && "$hkfs" put alice "$1" <"$2" 2>"$folder/errors")
    status=$?
    expect "put $1" 0 "put $(stat -c %s "$2")"
}

# Reads a range of a file and compares it with that of the bytes that were put.
same_range() {
    (cd "$room" && "$hkfs" read alice "$1" "$3" "$4" >"$folder/range" 2>"$folder/errors")
    local got=$?
    tail -c +$(($3 + 1)) "$2" | head -c "$4" >"$folder/wanted"
    if [ "$got" != 0 ] || ! cmp -s "$folder/range" "$folder/wanted"; then
        echo "FAILED: read $1 $3 $4, status $got"
        failures=$((failures + 1))
    fi
}

# The id of a file, and the fields of its encrypted key.
look() {
    read -r _ _ id _ edek < <(echo "nn alice info $1" | lines)
    IFS=: read -r version vector sealed <<<"$edek"
}

# Compares a body, decrypted by openssl under the key of a decrypt line, with the bytes that were put.
same_stored() {
    [ -n "$openssl" ] || return 0
    look "$1"
    local key
    read -r _ _ key < <(echo "kms alice decrypt $version $vector $sealed" | lines)
    "$openssl" enc -d "-aes-$((${#key} * 4))-ctr" -K "$key" -iv "$vector" -in "$room/bodies/$id" -out "$folder/opened" || failures=$((failures + 1))
    if ! cmp -s "$folder/opened" "$2"; then
        echo "FAILED: the body of $1 isn't its bytes under its key"
        failures=$((failures + 1))
    fi
}

# Rolls a key, and re-encrypts its zone. The next ask, reply and batch have the number 1 in each run.
reencrypt() {
    printf '%s\n' "kms alice roll $1 -" "ask hdfs submit $2" 'draw 1' 'finish 1' "walk $2" 'serve 1' 'deliver 2' "walk $2" | lines >"$folder/reencrypted"
    grep -q completed "$folder/reencrypted" || { echo "FAILED: re-encryption of $2"; cat "$folder/reencrypted"; failures=$((failures + 1)); }
}

fresh
for bits in 128 192 256; do
    printf '%s\n' "kms alice create k$bits $bits -" "nn alice mkdir /z$bits" "ask hdfs zone /z$bits k$bits" 'draw 1' 'finish 1' | lines >/dev/null
done
for size in 0 1 15 16 17 65535 65536 65537 3000000; do
    head -c $size /dev/urandom >"$folder/bytes.$size"
    put "/plain$size" "$folder/bytes.$size"
    look "/plain$size"
    cmp -s "$room/bodies/$id" "$folder/bytes.$size" || [ $size = 0 ] || { echo "FAILED: the body of a plain file of $size bytes"; failures=$((failures + 1)); }
    for bits in 128 192 256; do
        put "/z$bits/f$size" "$folder/bytes.$size"
        same_range "/z$bits/f$size" "$folder/bytes.$size" 0 9223372036854775807
        same_range "/z$bits/f$size" "$folder/bytes.$size" 7 13
        same_range "/z$bits/f$size" "$folder/bytes.$size" 65530 11
        [ $size = 0 ] || same_stored "/z$bits/f$size" "$folder/bytes.$size"
    done
done
for bits in 128 192 256; do
    reencrypt k$bits /z$bits
    for size in 17 65537 3000000; do
        same_range "/z$bits/f$size" "$folder/bytes.$size" 5 100000
        same_stored "/z$bits/f$size" "$folder/bytes.$size"
    done
done

# what is refused
files_do read alice /z128/none 0 1
expect 'a file that is not there' 11 'refused N2 NoSuchPath'
files_do put alice /z128/f17 </dev/null
expect 'a path that is taken' 11 'refused N3 Exists'
files_do read alice /z128/f16 16 5
expect 'a range past the end' 0 ''
files_do read alice /z128/f17 9223372036854775807 9223372036854775807
expect 'a range far past the end' 0 ''
files_do read alice /z128 0 1
expect 'a directory' 11 'refused Directory'
files_do read alice /z128/f16 00 1
expect 'a number with a leading zero' 2 'usage refused'
for range in '9223372036854775808 1' '0 9223372036854775808'; do
    # shellcheck disable=SC2086
    files_do read alice /z128/f16 $range
    expect "a number of 2^63: $range" 2 'usage refused'
done
files_do read '' /z128/f16 0 1
expect 'a user without a byte' 2 'usage refused'
user=$(printf '%0255d' 0)
files_do read "$user" /z128/f16 16 1
expect 'a user of 255 bytes' 0 ''
files_do read "0$user" /z128/f16 16 1
expect 'a user of 256 bytes' 2 'usage refused'
printf 'default.key.acl.MANAGEMENT=*\ndefault.key.acl.GENERATE_EEK=*\ndefault.key.acl.READ=*\ndefault.key.acl.DECRYPT_EEK=bob\n' >"$room/kms-acls.properties"
files_do read alice /z128/f16 0 1
expect 'a user who may not decrypt' 11 'refused K3 Denied DefaultAcl DECRYPT_EEK'
files_do put alice /z128/denied <"$folder/bytes.17"
expect 'a put by a user who may not decrypt' 11 'refused K3 Denied DefaultAcl DECRYPT_EEK'
files_do read bob /z128/f1 0 0
expect 'a user who may decrypt' 0 ''
look /z128/denied
[ ! -e "$room/bodies/$id" ] || { echo 'FAILED: a body after a denied decryption'; failures=$((failures + 1)); }

# same_prefix PATH FILE: what is stored of a file that was cut short reads as a prefix of these bytes, and some of it is there.
same_prefix() {
    (cd "$room" && "$hkfs" read alice "$1" 0 9223372036854775807 >"$folder/range" 2>"$folder/errors")
    local got=$? size
    size=$(stat -c %s "$folder/range")
    if [ "$got" != 0 ] || [ "$size" -eq 0 ] || [ "$size" -ge "$(stat -c %s "$2")" ] || ! cmp -s -n "$size" "$folder/range" "$2"; then
        echo "FAILED: $1 is no prefix of what was put, status $got, $size bytes"
        failures=$((failures + 1))
    fi
}

# A body that outgrows what a file may have: the put ends with 12, and the body is a prefix.
rm "$room/kms-acls.properties"
output=$(cd "$room" && trap '' XFSZ && ulimit -f 1000 && "$hkfs" put alice /z128/cut <"$folder/bytes.3000000" 2>"$folder/errors")
status=$?
expect 'a body that outgrows the largest file' 12 'vault fault'
grep -q '^bodies/[0-9]*: write failed: ' "$folder/errors" || { echo 'FAILED: no message of the write that failed'; failures=$((failures + 1)); }
same_prefix /z128/cut "$folder/bytes.3000000"

# A put that is killed in the middle: the file is there, and its body is a prefix. It can be deleted and put again.
mkfifo "$folder/input"
touch "$folder/mark"
(cd "$room" && exec "$hkfs" put alice /z256/killed <"$folder/input" >"$folder/killed" 2>&1) &
put=$!
exec 9>"$folder/input"
head -c 1000000 "$folder/bytes.3000000" >&9
for _ in $(seq 100); do
    [ -n "$(find "$room/bodies" -newer "$folder/mark" -size +0)" ] && break
    sleep 0.1
done
kill -9 "$put"
wait "$put" 2>/dev/null
exec 9>&-
same_prefix /z256/killed "$folder/bytes.3000000"
printf 'nn alice delete /z256/killed\n' | lines >/dev/null
put /z256/killed "$folder/bytes.3000000"
same_range /z256/killed "$folder/bytes.3000000" 999990 20

[ "$failures" -eq 0 ]
