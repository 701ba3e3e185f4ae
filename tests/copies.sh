#!/usr/bin/env bash
# Copies of zones from outside: the example of docs/hkcopy.md, what is refused and what fails, and then tests/copies.py, which says what
# it looks at.
set -u
. "$(dirname "${BASH_SOURCE[0]}")/room.bash"

hkfs=${HKFS:-$PWD/hkfs}
hkcopy=${HKCOPY:-$PWD/hkcopy}

# Replays these lines in this folder.
lines() {
    (cd "$room" && "$hkms" replay 2>"$folder/errors")
}

# Runs hkcopy in this folder.
copies_do() {
    output=$(cd "$room" && "$hkcopy" "$@" 2>"$folder/errors")
    status=$?
}

# Expects these bytes, in hexadecimal digits, of a copy.
expect_bytes() {
    local name=$1 wanted=$2
    shift 2
    (cd "$room" && "$hkcopy" read "$@" >"$folder/range" 2>"$folder/errors")
    status=$?
    output=$(od -An -v -tx1 "$folder/range" | tr -d ' \n')
    expect "$name" 0 "$wanted"
}

# the backup of docs/hkcopy.md, in a folder with a zone and a file
fresh
printf '%s\n' 'kms a create k 128 -' 'nn a mkdir /z' 'ask hdfs zone /z k' 'draw 1' 'finish 1' | lines >"$folder/made"
head -c 6000 /dev/urandom >"$folder/bytes"
(cd "$room" && "$hkfs" put alice /z/b <"$folder/bytes" >"$folder/made" 2>"$folder/errors")
sed -n '/^## A backup in/,/^## What/p' docs/hkcopy.md | sed -n '/^```$/,/^```$/{/^```$/d;p}' |
    sed "s#\./hk#$PWD/hk#g; s#| ssh .*#> monday.tar#" >"$folder/backup"
[ "$(wc -l <"$folder/backup")" = 5 ] || { echo 'FAILED: the page has no five commands'; failures=$((failures + 1)); }
output=$(cd "$room" && bash -e -o pipefail "$folder/backup" 2>"$folder/errors")
status=$?
expect 'the backup of the page' 0 $'1 done\n2 done\ncopied 1 1\n1 done'
tar -tf "$room/monday.tar" | grep -q '^backup/names.log$' || { echo 'FAILED: the archive has no log'; failures=$((failures + 1)); }

# in an empty folder
fresh
copies_do copy /.reserved/raw/z /w
expect 'a zone that is not there' 11 'refused N2 NoSuchPath'
[ -s "$room/backup/names.log" ] && [ -d "$room/copies" ] || { echo 'FAILED: no second namesystem was made'; failures=$((failures + 1)); }
[ ! -e "$room/backup/keys.log" ] || { echo 'FAILED: the second namesystem got a key log'; failures=$((failures + 1)); }

# a zone with an empty file and one of 16 bytes
lines >"$folder/made" <<'EOT'
kms a create k 128 2b7e151628aed2a6abf7158809cf4f3c
nn a mkdir /z
ask hdfs zone /z k
draw 1
finish 1
ask a create /z/f
draw 2
finish 2
nn a mkdir /plain
EOT
printf '\x6b\xc1\xbe\xe2\x2e\x40\x9f\x96\xe9\x3d\x7e\x11\x73\x93\x17\x2a' >"$folder/bytes"
output=$(cd "$room" && "$hkfs" put alice /z/b <"$folder/bytes" 2>"$folder/errors")
status=$?
expect 'a put' 0 'put 16'
copies_do copy /.reserved/raw/z /w/z
expect 'a copy' 0 'copied 2 1'
expect_bytes 'a range of the copy' 2e409f96e93d7e11 alice /w/z/b 4 8
printf '%s\n' 'kms a roll k -' 'ask hdfs submit /z' 'draw 1' 'finish 1' 'walk /z' 'serve 1' 'deliver 2' 'walk /z' | lines >"$folder/made"
grep -q completed "$folder/made" || { echo 'FAILED: the re-encryption'; failures=$((failures + 1)); }
expect_bytes 'a range of the copy after a re-encryption of its source' 2e409f96e93d7e11 alice /w/z/b 4 8
expect_bytes 'a range from the end of the copy on' '' alice /w/z/b 16 1
expect_bytes 'the empty copy' '' alice /w/z/f 0 9

# what is refused
copies_do copy /.reserved/raw/z /w/z
expect 'the same copy again' 11 'refused N3 Exists'
copies_do copy /z /v
expect 'a place that is not below /.reserved/raw' 11 'refused N1 BadPath'
copies_do copy /.reserved/raw/z v
expect 'a target that is no path' 11 'refused N1 BadPath'
copies_do copy /.reserved/raw/plain /v
expect 'a directory that is no zone' 11 'refused N8 NotAZoneRoot'
copies_do copy /.reserved/raw/z/f /v
expect 'a file' 11 'refused N4 NotADirectory'
copies_do copy /.reserved/raw/none /v
expect 'a place that is not there' 11 'refused N2 NoSuchPath'
copies_do copy /.reserved/raw/z /w/z/f/deeper
expect 'a target below a file' 11 'refused N4 NotADirectory'
copies_do read alice /w/z/none 0 1
expect 'a copy that is not there' 11 'refused N2 NoSuchPath'
copies_do read alice /w/z 0 1
expect 'a directory of copies' 11 'refused Directory'
for words in '' 'copy /.reserved/raw/z' 'copy /.reserved/raw/z /w /w' 'read alice /w/z/b 00 1' 'read alice /w/z/b 0' 'put alice /w'; do
    # shellcheck disable=SC2086
    copies_do $words
    expect "the words $words" 2 'usage refused'
done
echo 'hadoop.kms.blacklist.GET_METADATA=hdfs' >"$room/kms-acls.properties"
copies_do copy /.reserved/raw/z /v
expect 'a key whose metadata hdfs may not read' 11 'refused N21 KeyRefused K3 Denied ServiceBlacklist GET_METADATA'
printf 'default.key.acl.READ=*\ndefault.key.acl.DECRYPT_EEK=bob\n' >"$room/kms-acls.properties"
copies_do copy /.reserved/raw/z /unread
expect 'a copy by one who may not decrypt' 0 'copied 2 1'
copies_do read alice /unread/b 4 8
expect 'a read by a user who may not decrypt' 11 'refused K3 Denied DefaultAcl DECRYPT_EEK'
expect_bytes 'a read by a user who may decrypt' 2e409f96e93d7e11 bob /unread/b 4 8
echo 'nonsense' >"$room/kms-acls.properties"
copies_do copy /.reserved/raw/z /u
expect 'properties with a mistake' 3 'acl line 1 refused'
rm "$room/kms-acls.properties"

# what fails
(cd "$room" && "$hkcopy" copy /.reserved/raw/z /full >/dev/full 2>"$folder/errors")
status=$? output=
expect 'an output that takes nothing' 8 ''
cp -r "$room" "$room.whole"
printf '\377' | dd of="$room/backup/names.log" bs=1 conv=notrunc 2>/dev/null
copies_do read alice /w/z/b 4 8
expect 'a damaged log of the second namesystem' 4 'damaged copies 0'
copies_do copy /.reserved/raw/z /x
expect 'a copy beside a damaged log' 4 'damaged copies 0'
rm -r "$room/backup"
echo >"$room/backup"
copies_do copy /.reserved/raw/z /x
expect 'a file in place of the folder backup' 5 'store fault'
room=$room.whole
rm -r "$room/copies"
echo >"$room/copies"
copies_do copy /.reserved/raw/z /x
expect 'a file in place of the folder copies' 12 'vault fault'

for tool in cc python3 openssl; do
    command -v "$tool" >/dev/null || { echo "$0: most is skipped, the command $tool is not here"; [ "$failures" -eq 0 ]; exit; }
done
cc -O1 -Wall -Wextra -Werror -shared -fPIC -o "$folder/kill.so" tests/kill_at.c -ldl || exit 1
# so that the launchers have built what runs below
programs=("$PWD/crates/hkms_tool/out/hkms_tool" "$PWD/crates/hkfs_tool/out/hkfs_tool" "$PWD/crates/hkcopy_tool/out/hkcopy_tool")
python3 -B tests/copies.py "${programs[@]}" "$folder/kill.so" "$quick" || failures=$((failures + 1))

[ "$failures" -eq 0 ]
