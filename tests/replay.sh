#!/usr/bin/env bash
# The program from outside: its examples, its statuses, its logs, and faults of its input, its output and its files.
set -u
. "$(dirname "${BASH_SOURCE[0]}")/room.bash"

# Runs the program in this folder, whose keys it goes on with.
run_here() {
    output=$(cd "$room" && "$hkms" "$@")
    status=$?
}

# Runs the program in an empty folder.
run() {
    fresh
    run_here "$@"
}

run replay <examples/first-key.events
expect 'the first key' 0 '1 version k@0 2b7e151628aed2a6abf7158809cf4f3c
2 key 6bc1bee22e409f96e93d7e117393172a
3 version k@1 000102030405060708090a0b0c0d0e0f
4 refused K6 KeyExists
5 refused K4 NoSuchKey'

run replay <examples/decrypt.events
expect 'the decryption' 0 '1 version k@0 2b7e151628aed2a6abf7158809cf4f3c
2 key 6bc1bee22e409f96e93d7e117393172a
3 version k@1 000102030405060708090a0b0c0d0e0f
4 key 6bc1bee22e409f96e93d7e117393172a
5 key e1eaa6798272d26e8cbeb663aa1b1b63'

run replay <examples/restart.events
expect 'a restart' 0 '1 version k@0 2b7e151628aed2a6abf7158809cf4f3c
2 version k@1 000102030405060708090a0b0c0d0e0f
3 opened 2
4 names k
5 versions k@0:2b7e151628aed2a6abf7158809cf4f3c k@1:000102030405060708090a0b0c0d0e0f
6 key 6bc1bee22e409f96e93d7e117393172a'

run replay <examples/namesystem.events
expect 'the namesystem' 0 '1 dir 0 - -
2 done
3 done
4 dir 4294967298 - -
5 refused N3 Exists
6 refused N2 NoSuchPath
7 refused N2 NoSuchPath
8 refused N1 BadPath
9 refused K4 NoSuchKey'

# The root may become a zone while it is empty, and an empty directory below it as well.
run replay <<'EOT'
kms a create k 128 2b7e151628aed2a6abf7158809cf4f3c
ask hdfs zone / k
draw 1
finish 1
nn a info /
nn a mkdir /s
ask hdfs zone /s k
draw 2
finish 2
nn hdfs zones
EOT
expect 'the root as a zone' 0 '1 version k@0 2b7e151628aed2a6abf7158809cf4f3c
2 ask 1 4294967297 metadata k
3 reply 1 meta k 128 1 1
4 done
5 dir 0 / k
6 done
7 ask 2 4294967299 metadata k
8 reply 2 meta k 128 1 1
9 done
10 zones /:k /s:k'

# Keys of the other lengths, and what is refused of them.
run replay <<'EOT'
kms a create k 200 -
kms a create k 256 2b7e151628aed2a6abf7158809cf4f3c
kms a create k 256 000102030405060708090a0b0c0d0e0f101112131415161718191a1b1c1d1e1f
kms a decrypt k@0 0f0e0d0c0b0a09080706050403020100 874d6191b620e3261bef6864990db6ce
kms a names
kms a delete k
kms a current k
EOT
expect 'keys of 256 bits' 0 '1 refused K9 BadLength
2 refused K8 BadMaterial
3 version k@0 000102030405060708090a0b0c0d0e0f101112131415161718191a1b1c1d1e1f
4 refused K8 BadMaterial
5 names k
6 done
7 refused K4 NoSuchKey'

# A key encrypted again: as it is on the current version, under the new one after a roll, to the same key.
run replay <<'EOT'
kms a create k 128 2b7e151628aed2a6abf7158809cf4f3c
kms a create j 128 2b7e151628aed2a6abf7158809cf4f3c
kms a batch k j@0:0f0e0d0c0b0a09080706050403020100:874d6191b620e3261bef6864990db6ce
kms a reencrypt k@0 0f0e0d0c0b0a09080706050403020100 874d6191b620e3261bef6864990db6ce
kms a roll k 2b7e151628aed2a6abf7158809cf4f3c
kms a reencrypt k@0 0f0e0d0c0b0a09080706050403020100 874d6191b620e3261bef6864990db6ce
kms a decrypt k@1 0f0e0d0c0b0a09080706050403020100 874d6191b620e3261bef6864990db6ce
EOT
expect 'a key encrypted again' 0 '1 version k@0 2b7e151628aed2a6abf7158809cf4f3c
2 version j@0 2b7e151628aed2a6abf7158809cf4f3c
3 refused K7 WrongKey
4 resealed k@0:0f0e0d0c0b0a09080706050403020100:874d6191b620e3261bef6864990db6ce
5 version k@1 2b7e151628aed2a6abf7158809cf4f3c
6 resealed k@1:0f0e0d0c0b0a09080706050403020100:874d6191b620e3261bef6864990db6ce
7 key 6bc1bee22e409f96e93d7e117393172a'

# Material that is drawn differs from run to run: all but its digits is compared.
mask() {
    output=$(sed -E 's/[0-9a-f]{32}/H/g' <<<"$output")
}

run_masked() {
    run replay <"$1"
    mask
}

run_masked examples/zone.events
expect 'a zone and a file in it' 0 '1 version k@0 H
2 done
3 ask 1 4294967298 metadata k
4 reply 1 meta k 128 1 1
5 done
6 ask 2 4294967299 generate k
7 reply 2 ready k@0:H:H
8 done
9 file 4294967299 /z k@0:H:H
10 refused N16 AskGone 1 4
11 ask 3 4294967300 none
12 reply 3 nothing
13 done
14 file 4294967300 - -'

run_masked examples/snapshots.events
expect 'a file that was deleted, in a snapshot' 0 '1 version k@0 H
2 done
3 ask 1 4294967298 metadata k
4 reply 1 meta k 128 1 1
5 done
6 ask 2 4294967299 generate k
7 reply 2 ready k@0:H:H
8 done
9 done
10 done
11 done
12 version k@1 H
13 ask 3 4294967300 generate k
14 reply 3 ready k@1:H:H
15 done
16 file 4294967300 /vault k@1:H:H
17 list plan
18 file 4294967299 /vault k@0:H:H
19 key H
20 refused N11 HasSnapshots
21 done
22 refused N14 NoSuchSnapshot
23 done
24 done'

run_masked examples/renames.events
expect 'a zone that is renamed' 0 '1 version k@0 H
2 done
3 ask 1 4294967298 metadata k
4 reply 1 meta k 128 1 1
5 done
6 ask 2 4294967299 generate k
7 reply 2 ready k@0:H:H
8 done
9 done
10 done
11 file 4294967299 /vault k@0:H:H
12 refused N9 CrossZone
13 done
14 file 4294967299 /archive/vault k@0:H:H
15 zones /archive/vault:k
16 refused N3 Exists
17 refused N25 RootOrInside
18 done
19 list archive/ vault/'

run_masked examples/ready-keys.events
expect 'ready keys' 0 '1 version k@0 H
2 ready k@0:H:H
3 ticket 1 k@0 500
4 kept
5 kept
6 ready k@0:H:H
7 done
8 ask 1 4294967298 metadata k
9 reply 1 meta k 128 1 1
10 done
11 ask 2 4294967299 generate k
12 reply 2 ready k@0:H:H
13 done
14 file 4294967299 /vault k@0:H:H
15 ticket 2 k@0 500
16 kept
17 version k@1 H
18 stale 1 4294967297 1
19 stale 1 4294967297 1
20 ticket 3 k@1 500
21 kept
22 ready k@1:H:H
23 unknown'

run_masked examples/reencryption.events
expect 'a re-encryption' 0 '1 version k@0 H
2 done
3 ask 1 4294967298 metadata k
4 reply 1 meta k 128 1 1
5 done
6 ask 2 4294967299 generate k
7 reply 2 ready k@0:H:H
8 done
9 status None
10 version k@1 H
11 ask 3 4294967300 generate k
12 reply 3 ready k@1:H:H
13 done
14 status Submitted k@1 0 0 no -
15 batch 1 1
16 status Processing k@1 0 0 no -
17 reply 4 ready k@1:H:H
18 noneleft 1
19 refused N10 UnderReencryption
20 refused N18 AlreadySubmitted
21 applied 1 0 0
22 file 4294967299 /vault k@1:H:H
23 status Processing k@1 1 0 no plan
24 ignored 4294967300
25 completed
26 status Completed k@1 1 0 no plan
27 done
28 version k@2 H
29 ask 4 4294967301 generate k
30 reply 5 ready k@2:H:H
31 done
32 batch 2 1
33 applied 0 0 1
34 completed
35 status Completed k@2 0 1 no plan%20B
36 file 4294967299 /vault k@1:H:H
37 ask 5 4294967302 generate k
38 reply 6 ready k@2:H:H
39 done
40 done
41 status Completed k@2 0 0 yes -'

run_masked examples/create.events
expect 'created keys' 0 '1 version payroll@0 H
2 version archive@0 H
3 version given@0 H'

run_masked examples/generate.events
expect 'generated keys' 0 '1 version k@0 H
2 ready k@0:H:H k@0:H:H k@0:H:H
3 version k@1 H
4 ready k@1:H:H'

run_masked examples/metadata.events
expect 'metadata' 0 '1 version k@0 H
2 meta k 128 1 1
3 version k@1 H
4 meta k 128 2 1'

run_masked examples/refusals.events
expect 'refusals' 0 '1 version k@0 H
2 refused K6 KeyExists
3 refused K4 NoSuchKey
4 refused K4 NoSuchKey
5 refused K5 NoSuchVersion'

run_masked examples/bad-line.events
expect 'a bad line' 3 '1 version k@0 H
line 4 refused'

for words in '' 'Replay' 'replay replay' 'pipes' $'replay\xff'; do
    # shellcheck disable=SC2086
    run $words </dev/null
    expect "the words '$words'" 2 'usage refused'
    output=$(ls "$room") status=0
    expect "what the words '$words' leave" 0 ''
done

# ---- keys in the folder

# What the files of the folder hold: their names and sizes, and the digits of the log of the keys.
files() {
    output=$(cd "$room" && stat -c '%n %s' -- * && od -An -v -tx1 keys.log | tr -d ' \n')
    status=$?
}

run replay </dev/null
expect 'an empty input' 0 ''
files
expect 'the logs of an empty input' 0 'keys.log 19
names.log 19
484b4d534b4559310100000005010000000100'
output=$(cd "$room" && stat -c '%n %a' -- *)
expect 'the logs are for their owner alone' 0 'keys.log 600
names.log 600'

# A run finds the keys of the one before, and the directories.
run replay <<'EOT'
kms a create k 128 2b7e151628aed2a6abf7158809cf4f3c
kms a create j 256 -
kms a create gone 192 -
kms a roll k 000102030405060708090a0b0c0d0e0f
kms a delete gone
nn a mkdir /d
EOT
drawn=$(sed -n 's/^2 version j@0 //p' <<<"$output")
run_here replay <<'EOT'
kms a names
kms a versions k
kms a current j
kms a metadata k
kms a decrypt k@0 0f0e0d0c0b0a09080706050403020100 874d6191b620e3261bef6864990db6ce
kms a current gone
kms a create k 128 -
nn a info /d
restart kms
EOT
expect 'the keys of the run before' 0 "1 names j k
2 versions k@0:2b7e151628aed2a6abf7158809cf4f3c k@1:000102030405060708090a0b0c0d0e0f
3 version j@0 $drawn
4 meta k 128 2 1
5 key 6bc1bee22e409f96e93d7e117393172a
6 refused K4 NoSuchKey
7 refused K6 KeyExists
8 dir 4294967297 - -
9 opened 3"

# A restart of the key management service leaves the namesystem, and what is asked of it, as they were.
run replay <<'EOT'
kms a create k 128 -
nn a mkdir /z
ask hdfs zone /z k
restart kms
nn a info /z
draw 1
restart kms
finish 1
ask a create /z/f
draw 2
restart kms
finish 2
nn a info /z/f
EOT
mask
expect 'asks behind a restart' 0 '1 version k@0 H
2 done
3 ask 1 4294967298 metadata k
4 opened 2
5 dir 4294967297 - -
6 reply 1 meta k 128 1 1
7 opened 3
8 done
9 ask 2 4294967299 generate k
10 reply 2 ready k@0:H:H
11 opened 4
12 done
13 file 4294967299 /z k@0:H:H'

# ---- the bytes of the log

run replay <<'EOT'
kms a create k 128 2b7e151628aed2a6abf7158809cf4f3c
kms a roll k 000102030405060708090a0b0c0d0e0f
EOT
files
expect 'the log of two versions' 0 'keys.log 95
names.log 19
484b4d534b455931010000000501000000010100000027020000000100000001016b0080000000000000000000012b7e151628aed2a6abf7158809cf4f3c010000001b0300000001000000010001000102030405060708090a0b0c0d0e0f00'
cp "$room/keys.log" "$folder/two"

# Makes a folder with that log, cut to $1 bytes, with the byte at offset $2 changed to $3 (hexadecimal digits).
changed_log() {
    fresh
    head -c "$1" "$folder/two" >"$room/keys.log"
    # shellcheck disable=SC2059
    printf "\\x$3" | dd of="$room/keys.log" bs=1 seek="$2" conv=notrunc status=none
}

# A file of at most 9 bytes is a log without keys, whatever it holds.
fresh
printf 'HKMSKEY1\x01' >"$room/keys.log"
run_here replay <<<'kms a names'
expect 'nine bytes' 0 '1 names'

# The gate of the second version is the byte at offset 62.
one='1 versions k@0:2b7e151628aed2a6abf7158809cf4f3c'
both="$one k@1:000102030405060708090a0b0c0d0e0f"
for gate in 95:01 95:00 95:02 80:00 80:ff 63:00; do
    changed_log "${gate%:*}" 62 "${gate#*:}"
    wanted=$one
    [ "$gate" != 95:01 ] || wanted=$both
    run_here replay <<<'kms a versions k'
    expect "the length and gate $gate" 0 "$wanted"
    run_here replay <<<'kms a versions k'
    expect "the length and gate $gate, opened again" 0 "$wanted"
done

# A log that is damaged stays as it is.
while read -r length at byte place; do
    changed_log "$length" "$at" "$byte"
    cp "$room/keys.log" "$folder/damaged"
    run_here replay <<<'kms a names'
    expect "$length bytes with $byte at $at" 4 "damaged keys $place"
    cmp -s "$folder/damaged" "$room/keys.log"
    status=$? output=''
    expect "what is left of $length bytes with $byte at $at" 0 ''
done <<'EOT'
80 62 01 62
95 22 28 18
95 23 04 18
95 17 02 8
95 12 00 8
95 7 32 0
95 0 68 0
EOT

# ---- faults of the files

# A log that another process holds. The first one is held up by its input, and goes on unharmed.
fresh
mkfifo "$folder/events"
(cd "$room" && exec "$hkms" replay) <"$folder/events" >"$folder/first" &
first=$!
exec 3<>"$folder/events"
echo 'kms a create k 128 2b7e151628aed2a6abf7158809cf4f3c' >&3
for ((tries = 0; tries < 200; tries++)); do
    [ ! -s "$folder/first" ] || break
    sleep 0.05
done
run_here replay <<<'kms a delete k' 2>"$folder/errors" 3>&-
expect 'a log that is held' 5 'store fault'
grep -q '^hkms: keys.log and names.log cannot be opened here: ' "$folder/errors"
status=$? output=''
expect 'the message of a log that is held' 0 ''
echo 'kms a current k' >&3
exec 3>&-
wait "$first"
status=$? output=$(cat "$folder/first")
expect 'the process that holds the log' 0 '1 version k@0 2b7e151628aed2a6abf7158809cf4f3c
2 version k@0 2b7e151628aed2a6abf7158809cf4f3c'

fresh
mkdir "$room/keys.log"
run_here replay <examples/first-key.events 2>"$folder/errors"
expect 'a folder in the place of the log' 5 'store fault'

# Root may write everywhere but into what is mounted so that nobody may.
fresh
chmod a-w "$room"
if [ ! -w "$room" ]; then
    run_here replay <examples/first-key.events 2>"$folder/errors"
    expect 'a folder that is only read' 5 'store fault'
elif unshare -m true 2>/dev/null; then
    # shellcheck disable=SC2016
    output=$(unshare -m bash -c 'mount --bind "$1" "$1" && mount -o remount,bind,ro "$1" && cd "$1" && exec "$2" replay' \
        - "$room" "$hkms" <examples/first-key.events 2>"$folder/errors")
    status=$?
    expect 'a folder that is only read' 5 'store fault'
else
    echo 'tests/replay.sh: left out, since no mount can be made: a folder that is only read'
fi

# Runs the program where no file may grow beyond $1 KiB, as on a full disk.
run_small() {
    output=$(cd "$room" && trap '' XFSZ && ulimit -f "$1" && "$hkms" replay 2>/dev/null)
    status=$?
}

fresh
run_small 0 <examples/first-key.events
expect 'no room for a log' 5 'store fault'
said=$(cd "$room" && trap '' XFSZ && ulimit -f 0 && "$hkms" replay 2>&1 >/dev/null <<<'kms a names')
same 'what is said of it' 'hkms: keys.log: write failed: File too large (os error 27)' "$said"

# An opening takes 10 bytes of the log, and the restart that finds no room for its own is the last event.
fresh
yes 'restart kms' | head -n 200 >"$folder/restarts"
run_small 1 <"$folder/restarts"
output=$(tail -n 2 <<<"$output")
expect 'restarts until the log is full' 5 '100 opened 101
store fault'
run_here replay <<<'restart kms'
expect 'a restart behind them' 0 '1 opened 103'

# What does not fit is refused, and all that was answered is there, now and in the next run.
fresh
for ((i = 10; i < 50; i++)); do
    echo "kms a create k$i 128 -"
done >"$folder/creates"
echo 'kms a names' >>"$folder/creates"
run_small 1 <"$folder/creates"
made=$(sed -n 's/^[0-9]* version \(k[0-9]*\)@0 .*/\1/p' <<<"$output" | tr '\n' ' ')
output=$(tail -n 2 <<<"$output")
expect 'a log that is full' 0 "40 refused K14 StoreFault
41 names ${made% }"
[[ $made == k10\ * ]]
status=$? output=''
expect 'keys before the log is full' 0 ''
run_here replay <<'EOT'
kms a names
kms a create after 128 2b7e151628aed2a6abf7158809cf4f3c
EOT
expect 'a log that was full' 0 "1 names ${made% }
2 version after@0 2b7e151628aed2a6abf7158809cf4f3c"

# ---- faults of the input and the output

run replay </
expect 'an input that cannot be read' 7 'read fault'

fresh
(cd "$room" && "$hkms" replay) <examples/first-key.events >/dev/full
status=$? output=''
expect 'a full output' 8 ''
run_here replay <<<'kms a names'
expect 'keys whose answers could not be written' 0 '1 names k'

# Without a random source the program does not start. This needs a mount of its own, as root has.
if unshare -m true 2>/dev/null; then
    fresh
    # shellcheck disable=SC2016
    output=$(unshare -m bash -c 'mount --bind /dev/null /dev/urandom && cd "$1" && exec "$2" replay' - "$room" "$hkms" <examples/first-key.events)
    status=$?
    expect 'no random source' 7 'no random source'
else
    echo 'tests/replay.sh: left out, since no mount can be made: no random source'
fi

[ "$failures" -eq 0 ]
