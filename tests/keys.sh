#!/usr/bin/env bash
# Keys at their limits and key logs with each value of a gate, as the built program reads them.
set -u
. "$(dirname "${BASH_SOURCE[0]}")/room.bash"

# The first run builds the program; then it is run without the script that builds it.
[ "$("$hkms" build </dev/null)" = 'usage refused' ] || exit 1
program=$PWD/crates/hkms_tool/out/hkms_tool
room=$(mktemp -d -p "$quick") || exit 1

# run_here: runs the program in the room, on standard input, for at most a minute.
run_here() {
    output=$(cd "$room" && timeout 60 "$program" replay)
    status=$?
}

# run: the same in an empty folder.
run() {
    rm -rf "$room"
    mkdir "$room" || exit 1
    run_here
}

material=2b7e151628aed2a6abf7158809cf4f3c
vector=0f0e0d0c0b0a09080706050403020100
sealed=874d6191b620e3261bef6864990db6ce

# ---- the limits of the table

# 10,000 keys and 65,535 versions of one of them are all that there may be.
{
    seq -f "kms a create key-%.0f 128 $material" 0 9999
    echo "kms a create more 128 $material"
    echo 'kms a names'
    yes "kms a roll key-77 $material" | head -n 65535
    echo 'kms a metadata key-77'
    echo 'kms a metadata key-9999'
} >"$folder/many"
run <"$folder/many"
refused=$(grep -n refused <<<"$output")
names=$(grep '^10002 names ' <<<"$output" | cut -d ' ' -f 3- | tr ' ' '\n')
output=$refused$'\n'$(tail -n 2 <<<"$output")
expect 'as many keys and versions as there may be' 0 '10001:10001 refused K10 TooManyKeys
75537:75537 refused K11 TooManyVersions
75538 meta key-77 128 65535 78
75539 meta key-9999 128 1 10000'
output=$(sed -n '1p;3p;$p' <<<"$names" | tr '\n' ' ') status=$(wc -l <<<"$names")
expect 'the names of all keys' 10000 'key-0 key-10 key-9999 '
LC_ALL=C sort -c <<<"$names"
status=$? output=''
expect 'the order of the names' 0 ''
run_here <<<'kms a current key-77'
expect 'the keys in the next run' 0 "1 version key-77@65534 $material"

# A call takes 1,000 encrypted keys at most. Bad material is looked for before their number.
batch() {
    yes "k@0:$vector:$sealed" | head -n "$1" | tr '\n' ',' | sed 's/,$//'
}
{
    echo "kms a create k 128 $material"
    echo "kms a roll k $sealed"
    echo "kms a batch k $(batch 999),k@1:$vector:$sealed"
    echo "kms a batch k $(batch 1001)"
    echo "kms a batch k $(batch 1000),k@0:$vector:00"
    echo 'kms a generate k 1000'
    echo 'kms a generate k 1001'
} >"$folder/batches"
run <"$folder/batches"
counts=$(awk '$2 == "ready" { print $1, NF - 2 }' <<<"$output")
last=$(awk '$1 == 3 { print $NF }' <<<"$output")
refused=$(grep refused <<<"$output")
output=$counts$'\n'$last$'\n'$refused
expect 'batches' 0 "3 1000
6 1000
k@1:$vector:$sealed
4 refused K12 TooManyAsked
5 refused K8 BadMaterial
7 refused K12 TooManyAsked"

# ---- queues of ready keys

# What is ready comes first in a generate of more, and no key comes twice.
{
    echo "kms a create k 128 $material"
    echo 'kms a generate k 1'
    echo ticket
    printf 'deposit 1\ndeposit 1\ndeposit 1\n'
    echo ticket
    echo 'kms a generate k 1000'
    echo ticket
} >"$folder/ready"
run <"$folder/ready"
keys=$(awk '$1 == 8' <<<"$output" | tr ' ' '\n' | grep '^k@0:')
output="$(sed -n 7p <<<"$output"), $(wc -l <<<"$keys"), $(cut -d : -f 2 <<<"$keys" | sort -u | wc -l), $(tail -n 1 <<<"$output")"
expect 'a thousand keys, three of them ready' 0 '7 ticket 2 k@0 497, 1000, 1000, 9 ticket 3 k@0 500'

# The largest queues take 1.2 MB each. In 64 MB there is memory for some of a hundred; the others are refused, and nothing changes.
# Once two keys are deleted, there is memory for another queue.
{
    seq -f "kms a create key-%.0f 128 $material" 1 100
    seq -f 'kms a generate key-%.0f 0' 1 100
    printf '%s\n' 'kms a generate key-100 1' ticket 'deposit 1' 'kms a generate key-1 1' 'kms a delete key-1' 'kms a delete key-2' \
        'kms a generate key-100 0' ticket
} >"$folder/queues"
rm -rf "$room"
mkdir "$room" || exit 1
printf '%s\n' default.key.acl.{MANAGEMENT,GENERATE_EEK,DECRYPT_EEK,READ}='*' hkms.queue.size=10000 >"$room/kms-acls.properties"
output=$(ulimit -v 65536; run_here <"$folder/queues"; echo "$output"; exit "$status")
status=$?
made=$(awk '101 <= $1 && $1 <= 200 && $2 == "ready"' <<<"$output" | wc -l)
refused=$(awk '101 <= $1 && $1 <= 200 && $0 ~ / refused K13 NoMemory$/' <<<"$output" | wc -l)
output=$(tail -n 8 <<<"$output" | sed -E 's/[0-9a-f]{32}/H/g')
expect 'queues for which there is no memory' 0 '201 refused K13 NoMemory
202 ticket 1 key-1@0 10000
203 kept
204 ready key-1@0:H:H
205 done
206 done
207 ready
208 ticket 2 key-3@0 10000'
output=$((made + refused)) status=$((made >= 10 && refused >= 10))
expect 'some queues and some refusals' 1 100

# ---- properties of 10,000 lines

# 5,000 keys, each with a group of its own that may read it.
for ((i = 0; i < 5000; i++)); do
    printf 'key.acl.k%s.READ= g%s\ngroup.g%s=u%s\n' $i $i $i $i
done >"$folder/lines"
rm -rf "$room"
mkdir "$room" || exit 1
cp "$folder/lines" "$room/kms-acls.properties"
run_here <<'EOT'
kms u4321 current k4321
kms u4320 current k4321
EOT
expect '10000 lines of properties' 0 '1 refused K4 NoSuchKey
2 refused K3 Denied KeyAcl READ'
echo 'group.g2500=bob' >>"$room/kms-acls.properties"
run_here <<<'kms u4321 current k4321'
expect 'a name that 10000 lines repeat' 3 'acl line 10001 repeated'

# ---- each value of a gate

# The log of an opening, the creation of a key and its second version, whose gate lies at 62.
run <<EOT
kms a create k 128 $material
kms a roll k $sealed
EOT
cp "$room/keys.log" "$folder/two"
output=$(stat -c %s "$folder/two") status=0
expect 'the length of the log' 0 95

both="1 versions k@0:$material k@1:$sealed"
one="1 versions k@0:$material"
# The gate of the second version: it is kept exactly if the byte is 1.
for ((gate = 0; gate < 256; gate++)); do
    rm -rf "$room"
    mkdir "$room" || exit 1
    cp "$folder/two" "$room/keys.log"
    # shellcheck disable=SC2059
    printf "\\x$(printf %02x "$gate")" | dd of="$room/keys.log" bs=1 seek=62 conv=notrunc status=none
    run_here <<<'kms a versions k'
    if [ "$gate" -eq 1 ]; then
        expect "the gate $gate" 0 "$both"
    else
        expect "the gate $gate" 0 "$one"
    fi
done

# A log of 10,000 keys is read, and a record of one more is damage.
keys_log() {
    python3 - "$1" "$material" <<'EOT'
import struct
import sys

log = bytearray(b'HKMSKEY1')


def record(payload):
    log.extend(b'\x01' + struct.pack('>I', len(payload)) + payload)


record(b'\x01' + struct.pack('>I', 1))
for number in range(int(sys.argv[1])):
    name = b'%05d' % number
    birth = struct.pack('>Q', (1 << 32) + number + 1)
    record(b'\x02' + birth + bytes([len(name)]) + name + b'\x00\x80\x00\x00' + struct.pack('>Q', 1) + bytes.fromhex(sys.argv[2]))
log.extend(b'\x00')
sys.stdout.buffer.write(log)
EOT
}
if command -v python3 >/dev/null; then
    for keys in 10000 10001; do
        rm -rf "$room"
        mkdir "$room" || exit 1
        keys_log "$keys" >"$room/keys.log"
        run_here <<<'kms a names'
        if [ "$keys" -eq 10000 ]; then
            output=$(wc -w <<<"$output")
            expect 'a log of 10000 keys' 0 10002
        else
            expect 'a log of 10001 keys' 4 'damaged keys 480018'
        fi
    done
else
    echo 'tests/keys.sh: left out, since there is no python3: a log of 10000 keys'
fi

# ---- a file that cannot be synced

# No system can sync the null device.
rm -rf "$room"
mkdir "$room" || exit 1
ln -s /dev/null "$room/keys.log"
run_here <<<'kms a names' 2>"$folder/messages"
expect 'a log that cannot be synced' 5 'store fault'
same 'what is said of it' 'hkms: keys.log: sync failed: Invalid argument (os error 22)' "$(cat "$folder/messages")"

[ "$failures" -eq 0 ]
