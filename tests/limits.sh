#!/usr/bin/env bash
# Lines and logs at their limits, as the built program reads them.
set -u
# The last command of a pipe runs here, so that it counts the failures.
shopt -s lastpipe
. "$(dirname "${BASH_SOURCE[0]}")/room.bash"

# expect NAME STATUS LAST: runs the program on standard input, in an empty folder, compares its status and last line.
expect() {
    local room last status
    room=$(mktemp -d -p "$quick") || exit 1
    last=$(cd "$room" && "$hkms" replay | tail -n 1; exit "${PIPESTATUS[0]}")
    status=$?
    if [ "$status" != "$2" ] || [ "$last" != "$3" ]; then
        printf 'tests/limits.sh: %s: status %s (wanted %s), last line %s (wanted %s)\n' "$1" "$status" "$2" "$last" "$3"
        failures=$((failures + 1))
    fi
}

# repeat CHARACTER COUNT
repeat() {
    head -c "$2" /dev/zero | tr '\0' "$1"
}

{ printf '#'; repeat x 1048575; printf '\nkms a metadata k\n'; } | expect 'the longest line' 0 '1 refused K4 NoSuchKey'
{ printf '#'; repeat x 1048576; printf '\nkms a metadata k\n'; } | expect 'a line too long' 3 'line 1 refused'
{ printf 'kms '; repeat u 255; printf ' metadata k\n'; } | expect 'the longest user' 0 '1 refused K4 NoSuchKey'
{ printf 'kms '; repeat u 256; printf ' metadata k\n'; } | expect 'a user too long' 3 'line 1 refused'
yes 'kms a metadata k' | head -n 20000 | expect 'many events' 0 '20000 refused K4 NoSuchKey'
yes '# nothing' | head -n 100000 | expect 'many quiet lines' 0 ''

# repeat_name LENGTH COUNT: a path of so many names, each of so many letters
repeat_name() {
    local name
    name=/$(repeat a "$1")
    for ((i = 0; i < $2; i++)); do
        printf '%s' "$name"
    done
}

{ printf 'nn a mkdir '; repeat_name 255 1; } | expect 'the longest name of a path' 0 '1 done'
{ printf 'nn a mkdir '; repeat_name 256 1; } | expect 'a name of a path too long' 0 '1 refused N1 BadPath'
{ printf 'nn a mkdir '; repeat_name 79 100; } | expect 'the longest path' 0 '1 refused N2 NoSuchPath'
{ printf 'nn a mkdir '; repeat_name 79 100; printf a; } | expect 'a path too long' 0 '1 refused N1 BadPath'
{ printf 'nn a mkdir '; repeat_name 1 100; } | expect 'the deepest path' 0 '1 refused N2 NoSuchPath'
{ printf 'nn a mkdir '; repeat_name 1 101; } | expect 'a path too deep' 0 '1 refused N1 BadPath'
# A rename keeps the limits of each path below, and of the one that is farthest down.
# chain LENGTH COUNT: the lines that make the directories of such a path, one in another
chain() {
    for ((k = 1; k <= $2; k++)); do
        printf 'nn a mkdir '
        repeat_name "$1" "$k"
        echo
    done
}
deepest=$(repeat_name 1 99)
{ chain 1 100; echo 'nn a mkdir /b'; echo 'nn a rename /a /b/a'; } | expect 'a rename that makes a path too deep' 0 '102 refused N1 BadPath'
{ chain 1 100; echo 'nn a mkdir /b'; echo 'nn a rename /a/a /b/a'; echo "nn a info /b$deepest"; } | expect 'a rename that makes the deepest path' 0 '103 dir 4294967396 - -'
{ chain 79 100; printf 'nn a rename '; repeat_name 79 1; printf ' /'; repeat b 80; echo; } | expect 'a rename that makes a path too long' 0 '101 refused N1 BadPath'
longest=$(repeat_name 79 100)
{
    chain 79 100
    printf 'nn a rename '
    repeat_name 79 1
    printf ' /'
    repeat b 79
    printf '\nnn a info /'
    repeat b 79
    printf '%s\n' "${longest:80}"
} | expect 'a rename that makes the longest path' 0 '102 dir 4294967396 - -'

for ((i = 1; i < 20000; i++)); do
    printf 'nn a mkdir /%s\n' "$i"
done | { cat; echo 'nn a info /19999'; } | expect 'many directories' 0 '20000 dir 4294987295 - -'

# A directory has 65,536 snapshots at most. One that is removed makes room for another.
room=$(mktemp -d -p "$quick") || exit 1
answers=$({
    printf 'nn a mkdir /d\nnn hdfs allow /d\n'
    seq -f 'nn a snap /d %05.0f' 0 65535
    printf 'nn a snap /d more\nnn a unsnap /d 00000\nnn a snap /d more\nnn a snap /d 00000\nnn a info /d/.snapshot/65535\n'
} | (cd "$room" && exec "$hkms" replay) | tail -n 5)
wanted='65539 refused N15 TooManySnapshots
65540 done
65541 done
65542 refused N15 TooManySnapshots
65543 dir 4294967297 - -'
if [ "$answers" != "$wanted" ]; then
    printf 'tests/limits.sh: many snapshots: answers:\n%s\nwanted:\n%s\n' "$answers" "$wanted"
    failures=$((failures + 1))
fi
rm -rf "$room"

# A batch has 1,000 files at most, so that 1,001 are delivered in two.
# files FIRST LAST: the lines that make a file for each of these numbers, which are those of their asks and replies
files() {
    for ((k = $1; k <= $2; k++)); do
        printf 'ask a create /z/%04d\ndraw %d\nfinish %d\n' "$k" "$k" "$k"
    done
}
{
    printf '%s\n' 'kms a create k 128 -' 'nn a mkdir /z' 'ask hdfs zone /z k' 'draw 1' 'finish 1'
    files 2 1002
    printf '%s\n' 'kms a roll k -' 'ask hdfs submit /z' 'draw 1003' 'finish 1003' 'walk /z' 'walk /z' 'serve 1' 'serve 2' 'deliver 1004' 'deliver 1005' \
        'walk /z' 'nn hdfs status /z'
} | expect 'a zone of 1,001 files' 0 '3020 status Completed k@1 1001 0 no 1002'

# Bytes that come one at a time are read as bytes that come together.
while IFS= read -r -n 1 -d '' byte; do
    printf '%s' "$byte"
done <examples/first-key.events | expect 'single bytes' 0 '5 refused K4 NoSuchKey'

# ---- memory that is given back

# The program, without the script that builds it.
program=$PWD/crates/hkms_tool/out/hkms_tool

# 300,000 directories that are made and deleted in turn, in 32 MB of memory.
room=$(mktemp -d -p "$quick") || exit 1
last=$(cd "$room" && yes $'nn a mkdir /a\nnn a delete /a' | head -n 600000 | (ulimit -v 32768; exec "$program" replay) | tail -n 1)
if [ "$last" != '600000 done' ]; then
    echo "tests/limits.sh: a directory that is made and deleted 300000 times: last line $last"
    failures=$((failures + 1))
fi
rm -rf "$room"

# ---- times

# takes COMMAND..: runs a command three times, whose output goes to a file, and leaves the least of its processor times in seconds.
takes() {
    local TIMEFORMAT=%U time
    seconds=
    for _ in 1 2 3; do
        time=$( { time "$@" >"$folder/answer" ; } 2>&1 )
        seconds=$(printf '%s\n' "$time" ${seconds:+"$seconds"} | sort -g | head -n 1)
    done
}

# answers NAME LAST: compares the last line of the output.
answers() {
    local last
    last=$(tail -n 1 "$folder/answer")
    [ "$last" = "$2" ] || {
        echo "tests/limits.sh: $1: $last"
        failures=$((failures + 1))
    }
}

# no_longer NAME: fails where four times as much took twelve times as long, or more: `single` and `seconds` are the two times. What
# is linear takes four to seven times as long, since larger memory is slower; what goes over all at each step takes sixteen times.
no_longer() {
    awk -v one="$single" -v four="$seconds" 'BEGIN { exit !(four < 12 * one) }' || {
        echo "tests/limits.sh: $1 take $single seconds, and four times as many $seconds"
        failures=$((failures + 1))
    }
}

# ---- many asks

# plays FILE: plays lines in an empty folder.
plays() {
    local room
    room=$(mktemp -d -p "$quick") || exit 1
    (cd "$room" && "$program" replay <"$1")
    rm -rf "$room"
}

# asks COUNT: asks for so many files, and makes them in the order in which they were asked for.
asks() {
    { seq -f 'ask a create /%.0f' "$1"; seq -f 'draw %.0f' "$1"; seq -f 'finish %.0f' "$1"; } >"$folder/asks"
    takes plays "$folder/asks"
    answers "$1 asks" "$((3 * $1)) done"
}

asks 20000
single=$seconds
asks 80000
no_longer '20000 asks that are open together'

# ---- long logs

# Writes a names.log of so many directories: the first thousand in the root, the others in those. With `zones`, those others are
# then made zones, and are removed in the order in which they were made, but for the last.
write_log() {
    python3 - "$@" <<'EOT'
import struct
import sys

log = bytearray(b'HKMSNAM1')
count = int(sys.argv[1])
inner = [b'/d%d/e%d' % (i % 1000, i // 1000) for i in range(1000, count)]


def record(payload):
    log.extend(b'\x01' + struct.pack('>I', len(payload)) + payload)


def field(path):
    return struct.pack('>H', len(path)) + path


record(b'\x01' + struct.pack('>I', 1))
for i, path in enumerate([b'/d%d' % i for i in range(min(count, 1000))] + inner):
    record(b'\x02' + struct.pack('>Q', (1 << 32) + 1 + i) + field(path))
if 'zones' in sys.argv:
    for path in inner:
        record(b'\x06' + field(path) + b'\x01k')
    for path in inner[:-1]:
        record(b'\x04' + field(path))
log.extend(b'\x00')
sys.stdout.buffer.write(log)
EOT
}

# starts FOLDER PATH: opens the logs of a folder, and asks for what stands at a path.
starts() {
    (cd "$1" && "$program" replay <<<"nn a info $2")
}

# opens COUNT PATH ANSWER [zones]: opens a log of so many directories, and asks for what stands at a path.
opens() {
    local room
    room=$(mktemp -d -p "$quick") || exit 1
    write_log "$1" "${@:4}" >"$room/names.log"
    takes starts "$room" "$2"
    answers "a log of $*" "1 $3"
    rm -rf "$room"
}

if command -v python3 >/dev/null; then
    opens 50000 /d999/e49 'dir 4295017296 - -'
    single=$seconds
    opens 200000 /d999/e199 'dir 4295167296 - -'
    no_longer 'openings of 50000 directories'

    # A removal takes time by what it removes, however many zones there are.
    opens 25000 /d999/e24 'dir 4294992296 /d999/e24 k' zones
    single=$seconds
    opens 100000 /d999/e99 'dir 4295067296 /d999/e99 k' zones
    no_longer 'openings of 25000 directories, nearly all of them zones that are removed'

    # The root and 999,999 directories are all that may stand. What is deleted makes room.
    room=$(mktemp -d -p "$quick") || exit 1
    write_log 999999 >"$room/names.log"
    status=0
    answers=$(cd "$room" && "$hkms" replay <<'EOT'
nn a mkdir /x
ask a create /x
nn a mkdir /d0
nn a delete /d998/e999
nn a mkdir /x
nn a mkdir /y
EOT
    ) || status=$?
    wanted='1 refused N20 TooManyInodes
2 refused N20 TooManyInodes
3 refused N3 Exists
4 done
5 done
6 refused N20 TooManyInodes'
    if [ "$status" -ne 0 ] || [ "$answers" != "$wanted" ]; then
        printf 'tests/limits.sh: a full namesystem: status %s, answers:\n%s\nwanted:\n%s\n' "$status" "$answers" "$wanted"
        failures=$((failures + 1))
    fi
else
    echo 'tests/limits.sh: left out, since there is no python3: long logs'
fi

[ "$failures" -eq 0 ]
