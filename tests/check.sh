#!/usr/bin/env bash
# `hkms check`: its lines say what both logs make, and which files are lost. It changes neither log and makes none, takes no lock, and reads
# no input and no properties.
set -u
. "$(dirname "${BASH_SOURCE[0]}")/room.bash"

# The program is run often, so it is built once and then run without the script that builds it.
[ "$("$hkms" build </dev/null)" = 'usage refused' ] || exit 1
program=$PWD/crates/hkms_tool/out/hkms_tool
material=2b7e151628aed2a6abf7158809cf4f3c
next=000102030405060708090a0b0c0d0e0f

# replay: runs the lines of standard input in the room.
replay() {
    (cd "$room" && "$program" replay >"$folder/answers") || {
        echo "tests/check.sh: a replay failed:" && cat "$folder/answers"
        failures=$((failures + 1))
    }
}

# The names, times and bytes of all files of the room.
all_files() {
    (cd "$room" && LC_ALL=C ls -A && find . -type f -exec stat -c '%n %s %Y %Z %a' {} + | sort && find . -type f -exec sha256sum {} + | sort)
}

# checks NAME STATUS OUTPUT: runs a check in the room, which stays as it is. The output is all bytes of the standard output.
checks() {
    local before
    before=$(all_files)
    output=$(cd "$room" && "$program" check <"$folder/input" 2>"$folder/errors"; printf 'status %s' "$?")
    status=${output##*status }
    output=${output%status *}
    expect "$1" "$2" "$3"
    same "$1: the folder" "$before" "$(all_files)"
}

none=$'check keys=0 versions=0 directories=1 files=0 zones=0 snapshots=0 reencryptions=0 lost=0\n'
echo 'kms a names' >"$folder/input"

# ---- no logs, and empty ones

fresh
checks 'an empty folder' 0 "$none"
same 'an empty folder: standard error' '' "$(cat "$folder/errors")"
: >"$room/keys.log"
: >"$room/names.log"
checks 'empty logs' 0 "$none"

# ---- sound logs

fresh
replay <<END
kms a create k 128 $material
kms a create l 128 $next
kms a roll k $next
kms a roll k $material
kms a delete l
nn hdfs mkdir /z
nn hdfs mkdir /z/sub
nn hdfs mkdir /o
ask hdfs zone /z/sub k
draw 1
finish 1
ask hdfs create /z/sub/f
draw 2
finish 2
ask hdfs create /o/g
draw 3
finish 3
nn hdfs allow /z/sub
nn hdfs snap /z/sub one
nn hdfs snap /z/sub two
nn hdfs allow /o
nn hdfs snap /o one
END
checks 'sound logs' 0 $'check keys=1 versions=3 directories=4 files=2 zones=1 snapshots=3 reencryptions=0 lost=0\n'

# Properties with a mistake are not read, and neither is the input.
echo 'no property' >"$room/kms-acls.properties"
checks 'properties with a mistake' 0 $'check keys=1 versions=3 directories=4 files=2 zones=1 snapshots=3 reencryptions=0 lost=0\n'
same 'the input' 'kms a names' "$({ (cd "$room" && "$program" check >/dev/null); cat; } <"$folder/input")"
rm "$room/kms-acls.properties"

# It is the same with `--dir`, and makes nothing where it is started.
mkdir "$folder/elsewhere"
output=$(cd "$folder/elsewhere" && "$program" --dir "$room" check 2>&1)
status=$?
expect 'a check with --dir' 0 'check keys=1 versions=3 directories=4 files=2 zones=1 snapshots=3 reencryptions=0 lost=0'
same 'where it is started' '' "$(ls -A "$folder/elsewhere")"
output=$(cd "$folder/elsewhere" && "$program" --dir "$folder/none" check 2>"$folder/errors")
status=$?
expect 'a folder that is not there' 5 'store fault'

# A re-encryption that was submitted, and then ended.
replay <<END
ask hdfs submit /z/sub
draw 1
finish 1
END
checks 'a submitted zone' 0 $'check keys=1 versions=3 directories=4 files=2 zones=1 snapshots=3 reencryptions=1 lost=0\n'
replay <<END
nn hdfs cancel /z/sub
END
checks 'a cancelled re-encryption' 0 $'check keys=1 versions=3 directories=4 files=2 zones=1 snapshots=3 reencryptions=0 lost=0\n'

# ---- logs that a run holds

cp -r "$room" "$folder/pair"
mkfifo "$folder/events"
(cd "$room" && exec "$program" replay <"$folder/events" >"$folder/answers") &
run=$!
exec 7>"$folder/events"
printf 'kms a names\n' >&7
for _ in $(seq 100); do
    [ -s "$folder/answers" ] && break
    sleep 0.1
done
checks 'logs that a run holds' 0 $'check keys=1 versions=3 directories=4 files=2 zones=1 snapshots=3 reencryptions=0 lost=0\n'
exec 7>&-
wait "$run"

# ---- lost files

replay <<END
nn hdfs mkdir /a%20b
ask hdfs zone /a%20b k
draw 1
finish 1
ask hdfs create /a%20b/%C3%A4
draw 2
finish 2
kms a delete k
END
checks 'a deleted key' 0 $'lost /a%20b/%C3%A4 k@2\nlost /z/sub/f k@2\ncheck keys=0 versions=0 directories=5 files=3 zones=2 snapshots=3 reencryptions=0 lost=2\n'

# A key of the same name has versions of the same names, as far as it has been rolled.
replay <<END
kms a create k 128 $material
END
checks 'a key made anew' 0 $'lost /a%20b/%C3%A4 k@2\nlost /z/sub/f k@2\ncheck keys=1 versions=1 directories=5 files=3 zones=2 snapshots=3 reencryptions=0 lost=2\n'
replay <<END
kms a roll k $material
kms a roll k $next
END
checks 'a key made anew and rolled' 0 $'check keys=1 versions=3 directories=5 files=3 zones=2 snapshots=3 reencryptions=0 lost=0\n'

# The key log is of another folder.
room=$folder/pair
rm "$room/keys.log"
checks 'no key log' 0 $'lost /z/sub/f k@2\ncheck keys=0 versions=0 directories=4 files=2 zones=1 snapshots=3 reencryptions=0 lost=1\n'

# ---- damage

fresh
replay <<END
kms a create k 128 $material
nn hdfs mkdir /d
nn hdfs mkdir /e
END
checks 'logs of two records' 0 $'check keys=1 versions=1 directories=3 files=0 zones=0 snapshots=0 reencryptions=0 lost=0\n'
cp "$room/keys.log" "$room/names.log" "$folder"
# put FILE OFFSET BYTE: writes a byte into a log.
put() {
    # shellcheck disable=SC2059
    printf "$3" | dd of="$room/$1" bs=1 seek="$2" conv=notrunc status=none
}
put names.log 0 'x'
checks 'no edit log' 4 $'damaged names 0\n'
put keys.log 0 'x'
checks 'neither log' 4 $'damaged keys 0\n'
cp "$folder/names.log" "$room"
checks 'no key log beside an edit log' 4 $'damaged keys 0\n'
cp "$folder/keys.log" "$room"

# A record that was begun and has no commit byte does not count. A check does not cut it off.
printf '\0\0\0\0\7half' >>"$room/names.log"
checks 'half of a record' 0 $'check keys=1 versions=1 directories=3 files=0 zones=0 snapshots=0 reencryptions=0 lost=0\n'

# A log that cannot be read.
fresh
mkdir "$room/keys.log"
output=$(cd "$room" && "$program" check 2>"$folder/errors")
status=$?
expect 'a folder in place of a log' 5 'store fault'

# ---- an output that cannot be written

fresh
(cd "$room" && "$program" check >/dev/full 2>"$folder/errors")
same 'a full output: the status' 8 "$?"
(cd "$room" && "$program" check >&- 2>"$folder/errors")
same 'a closed output: the status' 8 "$?"

exit $((failures > 0))
