#!/usr/bin/env bash
# The namesystem over its log, from outside: the worked example, what a restart and the next run find, the bytes of
# names.log, and that file damaged and full.
set -u
. "$(dirname "${BASH_SOURCE[0]}")/room.bash"

# The program is run hundreds of times, so it is built once and then run without the script that builds it.
[ "$("$hkms" build </dev/null)" = 'usage refused' ] || exit 1
hkms=$PWD/crates/hkms_tool/out/hkms_tool

# Runs the program in this folder.
run_here() {
    output=$(cd "$room" && "$hkms" replay 2>"$folder/errors")
    status=$?
}

# Runs the program in an empty folder.
run() {
    fresh
    run_here
}

# Material that is drawn differs from run to run: all but its digits is compared.
mask() {
    output=$(sed -E 's/[0-9a-f]{32}/H/g' <<<"$output")
}

# The digits of the bytes of a file, from offset $2 on.
digits() {
    od -An -v -tx1 -j "${2:-0}" "$1" | tr -d ' \n'
}

# The bytes that digits spell.
bytes() {
    # shellcheck disable=SC2059
    printf "$(sed 's/../\\x&/g' <<<"$1")"
}

# ---- calls

run <examples/names.events
drawn=$(sed -n 's/^12 file 4294967299 //p' <<<"$output")
kept=$(sed -n 's/^20 file 4294967299 //p' <<<"$output")
mask
expect 'the worked example' 0 '1 version k@0 H
2 version j@0 H
3 done
4 ask 1 4294967298 metadata k
5 reply 1 meta k 128 1 1
6 done
7 ask 2 4294967299 generate k
8 reply 2 ready k@0:H:H
9 done
10 done
11 list f old%20drafts/
12 file 4294967299 /z k@0:H:H
13 zones /z:k
14 refused N6 NotSuperuser
15 refused N5 NotEmpty
16 refused N25 RootOrInside
17 done
18 opened 2
19 list f
20 file 4294967299 /z k@0:H:H
21 zones /z:k
22 ask 3 8589934593 generate k
23 done
24 refused N2 NoSuchPath
25 done
26 ask 4 8589934595 metadata j
27 reply 3 meta j 128 1 2
28 done
29 reply 4 ready k@0:H:H
30 refused N17 ZoneChanged
31 list
32 zones /z:j
33 refused N16 AskGone 2 4
34 refused N16 AskGone 2 4
35 opened 3
36 refused N16 AskGone 3 1
37 done
38 dir 12884901889 - -
39 list y/ z/'
output=$kept status=0
expect 'the encrypted key of a file behind a restart' 0 "$drawn"

# A file that was deleted is read in a snapshot, in a run after it too. Its encrypted key opens to what it opened to before.
run <<'EOT'
kms a create k 128 2b7e151628aed2a6abf7158809cf4f3c
nn a mkdir /z
ask hdfs zone /z k
draw 1
finish 1
ask a create /z/f
draw 2
finish 2
nn hdfs allow /z
nn a snap /z s
nn a info /z/f
EOT
edek=$(sed -n 's,^11 file 4294967299 /z ,,p' <<<"$output")
run_here <<<"kms a decrypt ${edek//:/ }"
key=$output
mask
expect 'the data encryption key of a file' 0 '1 key H'
run_here <<<'nn a delete /z/f'
run_here <<EOT
kms a decrypt ${edek//:/ }
nn a info /z/f
nn a info /z/.snapshot/s/f
kms a roll k 000102030405060708090a0b0c0d0e0f
EOT
expect 'a file that is left in a snapshot' 0 "$key
2 refused N2 NoSuchPath
3 file 4294967299 /z $edek
4 version k@1 000102030405060708090a0b0c0d0e0f"
run_here <<<"kms a decrypt ${edek//:/ }"
expect 'the data encryption key of a file in a snapshot' 0 "$key"

run <<'EOT'
nn a delete /
nn a rdelete /
nn a mkdir /d
nn a delete /
nn a rdelete /
nn hdfs rdelete /
nn a info /
EOT
expect 'the root is not deleted' 0 '1 refused N25 RootOrInside
2 refused N25 RootOrInside
3 done
4 refused N25 RootOrInside
5 refused N25 RootOrInside
6 refused N25 RootOrInside
7 dir 0 - -'

run <<'EOT'
ask a create /f
draw 1
finish 1
nn a mkdir /d
nn a mkdir /d/%25%2C%C3%A4%0A
nn a mkdir /d!
nn a mkdir /d/x
nn a list /
nn a list /d
nn a list /d/x
nn a list /f
nn a list /d/y
nn a list /d/y/z
nn a list d
nn a delete /d/y
nn a delete /f/y
nn a delete d
nn a rdelete /d/x/
nn a delete /d/x
nn a delete /f
nn a list /
nn a rdelete /d
nn a list /
nn a list /d
EOT
expect 'lists and deletions' 0 '1 ask 1 4294967297 none
2 reply 1 nothing
3 done
4 done
5 done
6 done
7 done
8 list d/ d!/ f
9 list %25%2C%C3%A4%0A/ x/
10 list
11 refused N4 NotADirectory
12 refused N2 NoSuchPath
13 refused N2 NoSuchPath
14 refused N1 BadPath
15 refused N2 NoSuchPath
16 refused N2 NoSuchPath
17 refused N1 BadPath
18 refused N1 BadPath
19 done
20 done
21 list d/ d!/
22 done
23 list d!/
24 refused N2 NoSuchPath'

# A finish is done once, and a restart drops what is open. Neither refusal changes anything.
run <<'EOT'
kms a create k 128 2b7e151628aed2a6abf7158809cf4f3c
nn a mkdir /z
ask hdfs zone /z k
draw 1
finish 1
ask a create /z/f
draw 2
finish 2
finish 2
restart nn
finish 2
nn a list /z
nn hdfs zones
EOT
mask
expect 'a finish that is repeated' 0 '1 version k@0 H
2 done
3 ask 1 4294967298 metadata k
4 reply 1 meta k 128 1 1
5 done
6 ask 2 4294967299 generate k
7 reply 2 ready k@0:H:H
8 done
9 refused N16 AskGone 1 4
10 opened 2
11 refused N16 AskGone 2 1
12 list f
13 zones /z:k'

# The next run finds all of it, with a number of opening of its own.
run_here <<'EOT'
nn a list /z
nn a info /z/f
nn hdfs zones
ask a create /z/g
nn a mkdir /d
nn a info /d
restart kms
nn a info /d
restart nn
nn a rdelete /z
nn hdfs zones
EOT
mask
expect 'the namesystem of the run before' 0 '1 list f
2 file 4294967299 /z k@0:H:H
3 zones /z:k
4 ask 1 12884901889 generate k
5 done
6 dir 12884901890 - -
7 opened 3
8 dir 12884901890 - -
9 opened 4
10 done
11 zones'

# ---- the bytes of the log

run </dev/null
expect 'an empty input' 0 ''
output="$(digits "$room/keys.log") $(digits "$room/names.log")"
expect 'the logs of an empty input' 0 '484b4d534b4559310100000005010000000100 484b4d534e414d310100000005010000000100'

run <<<'restart nn'
expect 'a restart of an empty namesystem' 0 '1 opened 2'
output=$(digits "$room/names.log")
expect 'the log of two openings' 0 '484b4d534e414d31010000000501000000010100000005010000000200'

run <<<'nn hdfs mkdir /z'
expect 'a directory' 0 '1 done'
output="$(stat -c %s "$room/names.log") $(digits "$room/names.log" 18)"
expect 'the record of a directory' 0 '37 010000000d02000000010000000100022f7a00'
cp "$room/names.log" "$folder/one"

# Makes a folder with the log $1, cut to $2 bytes, with the byte at offset $3 changed to $4 (hexadecimal digits).
changed_log() {
    fresh
    head -c "$2" "$1" >"$room/names.log"
    # shellcheck disable=SC2059
    printf "\\x$4" | dd of="$room/names.log" bs=1 seek="$3" conv=notrunc status=none
}

# The gate of the directory is the byte at offset 18.
for gate in 37:01 37:00 37:07 37:ff 36:00 30:02 19:00; do
    changed_log "$folder/one" "${gate%:*}" 18 "${gate#*:}"
    wanted='1 list'
    [ "$gate" != 37:01 ] || wanted='1 list z/'
    run_here <<<'nn a list /'
    expect "the length and gate $gate" 0 "$wanted"
    run_here <<<'nn a list /'
    expect "the length and gate $gate, opened again" 0 "$wanted"
done

# A log that is damaged stays as it is.
while read -r length at byte place; do
    changed_log "$folder/one" "$length" "$at" "$byte"
    cp "$room/names.log" "$folder/damaged"
    run_here <<<'nn a list /'
    expect "$length bytes with $byte at $at" 4 "damaged names $place"
    cmp -s "$folder/damaged" "$room/names.log"
    status=$? output=''
    expect "what is left of $length bytes with $byte at $at" 0 ''
done <<'EOT'
36 18 01 18
30 18 01 18
19 18 01 18
37 22 0e 18
37 23 05 18
37 27 02 18
37 33 03 18
37 34 78 18
37 17 02 8
37 12 00 8
37 7 32 0
37 0 68 0
EOT

# ---- records that do not apply to what those before them make

opened=0100000001
# dir COUNTER PATH
dir() { printf '0200000001%08x%s' "$1" "$(path "$2")"; }
# file COUNTER PATH KEY: with an encrypted key of this key, or without one
file() {
    printf '0300000001%08x%s' "$1" "$(path "$2")"
    [ -z "${3-}" ] || printf '0101%s0000%032x10%032x' "$(printf %s "$3" | od -An -tx1 | tr -d ' \n')" 1 2
    [ -n "${3-}" ] || printf 00
}
remove() { printf '04%s' "$(path "$1")"; }
# rename PATH PATH
rename() { printf '05%s%s' "$(path "$1")" "$(path "$2")"; }
# zone PATH KEY, of one letter
zone() { printf '06%s01%s' "$(path "$1")" "$(printf %s "$2" | od -An -tx1 | tr -d ' \n')"; }
allow() { printf '07%s' "$(path "$1")"; }
disallow() { printf '08%s' "$(path "$1")"; }
# snap PATH NAME, unsnap PATH NAME: a name is written as a path is
snap() { printf '09%s%s' "$(path "$1")" "$(path "$2")"; }
unsnap() { printf '0a%s%s' "$(path "$1")" "$(path "$2")"; }
# submit COUNTER PATH KEY NUMBER, cancel COUNTER, complete COUNTER
submit() { printf '0b00000001%08x%s01%s%04x' "$1" "$(path "$2")" "$(printf %s "$3" | od -An -tx1 | tr -d ' \n')" "$4"; }
# update COUNTER FAILED MARK FILE ..: what a delivery changed; no mark is `-`, and a FILE is what new_key writes
update() {
    local session=$1 failed=$2 mark=$3
    shift 3
    printf '0c00000001%08x%08x%08x' "$session" "$#" "$failed"
    [ "$mark" = - ] && printf 00 || printf '01%s' "$(path "$mark")"
    printf '%08x' "$#"
    printf %s "$@"
}
# new_key COUNTER KEY NUMBER: a file and its new encrypted key
new_key() { printf '00000001%08x01%s%04x%032x10%032x' "$1" "$(printf %s "$2" | od -An -tx1 | tr -d ' \n')" "$3" 1 3; }
cancel() { printf '0d00000001%08x' "$1"; }
complete() { printf '0e00000001%08x' "$1"; }
path() { printf '%04x%s' "${#1}" "$(printf %s "$1" | od -An -v -tx1 | tr -d ' \n')"; }

# Writes the log of these payloads, and sets place to the offset of the last one's gate.
make_log() {
    local payload next=8
    fresh
    {
        printf HKMSNAM1
        for payload; do
            bytes "01$(printf %08x $((${#payload} / 2)))$payload"
        done
        bytes 00
    } >"$room/names.log"
    for payload; do
        place=$next
        next=$((next + 5 + ${#payload} / 2))
    done
}

# refuses NAME PAYLOADS: the log is opened without the last of the records, and damaged at it with it.
refuses() {
    local name=$1
    shift
    if [ "$#" -gt 1 ]; then
        make_log "${@:1:$#-1}"
        run_here </dev/null
        expect "$name, without the record" 0 ''
    fi
    make_log "$@"
    run_here </dev/null
    expect "$name" 4 "damaged names $place"
}

d=$(dir 1 /d) z=$(dir 2 /z) marked=$(zone /z k)
refuses 'a directory before the first opening' "$d"
refuses 'a first opening of another number' 0100000002
refuses 'an opening out of turn' "$opened" 0100000003
refuses 'an opening twice' "$opened" "$opened"
refuses 'a directory that stands' "$opened" "$d" "$(dir 2 /d)"
refuses 'the root as a directory' "$opened" "$(dir 1 /)"
refuses 'a directory in none' "$opened" "$(dir 1 /d/e)"
refuses 'a directory in a file' "$opened" "$(file 1 /f)" "$(dir 2 /f/d)"
refuses 'an id that a row has' "$opened" "$d" "$(dir 1 /e)"
refuses 'an id that a removed row had' "$opened" "$d" "$(remove /d)" "$(dir 1 /e)"
refuses 'an id of another opening' "$opened" 0100000002 "$d"
refuses 'a file that stands' "$opened" "$(file 1 /f)" "$(file 2 /f)"
refuses 'a file with a key outside the zones' "$opened" "$d" "$(file 2 /d/f k)"
refuses 'a file without a key in a zone' "$opened" "$z" "$marked" "$(file 3 /z/f)"
refuses 'a file with a key of another name' "$opened" "$z" "$marked" "$(file 3 /z/f j)"
refuses 'the removal of the root' "$opened" "$d" "$(remove /)"
refuses 'the removal of nothing' "$opened" "$d" "$(remove /d/e)"
refuses 'a zone where nothing stands' "$opened" "$d" "$marked"
refuses 'a zone of a file' "$opened" "$(file 1 /f)" "$(zone /f k)"
refuses 'a zone of a directory with something in it' "$opened" "$z" "$(dir 3 /z/d)" "$marked"
refuses 'a zone twice' "$opened" "$z" "$marked" "$marked"
y=$(dir 3 /z/y) inner=$(zone /z/y j)
refuses 'a zone in a zone twice' "$opened" "$z" "$marked" "$y" "$inner" "$inner"
refuses 'a file of an inner zone with a key of the outer one' "$opened" "$z" "$marked" "$y" "$inner" "$(file 4 /z/y/f k)"
e=$(dir 2 /d/e) allowed=$(allow /d) snapped=$(snap /d s)
refuses 'snapshots allowed where nothing stands' "$opened" "$d" "$(allow /e)"
refuses 'snapshots allowed of a file' "$opened" "$(file 1 /f)" "$(allow /f)"
refuses 'snapshots allowed below a snapshottable directory' "$opened" "$d" "$e" "$allowed" "$(allow /d/e)"
refuses 'snapshots allowed above a snapshottable directory' "$opened" "$d" "$e" "$(allow /d/e)" "$allowed"
refuses 'snapshots disallowed that were not allowed' "$opened" "$d" "$(disallow /d)"
refuses 'snapshots disallowed of a directory with one' "$opened" "$d" "$allowed" "$snapped" "$(disallow /d)"
refuses 'a snapshot where none is allowed' "$opened" "$d" "$e" "$allowed" "$(snap /d/e s)"
refuses 'a snapshot twice' "$opened" "$d" "$allowed" "$snapped" "$snapped"
refuses 'a snapshot of no name' "$opened" "$d" "$allowed" "$(snap /d '')"
refuses 'a snapshot with a slash in its name' "$opened" "$d" "$allowed" "$(snap /d a/b)"
refuses 'the removal of no snapshot' "$opened" "$d" "$allowed" "$snapped" "$(unsnap /d t)"
refuses 'the removal of a directory with a snapshot' "$opened" "$d" "$allowed" "$snapped" "$(remove /d)"
refuses 'the removal of a directory above one with a snapshot' "$opened" "$d" "$e" "$(allow /d/e)" "$(snap /d/e s)" "$(remove /d)"
refuses 'a rename of the root' "$opened" "$d" "$(rename / /e)"
refuses 'a rename of a directory to its own path' "$opened" "$d" "$(rename /d /d)"
refuses 'a rename of a directory below itself' "$opened" "$d" "$(rename /d /d/e)"
refuses 'a rename of nothing' "$opened" "$d" "$(rename /e /f)"
refuses 'a rename to a path that stands' "$opened" "$d" "$z" "$(rename /d /z)"
refuses 'a rename into no directory' "$opened" "$d" "$(rename /d /e/f)"
refuses 'a rename into a file' "$opened" "$d" "$(file 2 /f)" "$(rename /d /f/d)"
refuses 'a rename of a directory with a snapshot' "$opened" "$d" "$allowed" "$snapped" "$(rename /d /x)"
refuses 'a rename of a directory above one with a snapshot' "$opened" "$d" "$e" "$(allow /d/e)" "$(snap /d/e s)" "$(rename /d /x)"
refuses 'a rename of a snapshottable directory into another' "$opened" "$d" "$(dir 2 /t)" "$allowed" "$(allow /t)" "$(rename /t /d/t)"
refuses 'a rename into a zone' "$opened" "$d" "$z" "$marked" "$(rename /d /z/d)"
refuses 'a rename out of a zone' "$opened" "$z" "$marked" "$(file 3 /z/f k)" "$(rename /z/f /f)"
refuses 'a rename from a zone to another' "$opened" "$z" "$marked" "$(dir 3 /y)" "$(zone /y k)" "$(file 4 /z/f k)" "$(rename /z/f /y/f)"
refuses 'a rename to a path without a slash' "$opened" "$d" "$(rename /d x)"
refuses 'a rename to a reserved path' "$opened" "$d" "$(rename /d /.reserved)"
refuses 'a rename with one path' "$opened" "$d" "05$(path /d)"
begun=$(submit 3 /z k 0)
refuses 'a re-encryption of nothing' "$opened" "$d" "$begun"
refuses 'a re-encryption of a file' "$opened" "$(file 1 /z)" "$begun"
refuses 'a re-encryption of a directory that is no zone' "$opened" "$z" "$begun"
refuses 'a re-encryption of a directory in a zone' "$opened" "$z" "$marked" "$(dir 4 /z/d)" "$(submit 3 /z/d k 0)"
refuses 'a re-encryption under another key' "$opened" "$z" "$marked" "$(submit 3 /z j 0)"
refuses 'a re-encryption of a zone that is being re-encrypted' "$opened" "$z" "$marked" "$begun" "$(submit 4 /z k 0)"
refuses 'a re-encryption under an id that a row has' "$opened" "$z" "$marked" "$(submit 2 /z k 0)"
refuses 'a re-encryption under the id of an earlier one' "$opened" "$z" "$marked" "$begun" "$(complete 3)" "$begun"
refuses 'the cancellation of no re-encryption' "$opened" "$z" "$marked" "$begun" "$(cancel 4)"
refuses 'the cancellation of a completed re-encryption' "$opened" "$z" "$marked" "$begun" "$(complete 3)" "$(cancel 3)"
refuses 'the completion of a cancelled re-encryption' "$opened" "$z" "$marked" "$begun" "$(cancel 3)" "$(complete 3)"
refuses 'the completion of a re-encryption whose zone was removed' "$opened" "$z" "$marked" "$begun" "$(remove /z)" "$(complete 3)"
refuses 'a rename in a zone that is being re-encrypted' "$opened" "$z" "$marked" "$(file 4 /z/f k)" "$begun" "$(rename /z/f /z/g)"
f=$(file 4 /z/f k) g=$(file 5 /z/g k) going=$(submit 6 /z k 1)
refuses 'an update of no re-encryption' "$opened" "$z" "$marked" "$f" "$going" "$(update 5 0 - "$(new_key 4 k 1)")"
refuses 'an update of a completed re-encryption' "$opened" "$z" "$marked" "$f" "$going" "$(complete 6)" "$(update 6 0 - "$(new_key 4 k 1)")"
refuses 'an update of a cancelled re-encryption' "$opened" "$z" "$marked" "$f" "$going" "$(cancel 6)" "$(update 6 1 -)"
refuses 'an update of a zone that was removed' "$opened" "$z" "$marked" "$f" "$going" "$(remove /z)" "$(update 6 1 -)"
refuses 'an update of an earlier re-encryption' "$opened" "$z" "$marked" "$f" "$going" "$(complete 6)" "$(submit 7 /z k 1)" "$(update 6 0 - "$(new_key 4 k 1)")"
refuses 'an update of no file' "$opened" "$z" "$marked" "$f" "$going" "$(update 6 0 - "$(new_key 5 k 1)")"
refuses 'an update of a file that was removed' "$opened" "$z" "$marked" "$f" "$going" "$(remove /z/f)" "$(update 6 0 - "$(new_key 4 k 1)")"
refuses 'an update of a directory' "$opened" "$z" "$marked" "$(dir 4 /z/f)" "$going" "$(update 6 0 - "$(new_key 4 k 1)")"
refuses 'an update of the directory of the zone' "$opened" "$z" "$marked" "$f" "$going" "$(update 6 0 - "$(new_key 2 k 1)")"
refuses 'an update of a file outside the zones' "$opened" "$z" "$marked" "$(file 4 /f)" "$going" "$(update 6 0 - "$(new_key 4 k 1)")"
refuses 'an update of a file in another zone' "$opened" "$z" "$marked" "$(dir 3 /y)" "$(zone /y k)" "$(file 4 /y/f k)" "$going" "$(update 6 0 - "$(new_key 4 k 1)")"
refuses 'an update with a key of another name' "$opened" "$z" "$marked" "$f" "$going" "$(update 6 0 - "$(new_key 4 j 1)")"
refuses 'an update of a file twice' "$opened" "$z" "$marked" "$f" "$g" "$going" "$(update 6 0 - "$(new_key 4 k 1)" "$(new_key 5 k 1)" "$(new_key 4 k 2)")"
refuses 'an update whose last file is not there' "$opened" "$z" "$marked" "$f" "$g" "$going" "$(update 6 0 - "$(new_key 4 k 1)" "$(new_key 5 k 1)" "$(new_key 8 k 1)")"
refuses 'a record of no kind' "$opened" "$d" 00
refuses 'a record with a byte behind it' "$opened" "$d" "$(remove /d)00"

make_log "$opened" "$d" "$z" "$marked" "$(file 3 /z/f k)" "$(file 4 /g)" "$(remove /d)"
run_here <<'EOT'
nn a list /
nn a info /z/f
nn a info /g
nn hdfs zones
EOT
expect 'a log made by hand' 0 '1 list g z/
2 file 4294967299 /z k@0:00000000000000000000000000000001:00000000000000000000000000000002
3 file 4294967300 - -
4 zones /z:k'

# A zone and a snapshottable directory that move keep their ids.
make_log "$opened" "$d" "$z" "$marked" "$(file 3 /z/f k)" "$(rename /z/f /z/g)" "$(rename /z /y)" "$(rename /y /d/z)" "$allowed" "$(rename /d /z)" \
    "$(snap /z s)" "$(rename /z/z/g /z/z/f)" "$(rename /z/z /z/y)"
run_here <<'EOT'
nn a list /
nn a info /z/y/f
nn hdfs zones
nn a info /z/.snapshot/s/z/g
nn a info /z/y
EOT
expect 'a log of renames made by hand' 0 '1 list z/
2 file 4294967299 /z/y k@0:00000000000000000000000000000001:00000000000000000000000000000002
3 zones /z/y:k
4 file 4294967299 /z/z k@0:00000000000000000000000000000001:00000000000000000000000000000002
5 dir 4294967298 /z/y k'

# Snapshots that were allowed twice are allowed; the removal of a directory disallows those below it.
make_log "$opened" "$d" "$e" "$allowed" "$allowed" "$snapped" "$(snap /d t)" "$(remove /d/e)" "$(unsnap /d t)" "$(dir 3 /p)" "$(dir 4 /p/c)" \
    "$(allow /p/c)" "$(remove /p/c)" "$(dir 5 /p/c)"
run_here <<'EOT'
nn a list /d
nn a list /d/.snapshot/s
nn a info /d/.snapshot/s/e
nn a list /d/.snapshot/t
nn a list /p/c/.snapshot/s
nn hdfs allow /p
EOT
expect 'a log of snapshots made by hand' 0 '1 list
2 list e/
3 dir 4294967298 - -
4 refused N14 NoSuchSnapshot
5 refused N12 NotSnapshottable
6 done'

# A re-encryption goes on at the new path of its zone, and the last one of a zone is shown.
make_log "$opened" "$d" "$z" "$marked" "$(file 4 /z/f k)" "$begun" "$(rename /z /d/z)" "$(cancel 3)" "$(submit 5 /d/z k 7)" "$(dir 6 /y)" "$(zone /y j)" \
    "$(submit 7 /y j 0)" "$(complete 7)"
run_here <<'EOT'
nn hdfs status /d/z
walk /d/z
nn hdfs status /d/z
nn hdfs status /y
walk /y
EOT
expect 'a log of re-encryptions made by hand' 0 '1 status Submitted k@7 0 0 no -
2 batch 1 1
3 status Processing k@7 0 0 no -
4 status Completed j@0 0 0 no -
5 refused N19 NotSubmitted'

# Updates: the counts and the mark add up, a mark that is absent stays as it was, and a file may get a key of any version, and again.
make_log "$opened" "$z" "$marked" "$f" "$g" "$going" "$(update 6 2 -)" "$(update 6 0 /f "$(new_key 4 k 1)" "$(new_key 5 k 0)")" "$(update 6 4294967295 -)" "$(rename /z /y)" \
    "$(update 6 0 - "$(new_key 5 k 65535)")" "$(dir 7 /d)" "$(update 6 1 /.reserved/g)"
run_here <<'EOT'
nn hdfs status /y
nn a info /y/f
nn a info /y/g
walk /y
walk /y
nn hdfs cancel /y
nn hdfs status /y
EOT
expect 'a log of updates made by hand' 0 '1 status Processing k@1 3 4294967298 no .reserved/g
2 file 4294967300 /y k@1:00000000000000000000000000000001:00000000000000000000000000000003
3 file 4294967301 /y k@65535:00000000000000000000000000000001:00000000000000000000000000000003
4 batch 1 2
5 noneleft 1
6 done
7 status Completed k@1 3 4294967298 yes .reserved/g'

# ---- a full disk: what does not fit is refused, and all that was answered is there, now and in the next run

fresh
for ((i = 100; i < 160; i++)); do
    echo "nn a mkdir /d$i"
done >"$folder/creates"
printf 'nn a info /d159\nnn a list /\n' >>"$folder/creates"
output=$(cd "$room" && trap '' XFSZ && ulimit -f 1 && "$hkms" replay <"$folder/creates" 2>"$folder/errors")
status=$?
made=$(sed -n 's/^\([0-9]*\) done$/\1/p' <<<"$output" | while read -r number; do printf ' d%s/' $((number + 99)); done)
output=$(tail -n 3 <<<"$output")
expect 'a log that is full' 0 "60 refused N23 StoreFault
61 refused N2 NoSuchPath
62 list$made"
[[ $made == ' d100/'* ]]
status=$? output=''
expect 'directories before the log is full' 0 ''
run_here <<'EOT'
nn a list /
nn a mkdir /after
nn a info /after
EOT
expect 'a log that was full' 0 "1 list$made
2 done
3 dir 8589934593 - -"

[ "$failures" -eq 0 ]
