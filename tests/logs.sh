#!/usr/bin/env bash
# Both logs read by tests/logs.py, which knows only the formats of docs/logs.md: their records are the changes that were
# asked for, in order.
set -u
. "$(dirname "${BASH_SOURCE[0]}")/room.bash"
command -v python3 >/dev/null || { echo "tests/logs.sh: skipped, the command python3 is not here"; exit 0; }

# Reads a log of the folder.
read_log() {
    output=$(python3 -u tests/logs.py "$room/$1" 2>&1)
    status=$?
}

# The first record of each log has the first opening.
first=$(((1 << 32) + 1))
long=000102030405060708090a0b0c0d0e0f101112131415161718191a1b1c1d1e1f

fresh
answers=$(cd "$room" && "$hkms" replay <<END
kms a create k 128 2b7e151628aed2a6abf7158809cf4f3c
kms a create gone 256 $long
kms a roll k 000102030405060708090a0b0c0d0e0f
kms a create k 128 -
kms a delete gone
nn a mkdir /d
nn a mkdir /%C3%A4
ask hdfs zone /d k
draw 1
finish 1
ask a create /d/f
draw 2
finish 2
ask a create /g
draw 3
finish 3
nn a delete /g
nn a info /d/f
restart kms
END
)
edek=$(sed -n 's/^18 file [0-9]* \/d //p' <<<"$answers")
[[ $edek =~ ^k@1:[0-9a-f]{32}:[0-9a-f]{32}$ ]] || { echo "tests/logs.sh: the file has no key: $edek"; failures=$((failures + 1)); }

read_log keys.log
expect 'the key log' 0 "8 opened 1
18 create $first k 128 '' 1 2b7e151628aed2a6abf7158809cf4f3c
62 create $((first + 1)) gone 256 '' 2 $long
125 roll $first 1 000102030405060708090a0b0c0d0e0f
157 delete $((first + 1))
171 opened 2
end 181"

read_log names.log
expect 'the edit log' 0 "8 opened 1
18 mkdir $first '/d'
36 mkdir $((first + 1)) '/ä'
55 zone '/d' k
67 file $((first + 3)) '/d/f' $edek
125 file $((first + 4)) '/g' none
144 remove '/g'
end 154"

# A re-encryption, and what it gave a file.
cp -r "$room" "$folder/first"
fresh
answers=$(cd "$room" && "$hkms" replay <<END
kms a create k 128 2b7e151628aed2a6abf7158809cf4f3c
nn a mkdir /z
ask hdfs zone /z k
draw 1
finish 1
ask a create /z/f
draw 2
finish 2
kms a roll k 000102030405060708090a0b0c0d0e0f
ask hdfs submit /z
draw 3
finish 3
walk /z
serve 1
deliver 4
walk /z
nn a info /z/f
END
)
old=$(sed -n 's/^7 reply 2 ready //p' <<<"$answers")
new=$(sed -n 's/^17 file [0-9]* \/z //p' <<<"$answers")
[ "${old:4:32}" = "${new:4:32}" ] || { echo "tests/logs.sh: the vector of the file changed: $old and $new"; failures=$((failures + 1)); }
read_log names.log
expect 'the edit log of a re-encryption' 0 "8 opened 1
18 mkdir $first '/z'
36 zone '/z' k
48 file $((first + 2)) '/z/f' $old
106 submit $((first + 3)) '/z' k 1
128 update $((first + 3)) 1 0 '/f' $((first + 2)):$new
204 complete $((first + 3))
end 218"
room=$folder/first

# A record of no kind is found, at its place, and a file that is no log.
printf '\x05' | dd of="$room/names.log" bs=1 seek=149 conv=notrunc status=none
read_log names.log
expect 'a record of no kind' 1 "8 opened 1
18 mkdir $first '/d'
36 mkdir $((first + 1)) '/ä'
55 zone '/d' k
67 file $((first + 3)) '/d/f' $edek
125 file $((first + 4)) '/g' none
damaged 144"
printf 'X' | dd of="$room/keys.log" bs=1 conv=notrunc status=none
read_log keys.log
expect 'no log' 1 'damaged 0'

exit $((failures > 0))
