#!/usr/bin/env bash
# A day of both services: three keys, two zones of 20 files each, of which ten get ready keys, a snapshot, a rollover, and the
# re-encryption of one zone. Each part is a run of its own. The user alice opens all 40 files in the morning and in the evening,
# to the same data encryption keys.
set -u
. "$(dirname "${BASH_SOURCE[0]}")/room.bash"

# Runs the lines of standard input in the folder of the day.
run() {
    output=$(cd "$room" && "$hkms" replay)
    status=$?
}

fresh
cat >"$room/kms-acls.properties" <<'END'
hadoop.kms.blacklist.DECRYPT_EEK=hdfs
default.key.acl.MANAGEMENT=admin
default.key.acl.GENERATE_EEK=hdfs
default.key.acl.DECRYPT_EEK=alice,hdfs
default.key.acl.READ=hdfs
END

plans=(/plans/{01..20})
books=(/books/{01..20})

# make_zone PATH KEY ASK, and make_files ASK PATH ..: the ask with this number is the next one, and its reply has the same.
make_zone() {
    printf '%s\n' "nn alice mkdir $1" "ask hdfs zone $1 $2" "draw $3" "finish $3"
}
make_files() {
    local ask=$1 path
    shift
    for path; do
        printf '%s\n' "ask alice create $path" "draw $ask" "finish $ask"
        ask=$((ask + 1))
    done
}

# The answer to the event with this number.
answer() {
    sed -n "s/^$1 //p" <<<"$output"
}

run < <(
    printf 'kms admin create %s -\n' 'k 128' 'j 256' 'm 192'
    make_zone /plans k 1
    make_zone /books j 2
    printf '%s\n' 'kms hdfs generate k 1' ticket
    yes 'deposit 1' | head -n 10
    echo ticket
    make_files 3 "${plans[@]}"
    echo ticket
    make_files 23 "${books[@]}"
    printf '%s\n' 'nn hdfs allow /plans' 'nn alice snap /plans morning' 'nn hdfs zones'
)
tickets="$(answer 13) $(grep -c ' kept$' <<<"$output") $(answer 24) $(answer 85)"
zones=$(answer 148)
output="$tickets, $(grep -c ' done$' <<<"$output") $zones"
expect 'the morning' 0 'ticket 1 k@0 500 10 ticket 2 k@0 490 ticket 3 k@0 500, 46 zones /books:j /plans:k'

# The encrypted keys of the files at these paths, a line each.
edeks() {
    printf 'nn alice info %s\n' "$@" | (cd "$room" && "$hkms" replay) | cut -d' ' -f5
}

# What alice reads by the encrypted keys of standard input.
open() {
    tr ':' ' ' | sed 's/^/kms alice decrypt /' | (cd "$room" && "$hkms" replay) | cut -d' ' -f2-
}

# How many files have a key of each version.
versions() {
    cut -d: -f1 <<<"$1" | sort | uniq -c | tr -s ' \n' ' '
}

morning=$(edeks "${plans[@]}" "${books[@]}")
keys=$(open <<<"$morning")
output="$(versions "$morning")$(grep -c '^key ' <<<"$keys") $(sort -u <<<"$keys" | wc -l)" status=0
expect 'the files in the morning' 0 ' 20 j@0 20 k@0 40 40'

run <<'END'
kms admin roll k -
ask hdfs submit /plans
draw 1
finish 1
walk /plans
walk /plans
serve 1
deliver 2
walk /plans
nn hdfs status /plans
nn alice rdelete /plans
kms hdfs decrypt k@0 0f0e0d0c0b0a09080706050403020100 874d6191b620e3261bef6864990db6ce
END
for event in 4 5 6 8 9 10 11 12; do
    answer "$event"
done >"$folder/answers"
output=$(cat "$folder/answers")
expect 'the re-encryption' 0 'done
batch 1 20
noneleft 1
applied 20 0 0
completed
status Completed k@1 20 0 no 20
refused N11 HasSnapshots
refused K3 Denied ServiceBlacklist DECRYPT_EEK'

evening=$(edeks "${plans[@]}" "${books[@]}")
output="$(versions "$evening")$(diff <(open <<<"$evening") <(cat <<<"$keys") | wc -l)" status=0
expect 'the files in the evening' 0 ' 20 j@0 20 k@1 0'

output=$(diff <(edeks "${plans[@]/#\/plans/\/plans\/.snapshot\/morning}") <(head -n 20 <<<"$morning"))
expect 'the files in the snapshot' 0 ''

exit $((failures > 0))
