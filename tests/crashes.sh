#!/usr/bin/env bash
# Keys and files outlive the process. Again and again the program is given events, is killed at some moment, and is
# started again on the same logs. Then all that it had answered has to stand, and at most the one event behind that: in
# the first part keys, with their material; in the second part directories, zones, files, snapshots and how far the
# re-encryptions of zones are. Each file, live and in snapshots, opens to the data encryption key that was told when it was
# made: through the program, and by tests/headline.py, which reads the logs as the kill left them. A killed process loses
# nothing that it wrote: what a loss of power leaves is not tried here.
set -u
cd "$(dirname "${BASH_SOURCE[0]}")/.." || exit 1
folder=$(mktemp -d) || exit 1
trap 'rm -rf "$folder"' EXIT

rounds=40
seconds_of_keys=20
seconds=54
calls=60
names=(a b c d e)

# A kill is to meet the program, and not the script that builds it.
[ "$(./hkms build </dev/null)" = 'usage refused' ] || exit 1
program=$PWD/crates/hkms_tool/out/hkms_tool
mkdir "$folder/run" || exit 1
mkfifo "$folder/events" "$folder/answers" || exit 1

# ---- what is expected: of each key that stands its versions, and the event that created it

declare -A versions=() created=()

# Event EVENT, a call VERB on the key NAME with MATERIAL, takes effect; its answer is left in answer.
expect() {
    local stand=${versions[$3]-} count
    case $1 in
    create)
        [ -z "$stand" ] || { answer='refused K6 KeyExists'; return; }
        answer="version $3@0 $4"
        versions[$3]="$3@0:$4"
        created[$3]=$2
        ;;
    roll)
        [ -n "$stand" ] || { answer='refused K4 NoSuchKey'; return; }
        count=$(wc -w <<<"$stand")
        answer="version $3@$count $4"
        versions[$3]="$stand $3@$count:$4"
        ;;
    delete)
        [ -n "$stand" ] || { answer='refused K4 NoSuchKey'; return; }
        answer='done'
        unset "versions[$3]" "created[$3]"
        ;;
    esac
}

# What is asked of a program that was started again, and what it is to answer.
questions() {
    local name
    echo 'kms a names'
    for name in "${names[@]}"; do
        printf 'kms a versions %s\nkms a metadata %s\n' "$name" "$name"
    done
    echo 'restart kms'
}

expected() {
    local name stand number=1 there=''
    for name in "${names[@]}"; do
        [ -z "${versions[$name]-}" ] || there+=" $name"
    done
    echo "1 names$there"
    for name in "${names[@]}"; do
        stand=${versions[$name]-}
        if [ -n "$stand" ]; then
            echo "$((number + 1)) versions $stand"
            echo "$((number + 2)) meta $name 128 $(wc -w <<<"$stand") ${created[$name]}"
        else
            echo "$((number + 1)) refused K4 NoSuchKey"
            echo "$((number + 2)) refused K4 NoSuchKey"
        fi
        number=$((number + 2))
    done
}

# Takes over the keys that a program answered.
take_over() {
    local kind rest name moment
    versions=() created=()
    while read -r _ kind rest; do
        case $kind in
        versions) versions[${rest%%@*}]=$rest ;;
        meta)
            read -r name _ _ moment <<<"$rest"
            created[$name]=$moment
            ;;
        esac
    done <<<"$1"
}

# ---- a round

# Calls at random, one a line; of those that take material, some give it and some have it drawn.
random_calls() {
    local i verb material verbs=(create create roll roll roll delete)
    for ((i = 0; i < calls; i++)); do
        verb=${verbs[RANDOM % ${#verbs[@]}]}
        material=-
        ((RANDOM % 2)) || printf -v material '%08x%08x%08x%08x' $RANDOM $RANDOM $RANDOM $RANDOM
        [ "$verb" != delete ] || material=''
        echo "$verb ${names[RANDOM % ${#names[@]}]} $material"
    done
}

# Plays the calls, reads so many answers, waits for so many turns, and kills the program.
play_and_kill() {
    local pid i line
    (cd "$folder/run" && exec "$program" replay <"$folder/events" >"$folder/answers") &
    pid=$!
    exec 3<>"$folder/events" 4<"$folder/answers"
    sed -E 's/^(create [a-z]+)/\1 128/; s/^/kms a /; s/ $//' "$folder/calls" >&3
    for ((i = 0; i < $1; i++)); do
        IFS= read -r -t 10 line <&4 || break
        echo "$line"
    done >"$folder/read"
    for ((i = 0; i < $2; i++)); do :; done
    kill -KILL "$pid"
    # What it answered before it was killed counts too.
    cat <&4 >>"$folder/read"
    exec 3>&- 4<&-
    wait "$pid"
} 2>/dev/null

fail() {
    printf 'tests/crashes.sh: round %s, killed behind %s answers: %s\n' "$round" "$answered" "$1"
    exit 1
}

opening=0
for ((round = 1; round <= rounds && SECONDS < seconds_of_keys; round++)); do
    random_calls >"$folder/calls"
    # Some are killed while they open the log.
    wanted=$((RANDOM % 4 ? RANDOM % (calls / 2) : 0))
    play_and_kill "$wanted" $((RANDOM % 4 * RANDOM / 16))
    status=$?
    answered=$(wc -l <"$folder/read")
    [ "$answered" -ge "$wanted" ] || fail "wanted are $wanted"
    [ "$status" -eq 137 ] || fail "it ended by itself, with status $status"

    number=0
    exec 5<"$folder/calls"
    while IFS= read -r line; do
        number=$((number + 1))
        read -r verb name material <&5
        [ "$material" != - ] || material=${line##* }
        expect "$verb" "$number" "$name" "$material"
        [ "$line" = "$number $answer" ] || fail "the answer to $verb $name is $line, wanted is $number $answer"
    done <"$folder/read"
    without=$(expected)
    # Of drawn material that was not answered nothing is known but its length.
    if read -r verb name material <&5; then
        [ "$material" != - ] || material='????????????????????????????????'
        expect "$verb" $((number + 1)) "$name" "$material"
    fi
    with=$(expected)
    exec 5<&-

    found=$(cd "$folder/run" && "$program" replay < <(questions))
    status=$?
    [ "$status" -eq 0 ] || fail "started again it ends with status $status and $found"
    last=${found##* opened }
    found=${found%$'\n'*}
    # shellcheck disable=SC2053
    [ "$found" = "$without" ] || [[ $found == $with ]] ||
        fail "$(printf 'found\n%s\nwanted\n%s\nor, with a command more,\n%s' "$found" "$without" "$with")"
    # This start and the restart were recorded, and the start of the one that was killed where it answered.
    [ "$last" -eq $((opening + 3)) ] || { [ "$answered" -eq 0 ] && [ "$last" -eq $((opening + 2)) ]; } ||
        fail "opening $last stands behind opening $opening"
    opening=$last
    take_over "$found"
done

# ---- the second part: what stands, by the question that asks for it; the data encryption keys of files by their ids; the
# sessions of re-encryptions and the names of snapshots by their zones

declare -A rows=() deks=() sessions=() snapshots=() seen=()
asked=()
zones=(z0 z1 z2 z3)
zone_keys=(p q r)
files=0 taken=0 checked=''

# Some files are in a batch, so that a re-encryption takes more than one.
properties='default.key.acl.MANAGEMENT=*
default.key.acl.GENERATE_EEK=*
default.key.acl.DECRYPT_EEK=*
default.key.acl.READ=*
hkms.reencrypt.batch=3'

has_checker=yes
for command in python3 openssl; do
    command -v "$command" >/dev/null || has_checker=''
done

ask_about() {
    local question
    for question; do
        [ -n "${seen[$question]-}" ] || asked+=("$question")
        seen[$question]=yes
    done
}

for key in "${zone_keys[@]}"; do ask_about "kms x metadata $key"; done
for zone in "${zones[@]}"; do ask_about "nn x info /$zone" "nn hdfs status /$zone"; done

# The questions on live entries at and below this path that have an answer, left in found.
live() {
    local question
    found=()
    for question in "${!rows[@]}"; do
        [[ $question != *'/.snapshot/'* ]] || continue
        [[ $question != "nn x info $1" && $question != "nn x info $1/"* ]] || found+=("$question")
    done
}

# The effects of events. Where the program was killed before it answered, answer is empty.
stands() {
    rows[$1]=$2
}
gone() {
    local question found
    live "$1"
    for question in "${found[@]}"; do unset "rows[$question]"; done
}
zone_gone() {
    gone "/$1"
    unset "rows[nn hdfs status /$1]" "sessions[$1]"
}
directory_made() {
    stands "nn x info /$1" 'dir ID - -'
    stands "nn hdfs status /$1" 'refused N8 NotAZoneRoot'
}
zone_made() {
    stands "nn x info /$1" "dir ID /$1 $2"
    stands "nn hdfs status /$1" 'status None'
}
file_moved() {
    rows[nn x info $2]=${rows[nn x info $1]}
    unset "rows[nn x info $1]"
}
zone_moved() {
    local question found to
    live "/$1"
    for question in "${found[@]}"; do
        to="nn x info /$2${question#"nn x info /$1"}"
        rows[$to]=${rows[$question]/ \/$1 / /$2 }
        unset "rows[$question]"
    done
    rows[nn hdfs status /$2]=${rows[nn hdfs status /$1]}
    [ -z "${sessions[$1]-}" ] || sessions[$2]=${sessions[$1]}
    unset "rows[nn hdfs status /$1]" "sessions[$1]"
}
snapped() {
    local question found
    live "/$1"
    for question in "${found[@]}"; do rows[$(in_snapshot "$1" "$2" "$question")]=${rows[$question]}; done
    snapshots[$1]+=" $2"
}
unsnapped() {
    local question
    for question in "${!rows[@]}"; do
        [[ $question != "nn x info /$1/.snapshot/$2" && $question != "nn x info /$1/.snapshot/$2/"* ]] || unset "rows[$question]"
    done
    snapshots[$1]=${snapshots[$1]/" $2"/}
}
submitted() {
    sessions[$1]=$2
    stands "nn hdfs status /$1" "status going $3 0 0 no"
}
# counted ZONE CHANGED FAILED: adds to the counts of a status.
counted() {
    local noted changed failed cancelled
    read -r _ _ noted changed failed cancelled <<<"${rows[nn hdfs status /$1]}"
    stands "nn hdfs status /$1" "status going $noted $((changed + $2)) $((failed + $3)) $cancelled"
}
# ended ZONE CANCELLED
ended() {
    local noted changed failed
    [[ -z $answer || $answer == completed || $answer == 'done' ]] || return 0
    read -r _ _ noted changed failed _ <<<"${rows[nn hdfs status /$1]}"
    stands "nn hdfs status /$1" "status Completed $noted $changed $failed $2"
}
# Whether a batch of this session is applied; the zone of the session is left in zone.
is_applied() {
    [[ $answer != ignored* ]] || return
    for zone in "${zones[@]}"; do
        [ "${sessions[$zone]-}" != "$1" ] || ! goes_on "$zone" || return 0
    done
    [ -z "$answer" ] || fail "a batch of no re-encryption that goes on is answered $answer"
    return 1
}
goes_on() {
    [[ ${rows[nn hdfs status /$1]-} == 'status going '* ]]
}
# delivered SESSION EDEK ..: a vector stays, so it says whose encrypted key each of these is.
delivered() {
    local zone session=$1 edek vector question found changed=0
    shift
    is_applied "$session" || return 0
    live "/$zone"
    for edek; do
        vector=${edek#*:}
        for question in "${found[@]}"; do
            [[ ${rows[$question]} == *":${vector%:*}:"* && ${rows[$question]} != *" $edek" ]] || continue
            rows[$question]="${rows[$question]% *} $edek"
            changed=$((changed + 1))
        done
    done
    [[ -z $answer || $answer == "applied $changed "*' 0' ]] || fail "$changed files changed, and the answer is $answer"
    counted "$zone" "$changed" 0
}
# given_up SESSION FILES
given_up() {
    local zone
    ! is_applied "$1" || counted "$zone" 0 "$2"
}
dek_told() {
    deks[$1]=${answer#key }
}

# The question on an entry of a zone, in a snapshot of the zone.
in_snapshot() {
    echo "nn x info /$1/.snapshot/$2${3#"nn x info /$1"}"
}

# What the questions are to be answered. The moment and the versions of a key, and the id of a directory, are left out, and so
# are the mark of a status, whether anything was done of what goes on, and why there is nothing at a path in a snapshot.
wanted_rows() {
    local question
    for question in "${asked[@]}"; do
        case $question in
        kms*) echo "${rows[$question]-refused K4 NoSuchKey}" ;;
        *) echo "${rows[$question]-refused N2 NoSuchPath}" ;;
        esac
    done
}
found_rows() {
    printf '%s\n' "${asked[@]}" | (cd "$folder/run" && "$program" replay) | sed -E '
        s/^[0-9]+ //; s/^(meta [a-z]+) .*/\1/; s/^dir [0-9]+ /dir ID /; s/^refused N1[24] .*/refused N2 NoSuchPath/
        s/^(status .*) [^ ]+$/\1/; s/^status (Submitted|Processing)/status going/'
    return "${PIPESTATUS[1]}"
}

# Events so far, the event behind which the program is killed, and what is kept of asks, replies and batches.
number=0 last=0 asks=0 replies=0 batches=0 effect=() answer=''
declare -A batch_session=() batch_files=() reply_session=() reply_keys=()

# tell PATTERN LINE EFFECT: gives the program a line, whose answer has to match the pattern. An effect of an event that
# was not answered, because the program is killed, is left in effect. Fails where the program is killed.
tell() {
    local pattern=$1 line=$2 turns
    shift 2
    effect=("$@")
    number=$((number + 1))
    echo "$line" >&3
    if [ "$number" -ge "$last" ]; then
        for ((turns = RANDOM % 4 * RANDOM / 16; turns > 0; turns--)); do :; done
        kill -KILL "$pid"
    fi
    if ! IFS= read -r -t 10 answer <&4; then
        [ "$number" -ge "$last" ] || fail "no answer to $line"
        answer=''
        return 1
    fi
    answered=$number
    # shellcheck disable=SC2053
    [[ $answer == "$number "$pattern ]] || fail "the answer to $line is $answer"
    answer=${answer#* }
    [ "${#effect[@]}" -eq 0 ] || "${effect[@]}"
    effect=()
    [ "$number" -lt "$last" ]
}

# Asks for what PATTERN says, draws what that wants, and leaves the answer to the draw, and the id of the ask in id.
ask_and_draw() {
    tell "ask $((asks + 1)) $1" "$2" || return
    asks=$((asks + 1))
    read -r _ _ id _ <<<"$answer"
    tell "reply $((replies + 1)) $3" "draw $asks" || return
    replies=$((replies + 1))
}

make_zone() {
    local id
    [ -n "${rows[nn x info /$1]-}" ] || tell 'done' "nn a mkdir /$1" directory_made "$1" || return
    ask_and_draw "* metadata $2" "ask hdfs zone /$1 $2" "meta $2 *" || return
    tell 'done' "finish $replies" zone_made "$1" "$2"
}

make_file() {
    local question edek id
    files=$((files + 1))
    question="nn x info /$1/f$files"
    ask_about "$question"
    ask_and_draw '* generate *' "ask a create /$1/f$files" 'ready *' || return
    edek=${answer##* }
    tell 'done' "finish $replies" stands "$question" "file $id /$1 $edek" || return
    tell 'key *' "kms hdfs decrypt ${edek//:/ }" dek_told "$id"
}

# Takes a file of the zone, if there is one, and leaves its path in path.
take_file() {
    local question found
    live "/$1"
    for question in "${found[@]}"; do
        path=${question##* }
        [ "$path" = "/$1" ] || return 0
    done
    return 1
}

remove_file() {
    local path
    ! take_file "$1" || tell 'done' "nn a delete $path" gone "$path"
}

rename_file() {
    local path
    take_file "$1" || return 0
    files=$((files + 1))
    ask_about "nn x info /$1/f$files"
    if goes_on "$1"; then
        tell 'refused N10 UnderReencryption' "nn a rename $path /$1/f$files"
    else
        tell 'done' "nn a rename $path /$1/f$files" file_moved "$path" "/$1/f$files"
    fi
}

# Renames a zone to a name that is free, if there is one.
rename_zone() {
    local to question found
    for to in "${zones[@]}" ''; do [ -n "${rows[nn x info /$to]-}" ] || break; done
    [ -n "$to" ] || return 0
    live "/$1"
    for question in "${found[@]}"; do ask_about "nn x info /$to${question#"nn x info /$1"}"; done
    if [ -n "${snapshots[$1]-}" ]; then
        tell 'refused N11 HasSnapshots' "nn a rename /$1 /$to"
    else
        tell 'done' "nn a rename /$1 /$to" zone_moved "$1" "$to"
    fi
}

remove_zone() {
    if [ -n "${snapshots[$1]-}" ]; then
        tell 'refused N11 HasSnapshots' "nn a rdelete /$1"
    else
        tell 'done' "nn a rdelete /$1" zone_gone "$1"
    fi
}

snap_zone() {
    local question found
    tell 'done' "nn hdfs allow /$1" || return
    taken=$((taken + 1))
    live "/$1"
    for question in "${found[@]}"; do ask_about "$(in_snapshot "$1" "s$taken" "$question")"; done
    tell 'done' "nn a snap /$1 s$taken" snapped "$1" "s$taken"
}

# Removes the last snapshot of a zone, if it has one.
unsnap_zone() {
    local name=${snapshots[$1]-}
    name=${name##* }
    [ -z "$name" ] || tell 'done' "nn a unsnap /$1 $name" unsnapped "$1" "$name"
}

submit_zone() {
    local id edek
    ask_and_draw '* generate *' "ask hdfs submit /$1" 'ready *' || return
    edek=${answer##* }
    tell 'done' "finish $replies" submitted "$1" "$id" "${edek%%:*}"
}

# Walks on, and has a batch served if there is one.
walk_and_serve() {
    tell '@(batch * *|noneleft *|completed)' "walk /$1" ended "$1" no || return
    [[ $answer == batch* ]] || return 0
    batches=$((batches + 1))
    batch_session[$batches]=${sessions[$1]} batch_files[$batches]=${answer##* }
    tell "reply $((replies + 1)) ready *" "serve $batches" || return
    replies=$((replies + 1))
    served+=("$replies")
    reply_session[$replies]=${sessions[$1]} reply_keys[$replies]=${answer#*ready }
}

# Delivers a reply, of any session of this run.
deliver() {
    local keys
    read -ra keys <<<"${reply_keys[$1]}"
    tell '@(applied * * 0|ignored *)' "deliver $1" delivered "${reply_session[$1]}" "${keys[@]}"
}

# Walks on, and has the batches served and delivered, some of them or all.
walk_on() {
    local turns
    for ((turns = RANDOM % 8; turns >= 0; turns--)); do
        walk_and_serve "$1" || return
        [[ $answer == reply* ]] || return 0
        deliver "$replies" || return
    done
}

# Gives a batch up, of any session of this run.
give_up() {
    tell '@(applied 0 0 *|ignored *)' "giveup $1" given_up "${batch_session[$1]}" "${batch_files[$1]}"
}

# One thing more for the re-encryption of a zone.
reencrypt() {
    if ! goes_on "$1"; then
        submit_zone "$1"
        return
    fi
    case $((RANDOM % 20)) in
    0) tell 'done' "nn hdfs cancel /$1" ended "$1" yes ;;
    [12]) [ "$batches" -eq 0 ] || give_up $((1 + RANDOM % batches)) ;;
    [3-6]) [ "${#served[@]}" -eq 0 ] || deliver "${served[RANDOM % ${#served[@]}]}" ;;
    [7-9]) walk_and_serve "$1" ;;
    *) walk_on "$1" ;;
    esac
}

# One thing more, at random.
go_on() {
    local zone=${zones[RANDOM % ${#zones[@]}]} key=${zone_keys[RANDOM % ${#zone_keys[@]}]} lengths=(128 192 256)
    if [ -z "${rows[kms x metadata $key]-}" ]; then
        tell "version $key@0 *" "kms a create $key ${lengths[RANDOM % 3]} -" stands "kms x metadata $key" "meta $key"
        return
    fi
    if [[ ${rows[nn x info /$zone]-} != "dir ID /$zone "* ]]; then
        make_zone "$zone" "$key"
        return
    fi
    case $((RANDOM % 24)) in
    0) tell "version $key@*" "kms a roll $key -" ;;
    1) remove_zone "$zone" ;;
    2) remove_file "$zone" ;;
    [34]) rename_file "$zone" ;;
    [56]) rename_zone "$zone" ;;
    7) snap_zone "$zone" ;;
    [89]) unsnap_zone "$zone" ;;
    1[0-6]) reencrypt "$zone" ;;
    *) make_file "$zone" ;;
    esac
}

# Starts the program, goes on until it is killed behind its last event, and waits for its end.
go_on_and_kill() {
    local turns
    (cd "$folder/run" && exec "$program" replay <"$folder/events" >"$folder/answers") &
    pid=$!
    exec 3<>"$folder/events" 4<"$folder/answers"
    number=0 answered=0 asks=0 replies=0 batches=0 served=() effect=()
    if [ "$last" -eq 0 ]; then
        for ((turns = RANDOM % 4 * RANDOM / 16; turns > 0; turns--)); do :; done
        kill -KILL "$pid"
    else
        while go_on; do :; done
    fi
    exec 3>&- 4<&-
    wait "$pid"
} 2>/dev/null

# Opens each file that stands, also in snapshots: its key has to be the one that was told, or is told now.
open_files() {
    local question id edek told opened=()
    for question in "${asked[@]}"; do
        [[ ${rows[$question]-} == file* ]] || continue
        edek=${rows[$question]##* }
        opened+=("$question")
        echo "kms hdfs decrypt ${edek//:/ }"
    done >"$folder/decrypts"
    (cd "$folder/run" && "$program" replay <"$folder/decrypts" >"$folder/keys") || fail "it opens no files"
    exec 5<"$folder/keys"
    for question in "${opened[@]}"; do
        read -r _ told <&5
        read -r _ id _ <<<"${rows[$question]}"
        [[ $told == "key ${deks[$id]-${told#key }}" ]] || fail "$question: ${rows[$question]} opens to $told, and not to ${deks[$id]-}"
        deks[$id]=${told#key }
    done
    exec 5<&-
}

# Reads the logs without the program, and leaves what it prints in checked.
check_logs() {
    [ -n "$has_checker" ] || return 0
    checked=$(python3 tests/headline.py "$@") || fail "the logs: $checked"
}

# What it is to print of what stands: a line for each file.
wanted_lines() {
    local question id edek
    for question in "${!rows[@]}"; do
        [[ ${rows[$question]} == file* ]] || continue
        read -r _ id _ edek <<<"${rows[$question]}"
        echo "${question##* } $id ${edek%%:*} ${deks[$id]}"
    done
}

# Compares all data encryption keys that were told with what the logs say.
check_ledger() {
    local id count
    for id in "${!deks[@]}"; do echo "$id ${deks[$id]}"; done >"$folder/ledger"
    count=$(wanted_lines | cut -d ' ' -f 2 | sort -u | wc -l)
    check_logs "$folder/run" --ledger "$folder/ledger"
    [[ -z $has_checker || $checked == *$'\n'"opens $count files" ]] || fail "of $count files the logs say: $checked"
}

rm -rf "$folder/run"
mkdir "$folder/run" || exit 1
echo "$properties" >"$folder/run/kms-acls.properties"
for ((round = 1; round <= rounds && SECONDS < seconds; round++)); do
    # Some are killed while they open the logs.
    last=$((RANDOM % 8 ? 1 + RANDOM % 60 : 0))
    go_on_and_kill
    status=$?
    [ "$status" -eq 137 ] || fail "it ended by itself, with status $status"
    check_logs "$folder/run"
    left=$checked
    stand=$(found_rows) || fail "started again it ends with another status, and $stand"
    if [ "$stand" != "$(wanted_rows)" ] && [ "${#effect[@]}" -gt 0 ]; then
        "${effect[@]}"
    fi
    [ "$stand" = "$(wanted_rows)" ] || fail "$(printf 'found\n%s\nwanted\n%s' "$stand" "$(wanted_rows)")"
    open_files
    [ -z "$has_checker" ] || [ "$(sort <<<"$left")" = "$(wanted_lines | sort)" ] ||
        fail "$(printf 'tests/headline.py opens\n%s\nand the program\n%s' "$left" "$(wanted_lines)")"
    ((round % 4)) || check_ledger
done
check_ledger
