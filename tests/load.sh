#!/usr/bin/env bash
# `hkms load N`: its line is that of a model in Python, for many N and in each run, and so whatever the random words are. It writes
# nothing else, opens no file of its folder and reads no input. Other words after `load` are refused.
set -u
. "$(dirname "${BASH_SOURCE[0]}")/room.bash"

# The program is run very often, so it is built once and then run without the script that builds it.
[ "$("$hkms" build </dev/null)" = 'usage refused' ] || exit 1
program=$PWD/crates/hkms_tool/out/hkms_tool
model=$PWD/tests/load_model.py
command -v python3 >/dev/null || { echo 'tests/load.sh: skipped, since python3 is not here'; exit 0; }

# load WORD..: runs a load with these words. The output is all bytes of both outputs.
load() {
    output=$(cd "$room" && "$program" load "$@" <"$folder/input" 2>&1; printf 'status %s' "$?")
    status=${output##*status }
    output=${output%status *}
}

# model COUNT: the line of the model and a line feed.
model() {
    wanted=$(python3 "$model" "$1")$'\n' || exit 1
}

echo 'kms a create k 128 2b7e151628aed2a6abf7158809cf4f3c' >"$folder/input"
fresh

# ---- lines

load 1
expect 'a load of one step, whose file is not there' 0 $'load events=1 created=0 deleted=0 rolled=0 ready=0 snapshots=0 refused=1 reencrypted=0\n'
load 2000
expect 'a load of 2000 steps' 0 $'load events=2000 created=1513 deleted=18 rolled=108 ready=523 snapshots=120 refused=121 reencrypted=1455\n'

# The seed of the random words is another one in each run.
for count in 1 2000 20000; do
    model "$count"
    for run in first second; do
        load "$count"
        expect "the $run load of $count steps" 0 "$wanted"
    done
done

python3 "$model" $(seq 1 200) >"$folder/wanted" || exit 1
for count in $(seq 1 200); do
    load "$count"
    [ "$status" = 0 ] || output="status $status"$'\n'
    printf '%s' "$output"
done >"$folder/got"
diff "$folder/wanted" "$folder/got" || { echo 'tests/load.sh: < is the model, > is what the program wrote'; failures=$((failures + 1)); }

# ---- what is refused

refuses() {
    load "$@"
    expect "load $*" 2 $'usage refused\n'
}
refuses
for word in 0 20001 00 01 +1 -1 1.0 1e3 0x10 ' 1' '1 ' '' one 18446744073709551617 1,000; do
    refuses "$word"
done
refuses 1 2
refuses 1 ''
refuses 1 replay
refuses --count 1
refuses --count=1
refuses -n 1
refuses 1 --port 9600
refuses 1 --version
refuses replay

# ---- files, properties and the input

same 'the folder after loads' '' "$(ls -A "$room")"

# The properties and both logs would be refused, and stay as they are.
for file in kms-acls.properties keys.log names.log; do
    printf '\377 damaged' >"$room/$file"
done
before=$(cd "$room" && stat -c '%n %Y %Z' ./* && cat ./*)
model 40
load 40
expect 'a load beside damaged files' 0 "$wanted"
same 'the damaged files' "$before" "$(cd "$room" && stat -c '%n %Y %Z' ./* && cat ./*)"

# A pipe in place of the properties would be waited for.
fresh
mkfifo "$room/kms-acls.properties"
load 40
expect 'a load beside a pipe' 0 "$wanted"

same 'the input after a load' "$(cat "$folder/input")" "$({ (cd "$room" && "$program" load 40 >/dev/null); cat; } <"$folder/input")"

# ---- an output that cannot be written

for count in 1 40; do
    (cd "$room" && "$program" load "$count" >/dev/full 2>"$folder/errors")
    same "a load of $count steps with a full output: the status" 8 "$?"
    (cd "$room" && "$program" load "$count" >&- 2>"$folder/errors")
    same "a load of $count steps with a closed output: the status" 8 "$?"
    same "a load of $count steps with a closed output: standard error" '' "$(cat "$folder/errors")"
done
(cd "$room" && "$program" load 20001 >/dev/full)
same 'a refused load with a full output: the status' 8 "$?"

exit $((failures > 0))
