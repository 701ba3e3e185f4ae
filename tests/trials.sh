#!/usr/bin/env bash
# The trials under tests/trials, which hkms_trial runs in memory: faults and crashes, given random words, damaged logs.
# `hkms_trial --help` lists what NAME.trial may hold. NAME.answers is what it prints; or NAME.check is a Python script that
# reads what it prints on standard input, and prints what is wrong with it and exits with 1. NAME.pairs is a trial with the
# line `each fail disk` that is run for each pair of calls of the disk: both fail, and its check reads all the reports.
set -u
. "$(dirname "${BASH_SOURCE[0]}")/room.bash"
. tests/trial_program.bash

results=$folder/results
mkdir "$results" || exit 1

# complain TEXT
complain() {
    echo "tests/trials.sh: $1"
    failures=$((failures + 1))
}

# Runs the trial $1 once for each call of the disk that it makes: that call fails, and another one, each in turn. $2 is the
# path of a file for this. Each `call M` of the reports is followed by the other call.
run_pairs() {
    local calls call
    calls=$("$trial" "$1" | grep -c '^call ')
    for ((call = 1; call <= calls; call++)); do
        { echo "fail disk $call"; cat "$1"; } >"$2"
        "$trial" "$2" | sed "s/^call .*/& with $call/"
        [ "${PIPESTATUS[0]}" -eq 0 ] || return 1
    done
}

# Runs the trial whose name is $1, with or without pairs.
run_any() {
    if [ -e "$1.pairs" ]; then
        run_pairs "$1.pairs" "$2"
    else
        "$trial" "$1.trial"
    fi
}

# Runs the trial whose expected output or check is $1, and leaves a file about it in $results if it fails.
run_trial() {
    local wanted=$1 base=${1%.*} name report status=0
    name=$(basename "$wanted")
    report=$folder/$name
    run_any "$base" "$report.trial" >"$report.report" 2>"$report.errors" || { status=$?; echo "tests/trials.sh: $base: status $status"; }
    if [ "$wanted" = "$base.check" ]; then
        python3 "$wanted" <"$report.report" || { status=$?; echo "tests/trials.sh: $name: status $status"; }
    else
        diff -a "$wanted" "$report.report" || { status=$?; echo "tests/trials.sh: $name: < is expected, > is what the trial printed"; }
    fi
    cat "$report.errors"
    rm -f "$report.trial" "$report.report" "$report.errors"
    [ "$status" -eq 0 ]
}

# Keeps what a trial that fails prints.
keep_failure() {
    local result=$results/${1##*/}
    run_trial "$1" >"$result" 2>&1 && rm -f "$result"
    return 0
}
export -f run_pairs run_any run_trial keep_failure
export trial folder results

trials=0
for file in tests/trials/*; do
    base=${file%.*}
    case $file in
    *.trial | *.pairs)
        trials=$((trials + 1))
        [ -e "$base.answers" ] || [ -e "$base.check" ] || complain "$file has neither answers nor a check"
        ;;
    *.answers | *.check) [ -e "$base.trial" ] || [ -e "$base.pairs" ] || complain "$file has no trial" ;;
    *) complain "$file is no part of a trial" ;;
    esac
done
[ "$trials" -gt 0 ] || complain 'there is no trial'

find tests/trials -name '*.answers' -o -name '*.check' |
    xargs -P "$(nproc)" -I '{}' bash -c 'keep_failure "$1"' - '{}' || complain 'not every trial was run'
for result in "$results"/*; do
    [ -e "$result" ] || break
    cat "$result"
    failures=$((failures + 1))
done

[ "$failures" -eq 0 ] || { echo "tests/trials.sh: $failures failed"; exit 1; }
