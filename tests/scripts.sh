#!/usr/bin/env bash
# The scripts under tests/scripts. NAME.events is the input of `hkms replay`, and NAME.http that of `hkms pipe`; each runs in
# an empty folder, with NAME.properties as kms-acls.properties if there is that file. NAME.answers (of events) or
# NAME.responses (of HTTP) is the output, and then a line with the status. In NAME.masked, in place of NAME.answers, each
# 32 hex digits are an H, and so are those of the output.
set -u
. "$(dirname "${BASH_SOURCE[0]}")/room.bash"

# The program is run very often, so it is built once and then run without the script that builds it.
[ "$("$hkms" build </dev/null)" = 'usage refused' ] || exit 1
program=$PWD/crates/hkms_tool/out/hkms_tool
results=$folder/results
mkdir "$results" || exit 1

# complain TEXT
complain() {
    echo "tests/scripts.sh: $1"
    failures=$((failures + 1))
}

# Adds a line feed to a file whose last line has none.
end_line() {
    [ -z "$(tail -c 1 "$1" | tr -d '\n\0')" ] || echo >>"$1"
}

mask() {
    sed -E 's/[0-9a-f]{32}/H/g' "$1"
}

# Runs the script whose expected output is $1, and leaves a file about it in $results if it fails.
run_script() {
    local wanted=$1 base=${1%.*} name room status
    local input=$base.events order=replay
    [ "$wanted" != "$base.responses" ] || { input=$base.http order=pipe; }
    name=$(basename "$base")
    room=$(mktemp -d -p "$quick") || return
    [ ! -e "$base.properties" ] || cp "$base.properties" "$room/kms-acls.properties"
    (cd "$room" && exec "$program" "$order") <"$input" >"$room.got"
    status=$?
    end_line "$room.got"
    echo "status $status" >>"$room.got"
    if [ "$wanted" = "$base.masked" ]; then
        diff -a <(mask "$wanted") <(mask "$room.got") >"$room.diff"
    else
        diff -a "$wanted" "$room.got" >"$room.diff"
    fi || { echo "tests/scripts.sh: $name: < is expected, > is what the program wrote"; cat "$room.diff"; } >"$results/$name"
    rm -rf "$room" "$room.got" "$room.diff"
}
export -f run_script end_line mask
export program quick results

scripts=0
for file in tests/scripts/*; do
    base=${file%.*}
    case $file in
    *.events)
        scripts=$((scripts + 1))
        [ -e "$base.answers" ] || [ -e "$base.masked" ] || complain "$file has no answers"
        ;;
    *.http)
        scripts=$((scripts + 1))
        [ -e "$base.responses" ] || complain "$file has no responses"
        ;;
    *.answers | *.masked) [ -e "$base.events" ] || complain "$file has no events" ;;
    *.responses) [ -e "$base.http" ] || complain "$file has no requests" ;;
    *.properties) [ -e "$base.events" ] || [ -e "$base.http" ] || complain "$file has no script" ;;
    *) complain "$file is no part of a script" ;;
    esac
done
[ "$scripts" -gt 0 ] || complain 'there is no script'

find tests/scripts -name '*.answers' -o -name '*.masked' -o -name '*.responses' |
    xargs -P "$(nproc)" -I '{}' bash -c 'run_script "$1"' - '{}' || complain 'not every script was run'
for result in "$results"/*; do
    [ -e "$result" ] || break
    cat "$result"
    failures=$((failures + 1))
done

[ "$failures" -eq 0 ] || { echo "tests/scripts.sh: $failures failed"; exit 1; }
