#!/usr/bin/env bash
# The script `hkms` and what builds the program for it, in a small repository with a command `rt` that proves nothing: when it
# builds, over which crates, what it says meanwhile, and how it ends if the program can't be built.
set -u
. "$(dirname "${BASH_SOURCE[0]}")/room.bash"
command -v python3 >/dev/null || { echo "tests/launcher.sh: skipped, the command python3 is not here"; exit 0; }

# A crate that the program uses, one that it doesn't, and the program.
top=$folder/top
mkdir -p "$top/crates/low/must-fail" "$folder/bin" "$folder/rooms" "$folder/here"
cp "$hkms" "$top/"
cp -r tools "$top/"
cp HANDLES "$top/"
printf '# NAME: the crates that it uses\nlow: itoa\nbeside: low\nhkms_tool: low\n' >"$top/crates.txt"
for crate in low beside hkms_tool; do
    mkdir -p "$top/crates/$crate/src" "$top/crates/$crate/out"
    echo '// nothing' >"$top/crates/$crate/src/lib.rt"
done
echo 'file: src/lib.rt' >"$top/crates/low/must-fail/nothing.edit"
echo word >"$top/crates/hkms_tool/args"
touch -d '1 hour ago' "$top/crates.txt" "$top"/crates/*/src/lib.rt

# This `rt` writes what the real one does, and a program that answers with its arguments, its input and its folder.
cat >"$folder/bin/rt" <<'END'
#!/usr/bin/env bash
[ "$*" = ci ] && [ -d .git ] || exit 2
pwd >>"$ROOMS"
find crates crates.txt HANDLES -type f | sort >"$SEEN"
printf '== low\nfn low: proved\nrt: low %s\n' "$LOW"
if [ "$LOW" != proved ]; then
    echo '0 passed, 2 failed'
    exit 1
fi
printf 'rt: hkms_tool is kept: an earlier run on this machine proved the same\n2 passed, 0 failed\n'
mkdir -p crates/hkms_tool/out
printf '#!/bin/sh\necho "%s $*"; cat; pwd; exit 7\n' "$ANSWER" >crates/hkms_tool/out/hkms_tool
chmod +x crates/hkms_tool/out/hkms_tool
END
chmod +x "$folder/bin/rt"
export ROOMS=$folder/ran SEEN=$folder/seen LOW=proved ANSWER=first TMPDIR=$folder/rooms
: >"$ROOMS"

# Runs the script in another folder. How often `rt` has run so far is $runs.
launch() {
    output=$(cd "$folder/here" && echo input | PATH=$folder/bin:$PATH "$top/hkms" "$@" 2>"$folder/said")
    status=$?
    runs=$(wc -l <"$ROOMS")
}

launch replay 'two words'
expect 'the first run' 7 "first replay two words
input
$folder/here"
same 'the first run: builds' 1 "$runs"
same 'what is proved' 'HANDLES
crates.txt
crates/hkms_tool/args
crates/hkms_tool/src/lib.rt
crates/low/src/lib.rt' "$(cat "$SEEN")"
same 'what it says of a build' 'hkms: 1 of 2 crates are proved: 0 min so far, about 1 min left' "$(grep ' of ' "$folder/said")"
same 'what is left of a build' '' "$(ls "$folder/rooms")"

launch again
expect 'a run with nothing changed' 7 "first again
input
$folder/here"
same 'a run with nothing changed: builds' 1 "$runs"
same 'a run with nothing changed: says' '' "$(cat "$folder/said")"

touch "$top/crates/low/src/lib.rt"
ANSWER=second launch again
expect 'a run after a change' 7 "second again
input
$folder/here"
same 'a run after a change: builds' 2 "$runs"

touch -d '1 minute' "$top/crates/low/src/lib.rt"
LOW='NOT PROVED' launch again
expect 'a program that cannot be built' 70 ''
same 'what rt said of it' '== low
fn low: proved
rt: low NOT PROVED
0 passed, 2 failed
hkms: the program could not be proved and built; what rt printed is above' "$(tail -n 5 "$folder/said")"
same 'what is left of a build that failed' '' "$(ls "$folder/rooms")"

# A path with what the script takes of the system, and no `rt`.
mkdir "$folder/bare"
for tool in bash dirname find env; do
    ln -s "$(command -v "$tool")" "$folder/bare/"
done
output=$(PATH=$folder/bare "$top/hkms" again 2>"$folder/said")
status=$?
expect 'without rt' 70 ''
same 'what it says without rt' 'hkms: the command rt of the Rattle kit is not on the PATH' "$(cat "$folder/said")"

[ "$failures" -eq 0 ] || { echo "tests/launcher.sh: $failures failed"; exit 1; }
