# The program that runs trials, for the checks that need it: they read this file after room.bash.
trial=$PWD/crates/hkms_trial/out/hkms_trial
stamp=$trial.built

# Whether the program is missing, or older than its sources.
is_old() {
    [ ! -x "$trial" ] || [ ! -e "$stamp" ] ||
        [ -n "$(find crates.txt crates/*/src crates/*/specs crates/*/proofs -newer "$stamp" -type f -print -quit 2>/dev/null)" ]
}

# Proves and builds the program. A second check that comes here meanwhile waits.
build() {
    : >"$folder/started"
    tools/build_program hkms_trial </dev/null >"$folder/log" 2>&1 || { cat "$folder/log"; return 1; }
    mv "$folder/started" "$stamp"
}

mkdir -p "${trial%/*}" || exit 1
exec 8>>"$trial.lock" || exit 1
flock 8
! is_old || build || exit 1
exec 8>&-
