# What the checks that run the program in folders of their own share: they read this file first.
cd "$(dirname "${BASH_SOURCE[0]}")/.." || exit 1
hkms=$PWD/hkms
folder=$(mktemp -d) || exit 1
# Where the program is run very often its logs lie in memory, where that can be: there a sync costs nothing.
quick=$(mktemp -d -p /dev/shm 2>/dev/null) || quick=$(mktemp -d -p "$folder") || exit 1
trap 'rm -rf "$folder" "$quick"' EXIT
failures=0

# expect NAME STATUS OUTPUT: compares what the last run came to.
expect() {
    # shellcheck disable=SC2154
    if [ "$status" != "$2" ] || [ "$output" != "$3" ]; then
        printf '%s: %s: status %s (wanted %s), output:\n%s\nwanted:\n%s\n' "$0" "$1" "$status" "$2" "$output" "$3"
        failures=$((failures + 1))
    fi
}

# same NAME WANTED GOT: compares two texts.
same() {
    if [ "$2" != "$3" ]; then
        printf '%s: %s: got\n%s\nwanted:\n%s\n' "$0" "$1" "$3" "$2"
        failures=$((failures + 1))
    fi
}

# Makes an empty folder.
fresh() {
    room=$(mktemp -d -p "$folder") || exit 1
}
