#!/usr/bin/env bash
# Generated and decrypted keys against openssl: a generated key is sealed in counter mode under the
# version's material, the first counter being the initialization vector with all bits flipped.
set -u
cd "$(dirname "${BASH_SOURCE[0]}")/.." || exit 1
command -v openssl >/dev/null || { echo 'tests/openssl.sh: openssl is wanted'; exit 1; }
hkms=$PWD/hkms
material=2b7e151628aed2a6abf7158809cf4f3c
folder=$(mktemp -d) || exit 1
trap 'rm -rf "$folder"' EXIT

flipped() {
    tr '0123456789abcdef' 'fedcba9876543210' <<<"$1"
}

# Runs the program in an empty folder.
replayed() {
    local room
    room=$(mktemp -d -p "$folder") || return
    (cd "$room" && "$hkms" replay)
}

opened_by_openssl() {
    local bytes
    # shellcheck disable=SC2001
    bytes=$(sed 's/../\\x&/g' <<<"$3")
    # shellcheck disable=SC2059
    printf "$bytes" | openssl enc -aes-128-ctr -nosalt -K "$1" -iv "$(flipped "$2")" | od -An -v -tx1 | tr -d ' \n'
}

# A thousand generated keys, and their decryption by the same material in a run that knows nothing of the first.
printf 'kms a create k 128 %s\nkms a generate k 1000\n' "$material" | replayed >"$folder/generated" || exit 1
tail -n 1 "$folder/generated" | tr ' ' '\n' | grep '^k@0:' | tr ':' ' ' >"$folder/keys"
[ "$(wc -l <"$folder/keys")" -eq 1000 ] || { echo 'tests/openssl.sh: a thousand keys are wanted'; exit 1; }
[ "$(cut -d ' ' -f 2 "$folder/keys" | sort -u | wc -l)" -eq 1000 ] || { echo 'tests/openssl.sh: an initialization vector came twice'; exit 1; }

{ printf 'kms a create k 128 %s\n' "$material"; sed 's/^/kms a decrypt /' "$folder/keys"; } | replayed >"$folder/decrypted" || exit 1
grep -o 'key [0-9a-f]*$' "$folder/decrypted" | cut -d ' ' -f 2 >"$folder/opened"
[ "$(sort -u "$folder/opened" | wc -l)" -eq 1000 ] || { echo 'tests/openssl.sh: a data encryption key came twice'; exit 1; }

# Every twentieth is opened by openssl too.
paste -d ' ' "$folder/keys" "$folder/opened" | awk 'NR % 20 == 1' >"$folder/some"
while read -r _ iv sealed opened; do
    wanted=$(opened_by_openssl "$material" "$iv" "$sealed")
    if [ "$wanted" != "$opened" ]; then
        echo "tests/openssl.sh: iv $iv: sealed $sealed opened to $opened, and by openssl to $wanted"
        exit 1
    fi
done <"$folder/some"
