#!/usr/bin/env bash
# Decryption under keys of each length against openssl: a thousand random vectors and sealed keys under ten keys of
# each length, and vectors at which the counter carries and wraps. openssl encrypts all counters of a key at once.
set -u
cd "$(dirname "${BASH_SOURCE[0]}")/.." || exit 1
command -v openssl >/dev/null || { echo 'tests/cipher.sh: skipped, there is no openssl'; exit 0; }
hkms=$PWD/hkms
folder=$(mktemp -d) || exit 1
trap 'rm -rf "$folder"' EXIT

# The cases of one key, one a line: the vector, its first counter and the next one, and the sealed key. The first counter
# is the vector with all bits flipped. Random bytes come in on standard input, as hexadecimal digits.
cases() {
    awk -v bytes="$1" '
        function flipped(x,   i, y) {
            y = ""
            for (i = 1; i <= length(x); i++) y = y substr("fedcba9876543210", index("0123456789abcdef", substr(x, i, 1)), 1)
            return y
        }
        # plus 1, modulo 2^128
        function next_one(x,   i, zeros) {
            zeros = ""
            for (i = length(x); i > 0 && substr(x, i, 1) == "f"; i--) zeros = zeros "0"
            if (i == 0) return zeros
            return substr(x, 1, i - 1) substr("123456789abcdef", index("0123456789abcde", substr(x, i, 1)), 1) zeros
        }
        NR == 1 {
            for (n = 0; n < 100; n++) {
                iv = substr($0, 96 * n + 1, 32)
                # Counters that wrap, that carry through eight bytes and that carry through four.
                if (n == 0) iv = "00000000000000000000000000000000"
                if (n == 1) iv = substr(iv, 1, 16) "0000000000000000"
                if (n == 2) iv = substr(iv, 1, 24) "00000000"
                print iv, flipped(iv), next_one(flipped(iv)), substr($0, 96 * n + 33, 2 * bytes)
            }
        }'
}

# The first column xored with the second, as hexadecimal digits.
xored() {
    awk '
        BEGIN { for (i = 0; i < 16; i++) value[substr("0123456789abcdef", i + 1, 1)] = i }
        {
            line = ""
            for (i = 1; i <= length($1); i++) {
                a = value[substr($1, i, 1)]; b = value[substr($2, i, 1)]; sum = 0
                for (bit = 1; bit < 16; bit *= 2) sum += ((int(a / bit) + int(b / bit)) % 2) * bit
                line = line substr("0123456789abcdef", sum + 1, 1)
            }
            print line
        }'
}

# The bytes of hexadecimal digits.
bytes_of() {
    # shellcheck disable=SC2059
    printf "$(tr -d ' \n' | sed 's/../\\x&/g')"
}

for bits in 128 192 256; do
    bytes=$((bits / 8))
    for key in 0 1 2 3 4 5 6 7 8 9; do
        material=$(openssl rand -hex "$bytes") || exit 1
        openssl rand -hex 4800 | tr -d '\n' | cases "$bytes" >"$folder/cases"
        echo "kms a create k$bits.$key $bits $material" >>"$folder/events"
        awk -v version="k$bits.$key@0" '{ print "kms a decrypt", version, $1, $4 }' "$folder/cases" >>"$folder/events"
        cut -d ' ' -f 2,3 "$folder/cases" | bytes_of |
            openssl enc "-aes-$bits-ecb" -nopad -nosalt -K "$material" | od -An -v -tx1 -w32 | tr -d ' ' >"$folder/streams"
        cut -d ' ' -f 4 "$folder/cases" | paste -d ' ' - "$folder/streams" | xored >>"$folder/wanted"
    done
done
mkdir "$folder/run" || exit 1
(cd "$folder/run" && "$hkms" replay) <"$folder/events" >"$folder/answers" || exit 1
grep -o 'key [0-9a-f]*$' "$folder/answers" | cut -d ' ' -f 2 >"$folder/opened"
[ "$(wc -l <"$folder/wanted")" -eq 3000 ] || { echo 'tests/cipher.sh: openssl opened too few'; exit 1; }
if ! cmp -s "$folder/wanted" "$folder/opened"; then
    echo 'tests/cipher.sh: openssl (first) and hkms (second) open otherwise:'
    diff "$folder/wanted" "$folder/opened" | head -n 4
    exit 1
fi
