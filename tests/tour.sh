#!/usr/bin/env bash
# What README.md shows: the lines of its tour, pasted, give the answers that it has, and examples/serve.sh prints the lines that it has of
# a server. Drawn bytes differ.
set -u
. "$(dirname "${BASH_SOURCE[0]}")/room.bash"

# block PART NUMBER: an indented block of a part of README.md.
block() {
    awk -v part="## $1" -v wanted="$2" '
        /^## / { here = $0 == part; number = 0; next }
        !here || !/^    / { inside = 0; next }
        !inside { number++; inside = 1 }
        number == wanted { print substr($0, 5) }' README.md
}

# Bytes in hexadecimal or in base64, and the words that README.md has for drawn ones, all as H.
masked() {
    sed -E 's/\b([0-9a-f]{32}|IV|SEALED|MATERIAL|DEK)\b/H/g; s/"[A-Za-z0-9_-]{22}(==)?"/"H"/g; s/ +$//'
}

# missing WANTED GOT: prints the lines of the first file, from the first one that does not come in the second file after those before it.
missing() {
    awk 'NR == FNR { wanted[++count] = $0; next }
        seen < count && $0 == wanted[seen + 1] { seen++ }
        END { while (seen < count) print wanted[++seen] }' "$1" "$2"
}

"$hkms" --help >/dev/null || exit 1
[ "$(block 'A tour' 1 | wc -l)" -gt 0 ] || { echo 'tests/tour.sh: README.md has no tour'; exit 1; }
output=$(TMPDIR=$folder bash -c "$(block 'A tour' 1)" 2>&1)
status=$?
output=$(masked <<<"$output")
expect 'the tour' 0 "$(block 'A tour' 2 | masked)"

for tool in curl python3; do
    command -v "$tool" >/dev/null || { echo "tests/tour.sh: left out, since the command $tool is not here: the server"; exit $((failures > 0)); }
done
port=$(python3 -c 'import socket; s = socket.socket(); s.bind(("127.0.0.1", 0)); print(s.getsockname()[1])')
TMPDIR=$folder bash examples/serve.sh "$port" >"$folder/session" 2>&1
same 'the status of the session' 0 $?
block 'A server' 1 | masked >"$folder/shown"
same 'lines of the session in README.md' 1 "$(grep -c Completed "$folder/shown")"
same 'lines of the session' '' "$(missing "$folder/shown" <(masked <"$folder/session"))"
same 'data encryption keys of the file' 1 "$(grep '"name":"EK"' "$folder/session" | sort -u | wc -l)"

exit $((failures > 0))
