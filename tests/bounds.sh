#!/usr/bin/env bash
# Inputs at their bounds that are too large for a script: the longest last line, and the longest properties.
set -u
. "$(dirname "${BASH_SOURCE[0]}")/room.bash"

# Runs the program in this folder.
run_here() {
    output=$(cd "$room" && "$hkms" replay 2>"$folder/errors")
    status=$?
}

# repeat CHARACTER COUNT
repeat() {
    head -c "$2" /dev/zero | tr '\0' "$1"
}

# The last line needs no LF, and has as many bytes as another one.
fresh
run_here < <(printf '#'; repeat x 1048575)
expect 'the longest line, without LF' 0 ''
fresh
run_here < <(printf '#'; repeat x 1048576)
expect 'a line too long, without LF' 3 'line 1 refused'

# The rule after a long comment counts if the properties have 1,048,576 bytes, and with one more they are refused.
properties() {
    fresh
    { printf '#'; repeat x "$1"; printf '\ndefault.key.acl.MANAGEMENT=*\n'; } >"$room/kms-acls.properties"
    run_here <<<'kms alice create k 128 2b7e151628aed2a6abf7158809cf4f3c'
}
properties 1048545
expect 'the longest properties' 0 '1 version k@0 2b7e151628aed2a6abf7158809cf4f3c'
properties 1048546
expect 'properties too long' 3 'acl too long'
output=$(cd "$room" && stat -c '%n %s' keys.log names.log) status=0
expect 'what properties too long leave' 0 'keys.log 0
names.log 0'

[ "$failures" -eq 0 ]
