#!/usr/bin/env bash
# The words of the command line: what they show, and what is refused.
set -u
. "$(dirname "${BASH_SOURCE[0]}")/room.bash"
fresh

# run WORD..: runs the program with these words and without input.
run() {
    output=$(cd "$room" && "$hkms" "$@" </dev/null 2>/dev/null; printf 'status %s' "$?")
    status=${output##*status }
    output=${output%status *}
}

# refuses WORD..
refuses() {
    run "$@"
    expect "the words $*" 2 $'usage refused\n'
}

# shows LINE: the last output has this line.
shows() {
    grep -qxF -- "$1" <<<"$output" || {
        printf '%s: no line %s in:\n%s\n' "$0" "$1" "$output"
        failures=$((failures + 1))
    }
}

# helps WORD..: the words show a help text, which ends with a full stop and a line feed.
helps() {
    run "$@"
    if [ "$status" != 0 ] || [ "${output: -2}" != $'.\n' ]; then
        printf '%s: the words %s show no help, status %s:\n%s\n' "$0" "$*" "$status" "$output"
        failures=$((failures + 1))
    fi
}

for word in --help -h; do
    helps "$word"
    shows 'Usage: hkms [OPTIONS] <COMMAND>'
    shows '  replay  Runs the calls of an event text and writes their answers'
    shows '  pipe    Answers the HTTP requests of one connection'
    shows '  serve   Answers the HTTP requests of connections to a port'
    shows '  load    Runs a load in memory and writes one line that sums it up'
    shows '      --dir <FOLDER>  Use the files of FOLDER, not those of the current folder'
    shows '  -h, --help          Print help'
    shows '  -V, --version       Print version'
    shows '  keys.log             the keys; a change is written here before it is answered'
    shows '  names.log            directories, files and zones, written in the same way'
    shows '  kms-acls.properties  access control lists: who may do what with which key'
    shows '   2  the command line has a mistake; nothing was read, and no log was made'
    shows "   9  the port of 'serve' cannot be opened, or accepting a connection failed"

    helps replay "$word"
    shows 'Runs the calls of an event text and writes their answers'
    shows 'Usage: hkms replay'
    shows '    kms alice metadata j'
    shows '    2 refused K4 NoSuchKey'
    shows '     4    damaged keys AT      keys.log is damaged at byte AT'

    helps pipe "$word"
    shows 'Answers the HTTP requests of one connection'
    shows 'Usage: hkms pipe'
    shows '    GET /kms/v1/keys/names?user.name=alice HTTP/1.1'
    shows '    GET /nn/v1/list?path=/&user.name=alice HTTP/1.1'
    shows '   4  keys.log or names.log is damaged'

    helps serve "$word"
    shows 'Answers the HTTP requests of connections to a port'
    shows 'Usage: hkms serve [OPTIONS]'
    shows '      --port <N>         Port of 127.0.0.1, from 1 to 65535 [default: 9600]'
    shows '      --conns <N>        Connections to serve, from 1 to 4294967295 [default: 4294967295]'
    shows '      --connections <N>  Connections to serve at a time, from 1 to 1024 [default: 16]'
    shows '     9    door fault           the port cannot be opened, or accepting failed'

    helps load "$word"
    shows 'Runs a load in memory and writes one line that sums it up'
    shows 'Usage: hkms load <N>'
    shows '  <N>  Steps, from 1 to 20000'
    shows '     8    none                 the output cannot be written'

    helps check "$word"
    shows 'Says what keys.log and names.log make, and which files are lost'
    shows 'Usage: hkms check'
    shows '          damaged names AT     names.log is damaged at byte AT'
done

for word in --version -V; do
    run "$word"
    expect "the word $word" 0 $'hkms 0.1.0\n'
done

# The first text that is asked for is shown.
helps --help --version
shows 'Usage: hkms [OPTIONS] <COMMAND>'
helps --help load
shows 'Usage: hkms [OPTIONS] <COMMAND>'
run -V -h
expect 'the words -V -h' 0 $'hkms 0.1.0\n'

# Other words.
refuses
for word in loads hkms '' REPLAY repla 'replay ' -replay --replay -- - --help=replay; do
    refuses "$word"
done

# A word after a command.
refuses replay pipe
refuses replay replay
refuses pipe 9600
refuses pipe ''
refuses pipe --port 9600
refuses replay load
refuses replay load --help
refuses load
refuses load 1 2
refuses check 1
refuses check check
refuses checks
refuses serve 9600
refuses serve replay
refuses serve -p 9600
refuses serve --ports 9600
refuses serve --port
refuses serve --port --conns 2
refuses serve --port 1 --port 2
refuses serve --conns=1 --conns=1
refuses serve --connections 2 --connections 2
refuses serve --connection 2
refuses serve --conns --connections 2
refuses --port 9600 serve

# What is no number of `load` is in tests/load.sh. What is no number of an option: the port is at most 65535, the connections are at most 4294967295, and at a time at most 1024.
for number in 0 -1 +1 01 1.0 1e1 0x1 65536 4294967296 18446744073709551617 9600x ' 1' '1 ' '' one; do
    refuses serve "--port=$number"
    refuses serve --port "$number"
done
for number in 0 -1 +1 01 4294967296 18446744073709551617 '' many; do
    refuses serve "--conns=$number"
    refuses serve --port 1 --conns "$number"
done

for number in 0 -1 +1 01 1025 65536 4294967296 '' many; do
    refuses serve "--connections=$number"
    refuses serve --port 1 --connections "$number"
done

# Help comes before a number that is refused only for how it is written, and after one that is none.
helps serve --port +1 --help
shows 'Usage: hkms serve [OPTIONS]'
refuses serve --port x --help
helps load +1 --help
shows 'Usage: hkms load <N>'
helps load 1 --help
refuses load x --help

# Help is not a command, and a command has no version.
refuses help
refuses help replay
refuses replay help
refuses replay --version
refuses pipe -V
refuses serve --version
refuses load --version
refuses check --version

# Words that are not ASCII.
refuses $'r\xc3\xa9play'
refuses $'-\xc3\xa9'
refuses $'--h\xc3\xa9lp'

# An output that takes nothing is status 8.
for words in --help --version pipes; do
    (cd "$room" && "$hkms" "$words" >/dev/full 2>/dev/null </dev/null)
    status=$?
    [ "$status" -eq 8 ] || {
        printf '%s: the word %s with an output that takes nothing: status %s\n' "$0" "$words" "$status"
        failures=$((failures + 1))
    }
done

# Words that are refused read nothing of the input.
left=$(cd "$room" && { "$hkms" pipes >/dev/null 2>&1; cat; } <<<'kms alice names')
[ "$left" = 'kms alice names' ] || {
    printf '%s: words that are refused left of the input: %s\n' "$0" "$left"
    failures=$((failures + 1))
}

# No word but a command makes a log, and `load` and `check` make none.
if [ -n "$(ls -A "$room")" ]; then
    printf '%s: the folder has %s\n' "$0" "$(ls -A "$room")"
    failures=$((failures + 1))
fi

[ "$failures" -eq 0 ]
