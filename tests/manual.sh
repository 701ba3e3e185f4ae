#!/usr/bin/env bash
# The manual pages and the completions say what `hkms --help`, `hkfs --help` and `hkcopy --help` say: docs/hkms.1 and the others are made
# of the texts of help, and the completions have the same commands and options. CHANGELOG.md has the version that the programs print.
#
#   tests/manual.sh                     compares
#   tests/manual.sh --write [PROGRAM]   makes the pages anew, or that of one program
set -u
. "$(dirname "${BASH_SOURCE[0]}")/room.bash"

# shellcheck disable=SC2034
hkfs=${HKFS:-$PWD/hkfs}
# shellcheck disable=SC2034
hkcopy=${HKCOPY:-$PWD/hkcopy}

# help PROGRAM [COMMAND]: the text of help of a program, or of a command of it.
help() {
    local program=${!1}
    shift
    "$program" "$@" --help
}

# The entries of a part of a text of help, such as `Commands:`.
entries() {
    awk -v part="$1" '$0 == part { inside = 1; next } /^$/ { inside = 0 } inside'
}

# The arguments and options of a command in its text of help, without help itself.
own_options() {
    awk '/^Arguments:$/ || /^Options:$/ { inside = 1; next } /^$/ { inside = 0 } inside' | grep -v -- --help | sed 's/^ */  /'
}

# The text after the options.
notes() {
    awk '/^Options:$/ { options = 1 } options && /^$/ && !after { after = 1; next } after'
}

# Text as a manual page has it: paragraphs are filled, and indented lines stay as they are.
page_text() {
    awk '
        { gsub(/\\/, "\\e"); gsub(/-/, "\\-"); sub(/^[.\x27]/, "\\\\\\&&") }
        /^$/ { gap = 1; next }
        /^ / && !kept { print ".PP"; print ".nf"; kept = 1; gap = 0 }
        /^ / { if (gap) print ""; gap = 0; print; next }
        kept { print ".fi"; kept = 0; gap = 1 }
        /^Exit status:$/ { print ".SS Exit status"; gap = 0; next }
        { if (gap) print ".PP"; gap = 0; print }
        END { if (kept) print ".fi" }'
}

# Entries as a list of a manual page.
page_list() {
    sed -E 's/-/\\-/g; s/^ +(([^ ]| [^ ])+)  +(.*)$/.TP\n\\fB\1\\fR\n\3/'
}

# The names of the commands of a program.
commands() {
    help "$1" | entries Commands: | awk '{ print $1 }'
}

# What a command takes and gives, for the synopsis.
words_of() {
    case $1 in
    'hkms replay') cat <<<'< \fIEVENTS\fR > \fIANSWERS\fR' ;;
    'hkms pipe') cat <<<'< \fIREQUESTS\fR > \fIRESPONSES\fR' ;;
    'hkms serve') cat <<<'[\-\-port \fIN\fR] [\-\-conns \fIN\fR] [\-\-connections \fIN\fR]' ;;
    'hkms load') cat <<<'\fIN\fR' ;;
    'hkms check') cat <<<'> \fILINES\fR' ;;
    'hkfs put') cat <<<'\fIUSER PATH\fR < \fIBODY\fR' ;;
    'hkfs read' | 'hkcopy read') cat <<<'\fIUSER PATH FROM COUNT\fR > \fIBYTES\fR' ;;
    'hkcopy copy') cat <<<'\fIFROM TO\fR' ;;
    esac
}

synopsis() {
    local command line_break=
    for command in $(commands "$1"); do
        printf '%s.B %s\n[\\-\\-dir \\fIFOLDER\\fR]\n.B %s\n%s\n' "$line_break" "$1" "$command" "$(words_of "$1 $command")"
        line_break=$'.br\n'
    done
}

# The manual page of a program, made of its texts of help.
page() {
    local command options
    cat <<END
.\" Made by tests/manual.sh --write from the texts of $1 --help.
.TH ${1^^} 1 "" "$("${!1}" --version)" "User Commands"
.SH NAME
$1 \\- $(help "$1" | head -n 1)
.SH SYNOPSIS
$(synopsis "$1")
.SH COMMANDS
$(help "$1" | entries Commands: | page_list)
.SH OPTIONS
$(help "$1" | entries Options: | page_list)
.SH FILES AND EXIT STATUS
$(help "$1" | notes | page_text)
END
    for command in $(commands "$1"); do
        printf '.SH %s %s\n' "${1^^}" "${command^^}"
        options=$(help "$1" "$command" | own_options | page_list)
        [ -z "$options" ] || printf '%s\n.PP\n' "$options"
        help "$1" "$command" | notes | page_text
    done
}

# The names of the commands and options in a text of help, one per line.
names() {
    { entries Commands:; } <<<"$1" | awk '{ print $1 }'
    { entries Options:; } <<<"$1" | grep -oE -- '(^|[ ,])--?[A-Za-z-]+' | tr -d ' ,'
}

# The completions after these words, one per line.
completions() (
    # shellcheck disable=SC1090
    . "completions/$1.bash"
    COMP_WORDS=("$@" '')
    COMP_CWORD=$#
    "_$1"
    printf '%s\n' "${COMPREPLY[@]}" | sort
)

# same NAME WANTED GOT
same() {
    if [ -z "$2" ] || [ "$2" != "$3" ]; then
        echo "tests/manual.sh: $1:"
        diff <(echo "$2") <(echo "$3")
        failures=$((failures + 1))
    fi
}

# Compares what is said of a program.
compare() {
    local command
    same "docs/$1.1 is not that of the texts of help" "$(page "$1")" "$(cat "docs/$1.1")"
    same "completions of $1" "$(names "$(help "$1")" | sort)" "$(completions "$1")"
    same 'the newest version of CHANGELOG.md' "$("${!1}" --version)" "$1 $(sed -n 's/^## \([0-9.]*\)$/\1/p' CHANGELOG.md | head -n 1)"
    for command in $(commands "$1"); do
        grep -qx "\\\\fB$command\\\\fR" "docs/$1.1" || { echo "tests/manual.sh: the page lacks $1 $command"; failures=$((failures + 1)); }
        same "completions of $1 $command" "$(names "$(help "$1" "$command")" | sort)" "$(completions "$1" "$command")"
        same "completions of $1 --dir F $command" "$(completions "$1" "$command")" "$(completions "$1" --dir F "$command")"
        same "completions of $1 --dir=F $command" "$(completions "$1" "$command")" "$(completions "$1" --dir = F "$command")"
    done
}

written=${2-}
for name in ${written:-hkms hkfs hkcopy}; do
    "${!name}" --help >/dev/null || exit 1
    if [ "${1-}" = --write ]; then page "$name" >"docs/$name.1"; else compare "$name"; fi
done

exit $((failures > 0))
