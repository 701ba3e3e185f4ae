# Completion of hkms for bash. Source this file, or install it as /usr/share/bash-completion/completions/hkms.
_hkms() {
    local at=1 words='--dir --help --version -h -V replay pipe serve load check'
    # The command stands after `--dir FOLDER`. In `--dir=FOLDER` bash takes `=` for a word of its own.
    if [ "${COMP_WORDS[1]}" = --dir ]; then
        at=3 words=${words#--dir }
        [ "${COMP_WORDS[2]}" = = ] && at=4
    fi
    [ "$COMP_CWORD" -gt "$at" ] && words='--help -h'
    [ "$COMP_CWORD" -gt "$at" ] && [ "${COMP_WORDS[at]}" = serve ] && words='--port --conns --connections --help -h'
    case ${COMP_WORDS[COMP_CWORD - 1]} in --port | --conns | --connections) words= ;; esac
    mapfile -t COMPREPLY < <(compgen -W "$words" -- "${COMP_WORDS[COMP_CWORD]}")
    if [ "$COMP_CWORD" -gt 1 ] && [ "$COMP_CWORD" -lt "$at" ]; then
        mapfile -t COMPREPLY < <(compgen -d -- "${COMP_WORDS[COMP_CWORD]#=}")
    fi
}
complete -F _hkms hkms
