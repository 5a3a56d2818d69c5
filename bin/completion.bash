# shellcheck shell=bash
# Completion of words, options and files in bash:  . bin/completion.bash

_register_checker() {
    local typed=${COMP_WORDS[COMP_CWORD]} words=''
    case ${COMP_WORDS[0]##*/}:$COMP_CWORD in
        park:1) words='check full events after --help --version' ;;
        *) case $typed in -*) words='--quiet --help --version' ;; esac ;;
    esac
    mapfile -t COMPREPLY < <(compgen -W "$words" -- "$typed")
    [ "${#COMPREPLY[@]}" -gt 0 ] || mapfile -t COMPREPLY < <(compgen -f -- "$typed")
}
complete -o filenames -F _register_checker check park
