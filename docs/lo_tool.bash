# Completion of lo_tool's words for bash 4 or later: `source docs/lo_tool.bash`.

_lo_tool() {
    local word=${COMP_WORDS[COMP_CWORD]}
    COMPREPLY=()
    if ((COMP_CWORD == 1)); then
        mapfile -t COMPREPLY < <(compgen -W 'init script threads vacuumlo list unlink' -- "$word")
        return
    fi
    case ${COMP_WORDS[1]}:$COMP_CWORD:$word in
        # the empty database that is not saved
        script:2:-) COMPREPLY=(-) ;;
        vacuumlo:*:-*)
            mapfile -t COMPREPLY < <(compgen -W '-n -v -l --dry-run --verbose --limit=' -- "$word")
            ;;
        # no file name begins so
        *:*:-*) ;;
        init:2:* | script:[23]:* | list:2:* | unlink:2:*) compopt -o default 2>/dev/null ;;
        # the image, and up to sixteen programs
        threads:*) ((COMP_CWORD > 18)) || compopt -o default 2>/dev/null ;;
        vacuumlo:*) [[ ${COMP_WORDS[COMP_CWORD - 1]} == -l ]] || compopt -o default 2>/dev/null ;;
        # a number, or no word at all
        *) ;;
    esac
}

complete -F _lo_tool lo_tool
