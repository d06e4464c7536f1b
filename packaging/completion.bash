# Completion of the commands of Haboob for bash. The program and the tools tell their words themselves.

# The options of a command: in its help each stands at the beginning of a line.
_haboob_options() {
    "$@" --help 2>&1 | sed -n -E 's/^ +(-[a-zA-Z], )?(--[a-z][a-z-]*).*/\2/p' | sort -u
}

# The commands of the program.
_haboob_commands() {
    "$1" --help 2>&1 | sed -n -E 's/^  ([a-z]+)  +[A-Z].*/\1/p'
}

_haboob() {
    local cur prev words cword
    _init_completion || return
    case $prev in
        --folder) _filedir -d; return ;;
        --engine) mapfile -t COMPREPLY < <(compgen -W "plain staged" -- "$cur"); return ;;
        --speed) mapfile -t COMPREPLY < <(compgen -W "100 150 200 500 1000" -- "$cur"); return ;;
        --to | --format) mapfile -t COMPREPLY < <(compgen -W "2 traffic" -- "$cur"); return ;;
        --snapshot | --capture | --replies | --messages | --settings | --output) _filedir; return ;;
    esac
    local offered
    if ((cword == 1)); then
        offered="$(_haboob_commands "${words[0]}") --help --version"
    elif [[ ${words[1]} == help ]]; then
        offered=$(_haboob_commands "${words[0]}")
    else
        offered=$(_haboob_options "${words[0]}" "${words[1]}")
    fi
    mapfile -t COMPREPLY < <(compgen -W "$offered" -- "$cur")
}

_haboob_tool() {
    local cur prev words cword
    _init_completion || return
    if [[ $cur == -* ]]; then
        mapfile -t COMPREPLY < <(compgen -W "$(_haboob_options "${words[0]}")" -- "$cur")
    else
        _filedir
    fi
}

complete -F _haboob haboob
complete -F _haboob_tool haboob-capture-from-pcap haboob-capture-from-log haboob-timeline haboob-sweep haboob-calibrate
