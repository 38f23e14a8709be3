# Completion of cmwq for bash: put it into /usr/share/bash-completion/completions/cmwq, or source it.

# Prints the first word behind the command that is no option and no option's value, up to the one that is completed.
_cmwq_file() {
    local at
    for ((at = 2; at < COMP_CWORD; at++)); do
        if [[ ${COMP_WORDS[at]} != -* && ${COMP_WORDS[at - 2]} != @(--before|--never|--sweep)
            && ${COMP_WORDS[at - 1]} != @(--capacity|--from|--to|--flush|--at|--time|--works|--scale|--id|--after|--never|--before|--limit|--sweep|--dat) ]]; then
            printf '%s\n' "${COMP_WORDS[at]}"
            return
        fi
    done
}

# Prints the names that the file's lines of this word declare: works, actors or queues. A line that declares a queue has `max` after the name;
# `queue WORK CPU` is an instruction.
_cmwq_names() {
    local end=
    [[ $1 == queue ]] && end='[[:blank:]]\{1,\}max[[:blank:]]'
    sed -n "s/^[[:blank:]]*$1[[:blank:]]\{1,\}\([a-z][a-z0-9_]*\)$end.*/\1/p" -- "$2" 2> /dev/null
}

# Offers the file's works for the last name of a list with commas.
_cmwq_work_list() {
    local before=
    [[ $1 == *,* ]] && before=${1%,*},
    mapfile -t COMPREPLY < <(compgen -P "$before" -W "$(_cmwq_names work "$2")" -- "${1##*,}")
}

# Prints what may stand here behind an option of `explore`, whose FILE this is: a work or an actor, or one more option.
_cmwq_explored() {
    if [[ ${COMP_WORDS[COMP_CWORD - 1]} == @(--after|--before) || ${COMP_WORDS[COMP_CWORD - 2]} == --before ]]; then
        _cmwq_names actor "$1"
    elif [[ ${COMP_WORDS[COMP_CWORD - 1]} == --never || ${COMP_WORDS[COMP_CWORD - 2]} == --never ]]; then
        _cmwq_names work "$1"
    else
        echo --after --never --stuck --before --limit
    fi
}

# Offers scenarios and folders; where there are none, any file.
_cmwq_scenarios() {
    compopt -o filenames 2> /dev/null
    mapfile -t COMPREPLY < <(compgen -f -X '!*.cmwq' -- "$1"; compgen -d -- "$1")
    if ((!${#COMPREPLY[@]})); then
        mapfile -t COMPREPLY < <(compgen -f -- "$1")
    fi
}

_cmwq() {
    local word=${COMP_WORDS[COMP_CWORD]} command=${COMP_WORDS[1]-} file
    COMPREPLY=()
    if ((COMP_CWORD == 1)); then
        mapfile -t COMPREPLY < <(compgen -W 'new run settle draw why explore times trace list asm show debug play check help --explain --help --version' -- "$word")
    elif [[ $command == help ]]; then
        mapfile -t COMPREPLY < <(compgen -W 'scenario new run settle draw why explore times trace list asm show debug play check help' -- "$word")
    elif [[ $word == -* ]]; then
        local options='--explain --help'
        case $command in
            run) options='--settle --tell --strict --explain --help' ;;
            draw) options='--settle --svg --from --to --fold --works --scale --id --explain --help' ;;
            why) options='--flush --at --every --time --settle --explain --help' ;;
            explore) options='--after --never --stuck --before --limit --explain --help' ;;
            times) options='--json --whom --sweep --explain --help' ;;
            trace) options='--json --lines --text --dat --explain --help' ;;
            debug) options='--settle --explain --help' ;;
            play) options='--capacity --explain --help' ;;
        esac
        mapfile -t COMPREPLY < <(compgen -W "$options" -- "$word")
    elif [[ ${COMP_WORDS[COMP_CWORD - 1]} == --works ]]; then
        file=$(_cmwq_file) && _cmwq_work_list "$word" "$file"
    elif [[ ${COMP_WORDS[COMP_CWORD - 1]} == @(--capacity|--from|--to|--flush|--at|--time|--scale|--id|--limit) ]]; then
        return
    elif [[ $command == why ]] && file=$(_cmwq_file) && [[ -n $file ]]; then
        mapfile -t COMPREPLY < <(compgen -W "$(_cmwq_names work "$file")" -- "$word")
    elif [[ $command == explore ]] && file=$(_cmwq_file) && [[ -n $file ]]; then
        mapfile -t COMPREPLY < <(compgen -W "$(_cmwq_explored "$file")" -- "$word")
    elif [[ $command == times && ${COMP_WORDS[COMP_CWORD - 1]} == --sweep ]]; then
        file=$(_cmwq_file) && mapfile -t COMPREPLY < <(compgen -W "$(_cmwq_names queue "$file")" -- "$word")
    elif [[ $command == times && ${COMP_WORDS[COMP_CWORD - 2]} == --sweep ]]; then
        return
    elif [[ ${COMP_WORDS[COMP_CWORD - 1]} == --dat || $command == @(show|new) || ($command == asm && -n $(_cmwq_file)) ]]; then
        compopt -o filenames 2> /dev/null
        mapfile -t COMPREPLY < <(compgen -f -- "$word")
    elif [[ $command == check || -z $(_cmwq_file) ]]; then
        _cmwq_scenarios "$word"
    fi
}
complete -F _cmwq cmwq
