# Completion of pb for bash.
_pb() {
    local word=${COMP_WORDS[COMP_CWORD]} before=${COMP_WORDS[COMP_CWORD-1]} command=${COMP_WORDS[1]}
    if [ "$COMP_CWORD" = 1 ]; then
        mapfile -t COMPREPLY < <(compgen -W 'check trace tidy show help --help --version' -- "$word")
    elif [ "$command" = help ]; then
        mapfile -t COMPREPLY < <(compgen -W 'check trace tidy show' -- "$word")
    elif [[ $before =~ ^--(longest|bits|last|from|to)$ ]]; then
        COMPREPLY=()
    elif [[ $word == -* ]]; then
        local options='--longest --bits --quiet --help'
        [ "$command" = tidy ] && options="$options --normal"
        [ "$command" = check ] && options="$options --stats --progress --explain"
        [ "$command" = trace ] && options="$options --last --from --to --ids --progress"
        mapfile -t COMPREPLY < <(compgen -W "$options" -- "$word")
    else
        mapfile -t COMPREPLY < <(compgen -f -- "$word")
        compopt -o filenames 2>/dev/null
    fi
}
complete -F _pb pb
