# Completion of the command kerbcanopy in bash: commands, the options that fit the command, and files where it takes them.
_kerbcanopy() {
    local word=${COMP_WORDS[COMP_CWORD]} before=${COMP_WORDS[COMP_CWORD - 1]}
    local command='' options='' files=0 path='' operands=0 ended='' index
    COMPREPLY=()
    for ((index = 1; index < COMP_CWORD; index++)); do
        case $ended${COMP_WORDS[index]} in
            -o | --room | --capacity | --bytes) ((index += 1)) ;;
            --) ended=' ' ;;
            -?*) ;;
            *)
                if [ -z "$command" ]; then
                    command=${COMP_WORDS[index]}
                elif [ "$command" = book ]; then
                    command="book ${COMP_WORDS[index]}"
                else
                    ((operands += 1))
                fi
                ;;
        esac
    done
    case $command in
        check) options='--table --all' files=1 ;;
        compare) options='' files=2 ;;
        normal) options='-o --room' files=1 ;;
        data) options='' files=2 ;;
        dump) options='--all' files=2 ;;
        explain) options='--all --html -o' files=2 ;;
        value) options='' files=2 ;;
        view) options='-o' files=2 ;;
        difference) options='' files=5 path=2 ;;
        little) options='-o --room' files=2 ;;
        big) options='-o --room' files=2 ;;
        read) options='-o --room' files=3 ;;
        'book new') options='--capacity --bytes' files=1 ;;
        'book check') options='' files=1 ;;
        'book add') options='' files=3 ;;
        'book find') options='--descriptor --data -o' files=1 ;;
        'book list') options='' files=1 ;;
    esac
    if [ -z "$ended" ] && [[ $before == --room || $before == --capacity || $before == --bytes ]]; then
        return
    elif [ -z "$ended" ] && [ "$before" = -o ]; then
        files=1 path='' operands=0
    elif [ -z "$ended" ] && [[ $word == -* ]]; then
        mapfile -t COMPREPLY < <(compgen -W "$options --hex --json -h --help -V --version --" -- "$word")
        return
    elif [ -z "$command" ]; then
        mapfile -t COMPREPLY < <(compgen -W 'check compare normal data dump explain value view difference little big read book' -- "$word")
        return
    elif [ "$command" = book ]; then
        mapfile -t COMPREPLY < <(compgen -W 'new check add find list' -- "$word")
        return
    fi
    if [ "$operands" -lt "$files" ] && [ "$operands" != "$path" ]; then
        compopt -o filenames 2> /dev/null
        mapfile -t COMPREPLY < <(compgen -f -- "$word")
    fi
}
complete -F _kerbcanopy kerbcanopy
