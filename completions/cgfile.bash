# bash completion for cgfile

_cgfile() {
    local word previous command i
    COMPREPLY=()
    word=${COMP_WORDS[COMP_CWORD]}
    previous=${COMP_WORDS[COMP_CWORD - 1]}
    command=
    for ((i = 1; i < COMP_CWORD; i++)); do
        case ${COMP_WORDS[i]} in
            --profile | --max-record | --max-lines | --max-stream) ((i++)) ;;
            file | setting | show | json | plan | check | kinds)
                command=${COMP_WORDS[i]}
                break
                ;;
        esac
    done
    case $previous in
        --profile)
            COMPREPLY=($(compgen -W '1 2 kernel' -- "$word"))
            return
            ;;
        --max-record | --max-lines | --max-stream) return ;;
    esac
    local options='--profile --max-record --max-lines --max-stream --explain --help'
    case $command in
        '')
            COMPREPLY=($(compgen -W "file setting show json plan check kinds $options --keep-going --version" -- "$word"))
            ;;
        show | json | check)
            COMPREPLY=($(compgen -W "$options --keep-going" -- "$word"))
            ;;
        file | setting)
            if [[ $word == -* ]]; then
                COMPREPLY=($(compgen -W "$options --known" -- "$word"))
            else
                COMPREPLY=($(compgen -W "$(cgfile kinds 2> /dev/null | cut -d ' ' -f 1)" -- "$word"))
            fi
            ;;
        *) COMPREPLY=($(compgen -W "$options" -- "$word")) ;;
    esac
}

complete -F _cgfile cgfile
