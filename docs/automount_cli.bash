# Completes the words of automount_cli in bash; tools/check_pages compares them with the program's commands.
_automount_cli() {
    local word=${COMP_WORDS[COMP_CWORD]} before=${COMP_WORDS[COMP_CWORD - 1]} words=
    if [[ $COMP_CWORD -eq 1 ]]; then
        words="script trace draw world serve explore judge import threads help"
        [[ $word != -* ]] || words="--help --version"
    elif [[ $before == --* || $before == = ]]; then
        # A number: nothing can be completed, and a file is none.
        compopt +o default 2> /dev/null
    elif [[ $before != [\<\>]* ]]; then
        case ${COMP_WORDS[1]} in
            trace) words="--plain" ;;
            draw) words="--from --to" ;;
            world) words="--namespace" ;;
            explore) words="--most --prefix" ;;
            threads) words="--walkers --workers --rounds" ;;
            help) words="script trace draw world serve explore judge import threads help" ;;
        esac
    fi
    mapfile -t COMPREPLY < <(compgen -W "$words" -- "$word")
}
complete -o default -F _automount_cli automount_cli
