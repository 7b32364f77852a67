#compdef automount_cli
# Completes the words of automount_cli in zsh; tools/check_pages compares them with the program's commands.
_automount_cli() {
    local context state state_descr line
    local -A opt_args
    local -a commands
    commands=(
        'script:plays a script and writes its answers'
        'trace:plays a script and writes its trace'
        'draw:plays a script and draws what happened'
        'world:plays a script and writes the world that it leaves'
        'serve:answers each line as it comes, and what is asked between events'
        'explore:reads a scene and tries all orders of its threads'
        'judge:reads a trace and says whether it is lawful'
        'import:reads mountinfo and writes a script that builds its mounts'
        'threads:has threads walk, serve and expire in one world'
        'help:writes what the program or a command does'
    )
    _arguments -C '(- *)'{-h,--help}'[write what the program does]' '(- *)'{-V,--version}'[write the version]' \
        '1:command:->command' '*::word:->word'
    case $state in
        command) _describe command commands ;;
        word)
            case $words[1] in
                trace) _arguments '--plain[leave out the numbers of lines]' ;;
                draw) _arguments '--from[the first event, from 1]:number: ' '--to[the last event, from 1]:number: ' ;;
                world) _arguments '--namespace[the mounts of one namespace alone]:number: ' ;;
                explore) _arguments '--most[the most states of one search]:number: ' \
                    '--prefix[the choices with which orders begin]:numbers: ' ;;
                threads) _arguments '--walkers[1 to 16]:number: ' '--workers[1 to 16]:number: ' \
                    '--rounds[1 to 1000]:number: ' ;;
                help) _describe command commands ;;
            esac
            ;;
    esac
}
_automount_cli "$@"
