# Completion of jkd's words in bash.
_jkd() {
    local COMMANDS="serve stop config match check follow log dry play drill container demo help"
    local now=${COMP_WORDS[COMP_CWORD]} before=${COMP_WORDS[COMP_CWORD - 1]} command=${COMP_WORDS[1]}
    if [ "$COMP_CWORD" -eq 1 ]; then
        mapfile -t COMPREPLY < <(compgen -W "$COMMANDS --help --version" -- "$now")
        return
    fi
    case $before in
    --journal | --log) compopt -o dirnames 2>/dev/null; return ;;
    --clients | --cut | --format | --grace | --head | --idle | --keep | --rate | --waiting | --watch) return ;;
    esac
    case $command:$now in
    help:*) mapfile -t COMPREPLY < <(compgen -W "$COMMANDS" -- "$now") ;;
    serve:-*)
        mapfile -t COMPREPLY < <(compgen -W "--clients --control --cut --format --grace --head --help --idle --journal --keep --log --rate --waiting --watch" -- "$now") ;;
    container:-*) mapfile -t COMPREPLY < <(compgen -W "--clients --help" -- "$now") ;;
    match:-*) mapfile -t COMPREPLY < <(compgen -W "-v --help" -- "$now") ;;
    *:-*) mapfile -t COMPREPLY < <(compgen -W "--help" -- "$now") ;;
    drill:*) [ "$COMP_CWORD" -ne 5 ] || mapfile -t COMPREPLY < <(compgen -W "journal passes" -- "$now") ;;
    *)
        compopt -o filenames 2>/dev/null
        mapfile -t COMPREPLY < <(compgen -f -- "$now") ;;
    esac
}
complete -F _jkd jkd
