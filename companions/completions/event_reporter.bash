# Completes the words of event_reporter in bash. Try it: . companions/completions/event_reporter.bash
_event_reporter() {
    local word=${COMP_WORDS[COMP_CWORD]}
    COMPREPLY=()
    case $COMP_CWORD,${COMP_WORDS[1]} in
        1,*)
            mapfile -t COMPREPLY < <(compgen -W "init enrol import start pair result correct drop cut playoff players standings slips bracket export serve migrate --help --version" -- "$word")
            ;;
        2,* | 3,import)
            mapfile -t COMPREPLY < <(compgen -f -- "$word")
            ;;
        3,export)
            mapfile -t COMPREPLY < <(compgen -W "players results" -- "$word")
            ;;
    esac
}
complete -o filenames -F _event_reporter event_reporter ./event_reporter
