# Completes the words of event-desk, event-sheets, event-phones and event-check in bash.
_event_companions() {
    local word=${COMP_WORDS[COMP_CWORD]} before=${COMP_WORDS[COMP_CWORD-1]} options
    COMPREPLY=()
    case ${COMP_WORDS[0]##*/} in
        event-desk) options='--help --program --version' ;;
        event-phones) options='--help --at --listen --behind-proxy --both --one --from-one --desk --clock --title --program --version' ;;
        event-check) options='--help --who' ;;
        event-sheets) options='--help --round --board --dark --output --watch --parts --tables --players --by --title --program --version' ;;
    esac
    case $before,$word in
        --round,* | --title,* | --who,*) ;;
        --by,*) mapfile -t COMPREPLY < <(compgen -W "last first" -- "$word") ;;
        --parts,*) mapfile -t COMPREPLY < <(compgen -W "players draw tables names slips standings bracket final seats links champion" -- "$word") ;;
        *,-*) mapfile -t COMPREPLY < <(compgen -W "$options" -- "$word") ;;
        *) mapfile -t COMPREPLY < <(compgen -f -- "$word") ;;
    esac
}
complete -o filenames -F _event_companions event-desk event-sheets event-phones event-check
