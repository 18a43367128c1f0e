#compdef event-desk event-sheets event-phones event-check
# Completes the words of event-desk, event-sheets, event-phones and event-check in zsh.
local -a given
if [[ $service == event-check ]]; then
    _arguments '(- *)'{-h,--help}'[what there is]' '--who[how the tiebreakers of this player come about]:number:' '*:event, texts or lists:_files'
    return
fi
given=(
    '(- *)'{-h,--help}'[what there is]'
    '(- *)--version[the version of the program that is called]'
    '--program[the event_reporter to call]:program:_files'
    ':event:_files'
)
[[ $service == event-phones ]] && given+=(
    '--at[the address on the slips]:address:'
    '--listen[where to listen]:address:'
    '--behind-proxy[a proxy on this machine hands requests on]'
    '(--one)--both[a score is stored once both seats say it]'
    '(--both)--one[a score is stored once a phone says it]'
    '--from-one[connections of one address]:count:'
    '--desk[the port of the page of the scorekeeper]:port:'
    '--clock[start a clock of this many minutes]:minutes:'
    '--title[the heading]:text:'
)
[[ $service == event-sheets ]] && given+=(
    '--tables[the slips of these tables alone]:tables:'
    '--players[the links of these players alone]:players:'
    '--round[the round whose pairings and slips are shown]:round:'
    '--board[for a screen]'
    '--dark[a dark board]'
    '(--watch -o --output)'{-o,--output}'[write the page to this file, once it is whole]:page:_files'
    '(-o --output)--watch[write the page to this file, again and again]:page:_files'
    '--parts[these parts alone]:parts:_values -s , part players draw tables names slips standings bracket final seats links champion'
    '--by[lists by name]:which:(last first)'
    '--title[what to head the sheets with]:text:'
)
_arguments $given
