# Completes the words of event-check in fish.
complete -c event-check -s h -l help -d 'what there is'
complete -c event-check -l who -x -d 'how the tiebreakers of this player come about'
