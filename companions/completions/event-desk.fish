# Completes the words of event-desk in fish.
complete -c event-desk -s h -l help -d 'what there is'
complete -c event-desk -l version -d 'the version of the program that is called'
complete -c event-desk -l program -r -F -d 'the event_reporter to call'
