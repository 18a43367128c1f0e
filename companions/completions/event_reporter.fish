# Completes the words of event_reporter in fish. Install it in ~/.config/fish/completions.
function __event_reporter_at
    test (count (commandline -opc)) -eq $argv[1]
end

complete -c event_reporter -f
complete -c event_reporter -n '__event_reporter_at 1' -s h -l help -d 'what there is'
complete -c event_reporter -n '__event_reporter_at 1' -s V -l version -d 'the version'
complete -c event_reporter -n '__event_reporter_at 1' -a init -d 'FILE NAME ROUNDS CUT'
complete -c event_reporter -n '__event_reporter_at 1' -a enrol -d 'FILE NAME'
complete -c event_reporter -n '__event_reporter_at 1' -a import -d 'FILE CSV'
complete -c event_reporter -n '__event_reporter_at 1' -a start -d 'FILE'
complete -c event_reporter -n '__event_reporter_at 1' -a pair -d 'FILE ROUND SEED'
complete -c event_reporter -n '__event_reporter_at 1' -a result -d 'FILE ROUND TABLE X Y D'
complete -c event_reporter -n '__event_reporter_at 1' -a correct -d 'FILE ROUND TABLE X Y D'
complete -c event_reporter -n '__event_reporter_at 1' -a drop -d 'FILE PLAYER'
complete -c event_reporter -n '__event_reporter_at 1' -a cut -d 'FILE'
complete -c event_reporter -n '__event_reporter_at 1' -a playoff -d 'FILE STAGE SLOT X Y D'
complete -c event_reporter -n '__event_reporter_at 1' -a players -d 'FILE'
complete -c event_reporter -n '__event_reporter_at 1' -a standings -d 'FILE'
complete -c event_reporter -n '__event_reporter_at 1' -a slips -d 'FILE ROUND'
complete -c event_reporter -n '__event_reporter_at 1' -a bracket -d 'FILE'
complete -c event_reporter -n '__event_reporter_at 1' -a export -d 'FILE KIND'
complete -c event_reporter -n '__event_reporter_at 1' -a serve -d 'FILE PORT COUNT'
complete -c event_reporter -n '__event_reporter_at 1' -a migrate -d 'FILE'
complete -c event_reporter -n '__event_reporter_at 2' -F
complete -c event_reporter -n '__event_reporter_at 3; and __fish_seen_subcommand_from import' -F
complete -c event_reporter -n '__event_reporter_at 3; and __fish_seen_subcommand_from export' -a 'players results'
