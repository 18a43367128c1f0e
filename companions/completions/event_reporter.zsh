#compdef event_reporter
# Completes the words of event_reporter in zsh. Install it as _event_reporter in a folder of $fpath.
local -a subcommands
subcommands=(
    'init:FILE NAME ROUNDS CUT'
    'enrol:FILE NAME'
    'import:FILE CSV'
    'start:FILE'
    'pair:FILE ROUND SEED'
    'result:FILE ROUND TABLE X Y D'
    'correct:FILE ROUND TABLE X Y D'
    'drop:FILE PLAYER'
    'cut:FILE'
    'playoff:FILE STAGE SLOT X Y D'
    'players:FILE'
    'standings:FILE'
    'slips:FILE ROUND'
    'bracket:FILE'
    'export:FILE KIND'
    'serve:FILE PORT COUNT'
    'migrate:FILE'
)
case $CURRENT,$words[2] in
    2,*) _describe subcommand subcommands ;;
    3,* | 4,import) _files ;;
    4,export) compadd players results ;;
esac
