"""What stands fixed of all that the prompt says."""
from __future__ import annotations

from typing import Optional

from event_companions.core.event import Phase

COMMANDS = """\
  17 2 1             the result of table 17: games won by the player who is
                     named first, and by the second; 17 2-1 and 17 21 will do
  17 2 1 1           with a drawn game. An intended draw: 17 id
  17 2 1 drop 12     and player 12 drops, by the same slip; it asks back
  open, where        the tables that have no score yet; where the event is
  fix 17 0 2         replaces the score of table 17; of round 1: fix 1 17 0 2
  take back 9        the score of table 9: it is open again
  doubt 9            keeps in mind that the score of table 9 is wrong, until fix
  pair, pair 50      pairs the next round by a new key; starts the clock too
  drop 23, drop Ana  drops a player; it asks back
  who an, who 12     finds players by a part of the name, or by the number
  players, round, round 3
                     lists the players by number, or a round's tables
  standings, standings 8, standings after 3
                     all of them, the first eight, those after round 3
  cut, bracket       seeds the playoff by the standings; shows it
  enrol Ana Lima     enrols a latecomer, who plays from the next round on
  print, print slips sheets for the wall, or of one kind
  back, undo         copies to go on from; what to do instead of an undo
  help all, quit     all commands
"""

# a line of these, and what stands in its place if rounds are drawn
PAIR = "  pair, pair 50      pairs the next round by a new key; starts the clock too\n"
PAIR_BY_DICE = """\
  pair               shuts and shows the lists by which the next round is drawn
  pair 17 3 8 11     pairs it by what was thrown; 17 3 8 11 50min: a clock too
  draw               what was drawn, and what the next round waits for
"""

FIRST_PAIR = "  pair, pair 50        then: pairs the first round; starts the clock too\n"
FIRST_PAIR_BY_DICE = "  pair                 then: shuts the lists of the first round, for the throw\n"

BEGINNING = """\
  init NAME ROUNDS CUT makes the event: its name, how many rounds, and how many
                       go on to the playoff, as: init Friday Night 6 8
  enrol Ana Lima       enrols a player
  import names.csv     enrols the players of a list; it shows them and asks back
  entries on           players enter their names by phone; entries lists them,
                       entries take enrols them
  rename 4 Ana Lima    gives player 4 the right name
  players, who an      lists the players; finds some by a part of the name
  print seats          a sheet for the players' meeting
  print links          a strip for each player, with a page for the phone
  plan 6 8, remove 4   other rounds and another cut; takes a player out
  draw on              rounds are drawn by dice that everybody sees
  start                begins the rounds, once everybody is there
  pair, pair 50        then: pairs the first round; starts the clock too
  copy, copy PATH      copies the event now; to a folder, as of a stick, too
  title Friday Night   the heading of the sheets
  help all, quit       all commands
"""

PLAYOFF = """\
  play qf2 2 1       the score of quarterfinal 2: games won by the player who is
                     named first, and by the second. It can't be corrected
  play sf1 2 0, play final 2 1
                     of a semifinal, and of the final
  take back qf2      the score of quarterfinal 2: it is open again
  bracket, open      the playoff; its matches that have no score yet
  where              where the event is
  final, final 8     the final ranking, once there is a champion; the first 8
  who an, who 12     finds players by a part of the name, or by the number
  standings          those after the last round
  print bracket, print final
                     sheets for the wall
  back, undo         copies to go on from; what to do instead of an undo
  help all, quit     all commands
"""

MORE_COMMANDS = """\

  init NAME ROUNDS CUT makes the event, as: init Friday Night 3 0
  import names.csv     enrols the players of a list; it shows them and asks back
  entries on           players enter their names by phone; entries lists them,
                       entries take enrols them, entries out 3 strikes one, and
                       entries off ends it
  rename 4 Ana Lima    gives player 4 the right name; after the start, for what
                       this prompt, sheets and board show
  plan, plan 6 8       rounds and cut; other ones, until the playoff
  start                begins the rounds
  take back drop 7     player 7 has not dropped, if no round was paired since
  remove 38            takes a player out who was never paired
  draw on, draw off    each round is drawn by dice: pair shuts and shows the
                       lists, and pair 17 3 8 11 pairs by what was thrown
  draw                 what was drawn, and what the next round waits for
  number 3 17 3 8 12   the number of round 3, which was mistyped; it asks back
  pair again           pairs by the key that FILE.keys has for it; see back
  copy                 copies the event now, and checks the copy
  copy /media/stick    the same to that folder too, and from now on each copy;
                       copy off ends it
  copies               how many copies there are, and which rounds have none
  back 3               goes on from copy 3; it asks back, and offers to type
                       again what came since
  play qf2 2 1         the score of quarterfinal 2; sf1 is a semifinal, and the
                       final is: play final 2 0
  keys, check 3        the keys; whether round 3 is the one that its key gives
  export standings     players, results, standings, playoff or final as CSV
  export playoff p.csv the same into a new file; with the names of both players:
                       export results names, export playoff names
  final                the final ranking, once there is a champion
  print slips          writes FILE.sheets.html, and opens it where it can
  print links 38       the strip of player 38, with the player's page
  phones               what phones handed in that has to be looked at
  judge 7              a judge, whom a phone called, has been at table 7
  note 7 +5 min        a note for the players of table 7, and for the board; all
                       notes: note; away again: note 7 off
  title Friday Night   the heading of the sheets
  clock 50, clock off  starts the clock on the board for 50 minutes; stops it
  clock +3             gives three minutes back
  migrate              moves the file of an older program to newer tables

The command line's words are taken too, without FILE: result 3 17 2 1 0,
correct, slips 3, playoff. Between numbers you may type spaces, commas, colons,
hyphens or TABs.
"""

ALL_COMMANDS = COMMANDS + MORE_COMMANDS

UNDO = """\
There is no undo for all, but there is a way back from most:
  A result:    fix TABLE X Y, as: fix 17 0 2; of round 1: fix 1 17 0 2
  A result that belongs to another table: take back 9
               if the right one isn't known yet: doubt 9
  A drop:      take back drop 7, until the next round is paired
  A score of the playoff: take back qf2
  A pairing, the cut, and what is older:
               go on from the copy that was made before it: back
  A player who was never paired: remove 38; who was: drop 12
  A name that is wrong: rename 4 Ana Lima
  Rounds and cut: plan 6 8
"""

# in place of the words of refusal 27
MISSING = """\
The event's file is missing, and copies of it are there: back was stopped, or
the file was moved. Go on from a copy: back"""

# in place of the words of refusal 6, by the phase
NOT_SWISS: dict[Optional[Phase], str] = {
    Phase.ENROLLING: "The Swiss rounds have not begun. Once all players are enrolled: start",
    Phase.PLAYOFF: "The Swiss rounds are over, and the playoff has begun. See: open",
    Phase.FINISHED: "The event is over: the playoff has its champion. See: final",
}
# the same, if somebody was to drop
NOBODY_DROPS: dict[Optional[Phase], str] = {
    Phase.ENROLLING: "Nobody drops before the start. If somebody won't play: start, and then drop 12",
    Phase.PLAYOFF: "The playoff has begun, and nobody drops any more. If one leaves, the other one\n"
    "wins: play qf2 2 0",
}
# in place of the words of refusal 13, of a match of the playoff
BAD_SCORE_OF_PLAYOFF = """\
No match of the playoff ends so. One player wins more games than the other, and
3 at most; at most 3 are drawn: play qf2 2 1"""
# in place of the words of refusal 30
BAD_SETUP = """\
A new event has a name of 1 to 60 bytes, 1 to 12 rounds, and a cut of 0, 2, 4
or 8: init Friday Night 3 0"""
LATE_IN_VERSION_1 = """\
A player who comes after the start has no place in a file of version 1, which an
older program made. Migrate it, and then enrol: migrate"""

REFUSALS = {
    1: "A name has 1 to 60 bytes, no control character, and no space at either end.\n"
    "Type another one: enrol Ana Lima",
    2: "A player has this name. Add what tells the two apart: enrol Bo (Owls)",
    3: "512 players are enrolled. There is no room for more.",
    4: "The event has started; for enrol, the playoff has begun. See: where",
    5: "It takes two players who have not dropped. Enrol them: enrol Ana Lima",
    6: "The Swiss rounds have not begun, or the playoff has.\n"
    "Before the rounds: start. In the playoff: play qf2 2 0",
    7: "Another round is next. See: where",
    8: "A table of the newest round has no score. Enter it, and then: pair",
    9: "All rounds are paired, and nobody enrols any more.\n"
    "Enter what is missing, and then: standings, or cut",
    10: "In each further round two would meet again, or one would have a second bye.\n"
    "The standings are final as they are: standings",
    11: "No pairing was found in a million steps. Take another key: pair new",
    12: "No such match is stored. See: round, or bracket",
    13: "No match ends so. Each player wins 2 games at most, and not both 2; at most 3\n"
    "are drawn: 17 2 1. An intended draw: 17 0 0 3",
    14: "The match has a score.",
    15: "The match has no score to replace. Enter it: 17 2 1",
    16: "Table 0 is the bye, whose score stays 2-0-0.",
    17: "No player has this number. See: players",
    18: "The player has dropped already. See: players",
    19: "A round is not paired yet, or a table has no score. See: where",
    20: "The event was made with no cut. The standings are final: standings",
    21: "Fewer players are left than the cut takes. The standings are final: standings",
    22: "The playoff has not begun, or has its champion. Next: cut, or bracket",
    23: "The event has taken 999,999 commands, and takes no more.",
    24: "The machine had no memory left. Close something, see: where, and type the line\n"
    "again if it is not there.",
    25: "The file was not read or written. Most often another program has it open, such\n"
    "as `serve`: end that, see: where, and type the line again if it is not there.",
    26: "A write failed before, and the file has to be opened again. Type the line again.",
    27: "There is no event in the file. Look at the path, or make one:\ninit Friday Night 3 0",
    28: "The file has an event already. Take another FILE: end this with Ctrl-D.",
    29: "The file holds what no event can be. Go on from a copy: back",
    30: "A new event has a name of 1 to 60 bytes, 1 to 12 rounds, and a cut of 0, 2, 4\n"
    "or 8: init Friday Night 3 0. A player who comes after the start has no place in\n"
    "a file of version 1. Migrate it, and then enrol: migrate",
}
