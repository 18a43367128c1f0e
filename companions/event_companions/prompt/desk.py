"""The prompt: its words, and its lines one after the other."""
from __future__ import annotations

import cmd
import difflib
import os
import re
from typing import Optional

from event_companions.core.event import Phase
from event_companions.core.names import begun, visible
from event_companions.core.program import FAULTS, Declined, NoAnswer, Refusal, Refused, Source
from event_companions.core.wording import counted
from event_companions.prompt.again import Again
from event_companions.prompt.drawing import Drawing
from event_companions.prompt.entering import Entering
from event_companions.prompt.evening import Evening
from event_companions.prompt.lines import Input, OutOfStep
from event_companions.prompt.listing import Listing
from event_companions.prompt.news import News
from event_companions.prompt.offers import (
    OF_PLAYERS,
    Offer,
    offers_of_files,
    offers_of_players,
    offers_of_words,
)
from event_companions.prompt.phones import Phones
from event_companions.prompt.players import Players
from event_companions.prompt.printing import Printing
from event_companions.prompt.results import Results
from event_companions.prompt.rounds import Rounds
from event_companions.prompt.session import Session, own_fault, prompt_at, why_not_used
from event_companions.prompt.texts import (
    ALL_COMMANDS,
    BEGINNING,
    COMMANDS,
    FIRST_PAIR,
    FIRST_PAIR_BY_DICE,
    PAIR,
    PAIR_BY_DICE,
    PLAYOFF,
)
from event_companions.sheets.parts import PARTS

# the command line's words for what is shorter here, and other spellings; they are taken, and not offered
ALIASES = ("result", "correct", "slips", "playoff", "exit", "enroll")
# how like a word has to be to one that is known
LIKENESS = 0.8


def of_file(fault: OSError) -> str:
    return f"{visible(str(fault.filename or 'A file'))}: {fault.strerror or fault}"


def only(word: str, rest: str) -> None:
    """Declines what is typed after a word that takes nothing."""
    if rest:
        raise Declined(f"{word} takes nothing after it. To do it, type: {word}")


class Desk(cmd.Cmd):
    """Each word is a method: `fix` is `do_fix`. `cmd` finds it; whether to end is what it gives back."""

    def __init__(self, source: Source, file: str, lines: Optional[Input] = None):
        """Lines: where they come from, and answers, if that is no terminal and no pipe."""
        super().__init__()
        self.lines = lines or Input(self.offers, self.is_command)
        self.session = Session(source, file, self.lines)
        self.results, self.rounds = Results(self.session), Rounds(self.session)
        self.players, self.evening = Players(self.session), Evening(self.session)
        self.listing, self.phones = Listing(self.session), Phones(self.session)
        self.printing, self.again = Printing(self.session), Again(self.session, self.players)
        self.entering = Entering(self.session, self.players)
        self.drawing, self.news = Drawing(self.session, self.rounds), News(self.session)
        names = self.get_names()
        self.words = sorted(name[3:] for name in names if name.startswith("do_"))

    # ---- results

    def default(self, line: str) -> None:
        """A line that begins with no word: a result, or a mistake."""
        name = line.split()[0]
        if re.match("[0-9]", name):
            self.enter(line)
            return
        near = difflib.get_close_matches(name, self.words, 1, LIKENESS)
        raise Declined(f"{visible(name)} is no command. {f'Is it {near[0]}? ' if near else ''}See: help")

    def enter(self, line: str) -> None:
        """A result, and who drops by the same slip: 17 2 1 drop 12."""
        self.drawing.must_be_no_throw(line)
        score, *dropping = re.split(r"\s+drop\s+", line, flags=re.I)
        self.results.enter(score)
        for player in dropping:
            self.players.drop(player)

    def do_result(self, rest: str) -> None:
        self.results.enter_as_words(rest)

    def do_fix(self, rest: str) -> None:
        self.results.fix(rest)

    do_correct = do_fix

    def do_doubt(self, rest: str) -> None:
        self.results.doubt(rest)

    def do_open(self, rest: str) -> None:
        only("open", rest)
        self.results.list_open()

    def do_phones(self, rest: str) -> None:
        only("phones", rest)
        self.phones.list_open()

    def do_judge(self, rest: str) -> None:
        self.phones.judge(rest)

    def do_note(self, rest: str) -> None:
        self.phones.note(rest)

    # ---- rounds and the playoff

    def do_pair(self, rest: str) -> None:
        pairs = self.drawing.pair if self.session.draws.rule else self.rounds.pair
        pairs(rest)
        self.evening.offer_scores()

    def do_draw(self, rest: str) -> None:
        self.drawing.draw(rest)

    def do_number(self, rest: str) -> None:
        self.drawing.number(rest)

    def do_round(self, rest: str) -> None:
        self.rounds.show_round(rest)

    do_slips = do_round

    def do_check(self, rest: str) -> None:
        self.rounds.check(rest)

    def do_keys(self, rest: str) -> None:
        only("keys", rest)
        self.rounds.show_keys()

    def do_standings(self, rest: str) -> None:
        self.rounds.standings(rest)

    def do_players(self, rest: str) -> None:
        only("players", rest)
        session = self.session
        session.show("players")
        session.say_again(lambda: f"{counted(len(session.event.players), 'player')}. Some of them: who an")

    def do_bracket(self, rest: str) -> None:
        only("bracket", rest)
        self.session.show("bracket")

    def do_export(self, rest: str) -> None:
        self.listing.export(rest)

    def do_final(self, rest: str) -> None:
        self.listing.final(rest)

    def do_print(self, rest: str) -> None:
        self.printing.print(rest)

    def do_cut(self, rest: str) -> None:
        only("cut", rest)
        self.rounds.cut()

    def do_play(self, rest: str) -> None:
        self.rounds.play(rest)

    do_playoff = do_play

    # ---- players

    def do_who(self, rest: str) -> None:
        self.players.who(rest)

    def do_drop(self, rest: str) -> None:
        self.players.drop(rest)

    def do_enrol(self, rest: str) -> None:
        self.players.enrol(rest)

    do_enroll = do_enrol

    def do_rename(self, rest: str) -> None:
        self.players.rename(rest)

    def do_import(self, rest: str) -> None:
        self.players.import_list(rest)

    def do_entries(self, rest: str) -> None:
        self.entering.go(rest)

    # ---- the event as a whole

    def do_init(self, rest: str) -> None:
        self.evening.init(rest)

    def do_plan(self, rest: str) -> None:
        self.again.plan(rest)

    def do_take(self, rest: str) -> None:
        self.again.take(rest)

    def do_remove(self, rest: str) -> None:
        self.again.remove(rest)

    def do_start(self, rest: str) -> None:
        only("start", rest)
        self.evening.start()

    def do_title(self, rest: str) -> None:
        self.evening.title(rest)

    def do_clock(self, rest: str) -> None:
        self.evening.clock(rest)

    def do_migrate(self, rest: str) -> None:
        only("migrate", rest)
        self.evening.migrate()

    def do_undo(self, rest: str) -> None:
        only("undo", rest)
        self.evening.undo()

    def do_copy(self, rest: str) -> None:
        self.evening.copy(rest)

    def do_copies(self, rest: str) -> None:
        only("copies", rest)
        self.evening.copies()

    def do_back(self, rest: str) -> None:
        self.evening.back(rest)

    def do_where(self, rest: str) -> None:
        only("where", rest)
        self.session.say_where()

    def do_help(self, rest: str) -> None:
        self.session.say_as_it_is(ALL_COMMANDS if rest == "all" else self.help_now())

    def help_now(self) -> str:
        """What is typed in this phase."""
        phase = self.session.phase_or_none()
        if phase in (Phase.PLAYOFF, Phase.FINISHED):
            return PLAYOFF
        is_before = phase is Phase.ENROLLING or (phase is None and self.session.is_new())
        text = BEGINNING if is_before else COMMANDS
        if not self.session.draws.is_on:
            return text
        return text.replace(FIRST_PAIR, FIRST_PAIR_BY_DICE).replace(PAIR, PAIR_BY_DICE)

    def do_quit(self, rest: str) -> bool:
        only("quit", rest)
        return True

    do_exit = do_quit

    # ---- lines

    def parseline(self, line: str) -> tuple[Optional[str], Optional[str], str]:
        """The word and the rest at the first space, since a name may begin with any character."""
        line = line.strip()
        name, *rest = re.split(r"[ \t]+", line, maxsplit=1)
        name = "help" if name == "?" else name
        # as a machine writes the first word of a line
        name = name.lower() if name.lower() in self.words else name
        return (name, "".join(rest), line) if line else (None, None, line)

    def emptyline(self) -> bool:
        return False

    def done(self, line: str) -> bool:
        """Does what a line says. Whether to end."""
        session = self.session
        session.look_again()
        session.rows = 0
        try:
            is_end = bool(self.onecmd(line))
            self.drawing.say_if_changed()
            return is_end
        except Refused as refused:
            session.explain(refused, line.split()[0].lower())
        except Declined as fault:
            session.say_failed(str(fault))
        except NoAnswer:
            session.say_failed("No answer came from the program. See: where")
        except OSError as fault:
            session.say_failed(f"{of_file(fault)}. See: where")
        except OutOfStep:
            raise
        except Exception as fault:
            session.say_failed(own_fault(fault))
        return False

    def go(self) -> int:
        """Reads lines until they end. The status to end with."""
        self.begin()
        if not self.lines.is_terminal:
            return self.go_on()
        self.news.begin()
        try:
            return self.go_on()
        finally:
            self.news.end()

    def go_on(self) -> int:
        is_terminal = self.lines.is_terminal
        while True:
            try:
                for line in self.news.lines():
                    self.session.say_filled(visible(line))
                if self.done(self.lines.line(prompt_at(self.session.known))):
                    break
            except KeyboardInterrupt:
                self.lines.ahead.clear()
                print("\nCtrl-D ends." if is_terminal else "")
                if not is_terminal:
                    return 130
            except EOFError:
                print(end="\n" if is_terminal else "")
                break
            except OutOfStep as fault:
                self.session.say(str(fault))
                return 2
        return 1 if self.session.has_failed and not is_terminal else 0

    def begin(self) -> None:
        session = self.session
        try:
            fault = why_not_used(session.file) if session.is_new() else ""
            if fault:
                session.say_failed(fault)
            elif session.is_new():
                name = os.path.splitext(os.path.basename(session.file))[0]
                session.say(
                    f"{visible(session.file)} is new. Begin with its name, the rounds and the cut, as:",
                    f"init {begun(visible(name))} 6 8",
                )
            else:
                session.say_where()
                self.drawing.go_on()
                self.say_unused_key()
                if self.lines.is_terminal:
                    self.evening.say_what_is_missing()
        except Refused as refused:
            session.explain(refused)
            # a pipe may begin by making the event
            session.has_failed = refused.number != Refusal.NO_EVENT
        except (Declined, NoAnswer) as fault:
            session.say_failed(str(fault) or "No answer came from the program.")
        except OSError as fault:
            session.say_failed(f"{of_file(fault)}. Until it can be read, no round can be paired.")
        except Exception as fault:
            session.say_failed(own_fault(fault))
        if self.lines.is_terminal:
            session.say("Type help for the commands.")

    def say_unused_key(self) -> None:
        """Of a key that was written down before the prompt was ended, or killed."""
        newest = [] if self.session.draws.rule else self.session.keys.all()[-1:]
        if newest and newest[0][0] > len(self.session.event.rounds):
            self.session.say(
                f"{self.session.file}.keys has a key for round {newest[0][0]}, which is not paired.",
                "pair makes a new one. After back, pair again takes the one that is there.",
            )

    def is_command(self, line: str) -> bool:
        """Whether a line is for the prompt, and no answer to a question."""
        name = line.strip().partition(" ")[0].lower()
        return name in self.words or name[:1].isdecimal()

    def offers(self, text: str) -> list[Offer]:
        """How a line that begins so may go on."""
        name, space, part = text.partition(" ")
        if not space:
            return offers_of_words(text, (word for word in self.words if word not in ALIASES))
        if name == "import":
            return offers_of_files(part)
        if name == "print":
            return offers_of_words(part, PARTS)
        try:
            return offers_of_players(part, self.session.event.players.values()) if name in OF_PLAYERS else []
        except (*FAULTS, OSError):
            return []
