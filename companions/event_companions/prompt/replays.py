"""How a word of the prompt has the event played again."""
from __future__ import annotations

from event_companions.core.holding import held_by_nobody
from event_companions.core.plan import Plan, plan_of
from event_companions.core.program import Declined
from event_companions.prompt.lines import unbroken
from event_companions.prompt.replaying import Change, Course, played_again
from event_companions.prompt.session import Session


def plan_now(session: Session) -> Plan:
    plan = plan_of(session.file, session.source.turn)
    if not plan:
        raise Declined("Rounds and cut can't be read from the file, so it can't be played again. See: back")
    return plan


def play_again(session: Session, change: Change) -> None:
    """The event is played again with the change. What it was before is a copy then."""
    with unbroken(), session.source.turn.taken():
        # declined before it is played, and not only when it would take its place
        with held_by_nobody(session.file):
            pass
        # another window may have done something while a question stood
        session.look_again()
        session.event.read()
        course = Course(session.source, session.copies, session.keys, session.say)
        before = played_again(course, session.event, plan_now(session), change)
    session.has_moved = True
    session.look_again()
    session.show_now()
    if before:
        session.copy_to_second_place(before)
        session.say(f"To have it as it was: back {before.number}")
