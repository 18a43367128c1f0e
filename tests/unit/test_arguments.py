"""What a command line ends with."""
import pytest
from event_companions.core.arguments import status_of
from event_companions.core.program import Declined
from event_companions.core.reading import Unread


def raising(fault):
    def run():
        raise fault

    return run


@pytest.mark.parametrize(
    "fault, status, said",
    [
        (Declined("It is no page."), 3, "event-x: It is no page.\n"),
        (Unread("No memory was left.", 4), 4, "event-x: No memory was left.\n"),
        (
            FileNotFoundError(2, "No such file or directory", "none/e"),
            3,
            "event-x: none/e: No such file or directory\n",
        ),
        (OSError(28, "No space left on device"), 3, "event-x: No space left on device\n"),
        (KeyboardInterrupt(), 130, ""),
    ],
)
def test_what_ends_a_command_line_is_said(capsys, fault, status, said):
    assert status_of("event-x", raising(fault), when_interrupted=130) == status
    assert capsys.readouterr() == ("", said)


def test_what_is_done_says_nothing_and_what_fails_is_not_hidden(capsys):
    assert status_of("event-x", lambda: 0) == 0 and status_of("event-x", lambda: 1) == 1
    assert capsys.readouterr() == ("", "")
    with pytest.raises(ZeroDivisionError):
        status_of("event-x", raising(ZeroDivisionError()))
