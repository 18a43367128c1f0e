"""What goes wrong at the prompt: files that can not be read, answers that are lost, a file that another program has, Ctrl-C in the middle of a command; and two
prompts that take turns.
"""
import fcntl
import os
import select
import shutil
import stat
import subprocess
import sys

import pytest

from second_reading.plain_event import Event
from second_reading.plain_file import read
from tests.support.program import LOSSY
from tests.support.prompt import LETTERS, check_said, keys_of
from tests.support.random_evenings import laid
from tests.support.waiting import PATIENCE, comes


def test_faults(prompt, program, started, stand_in, companions):
    """Files that can't be read, and faults of the prompt itself: each is said, and the prompt goes on."""
    event, file = started("Ana", "Bo")
    os.mkdir(f"{file}.keys")
    text = prompt.said(file, "pair", "standings")
    check_said(
        "keys that can't be read",
        text,
        ".keys: Is a directory",
        ".keys: Is a directory. See: where",
        *event.standings(),
    )
    assert (len(read(file).stored), os.listdir(f"{file}.copies")) == (
        0,
        [],
    ), "keys that can't be read, nothing is paired"
    os.rmdir(f"{file}.keys")
    check_said(
        "a NUL in a name",
        prompt.said(file, "import a\0b.csv", "enrol a\0b", "where"),
        "is no name of a file",
        "a NUL is no command",
        "no round is paired yet",
    )
    broken = stand_in(
        '[ "$1 $3" = "export players" ] && { printf "no,name,dropped\\n1,An"; exit 0; }\nexec "$REAL" "$@"'
    )
    status, text = prompt.typed(file, "who ana", "standings", by=broken)
    check_said(
        "a list that ends in the middle",
        text,
        "or its answer was cut off: it ends in the middle of a line",
        *event.standings(),
    )
    assert status == 1, "a list that ends in the middle, the status"
    # the prompt is started with a module in which a word fails
    broken = "import event_companions.prompt.rounds as it; it.Rounds.show_round = lambda *_: {}[1]; from event_companions.prompt.main import main; main()"
    words = [
        sys.executable,
        "-B",
        "-c",
        f"import sys; sys.path.insert(0, {companions!r}); {broken}",
        file,
        "--program",
        program.path,
    ]
    ran = subprocess.run(
        words, input=b"round\nstandings\n", capture_output=True, timeout=PATIENCE, env=LETTERS
    )
    check_said(
        "a fault of the prompt itself",
        ran.stdout.decode(),
        "The prompt itself is at fault: KeyError: 1",
        "See: where",
        *event.standings(),
    )
    assert ran.stderr == b"", "a fault of the prompt itself, no traceback"


@pytest.mark.parametrize("at", range(6))
def test_two(prompt, started, at):
    """Two prompts at one file: who says `pair` at once leaves one key, by which the round was paired."""
    event, file = started(*(f"P{number}" for number in range(1, 17)))
    prompts = [
        subprocess.Popen(
            prompt.words(file),
            stdin=subprocess.PIPE,
            stdout=subprocess.PIPE,
            stderr=subprocess.STDOUT,
            env=LETTERS,
        )
        for _ in range(2)
    ]
    for it in prompts:
        it.stdin.write(b"pair\n")
        it.stdin.flush()
    text = "".join(it.communicate(timeout=PATIENCE)[0].decode() for it in prompts)
    assert (text.count("Show it to the players"), text.count("refused 8 RoundOpen")) == (
        1,
        1,
    ), "who is answered"
    keys = keys_of(file)
    assert [number for number, _ in keys] == [1], "one key"
    event.pair(1, keys[0][1])
    assert read(file).stored == event.stored, "the round is of the key"
    assert stat.S_IMODE(os.stat(f"{file}.turn").st_mode) == 0o600, "the turn is its owner's"


def test_turns(prompt, program, room, started):
    """While somebody holds the turn, the prompt waits; results come in beside two sheets that read without a pause."""
    event, file = started(*(f"P{it}" for it in range(1, 33)))
    prompt.said(file, "pair")
    with open(f"{file}.turn", "rb") as it:
        fcntl.flock(it, fcntl.LOCK_EX)
        waiting = subprocess.Popen(
            prompt.words(file), stdin=subprocess.PIPE, stdout=subprocess.PIPE, env=LETTERS
        )
        waiting.stdin.write(b"1 2 0\n")
        waiting.stdin.flush()
        waits = not select.select([waiting.stdout], [], [], 0.7)[0]
    check_said("a turn", waiting.communicate(timeout=PATIENCE)[0].decode(), "ok ")
    assert waits, "a turn is waited for"
    stop = f"{room}/stop"
    line = 'while [ ! -e "$1" ]; do flock "$2.turn" "$3" standings "$2" > /dev/null || exit 1; done'
    others = (
        [subprocess.Popen(["sh", "-c", line, "sh", stop, file, program.path]) for _ in range(2)]
        if shutil.which("flock")
        else []
    )
    status, text = prompt.typed(file, *(f"{it} 2 1" for it in range(2, 17)))
    mark(stop)
    assert (status, text.count("\nok ")) == (0, 15), "results beside two who take turns"
    assert [it.wait(60) for it in others] == [0] * len(others), "and these are never refused"


def test_calls(prompt, program, room, started, stand_in):
    """A result takes one command line: what was said of an event is kept while no other command comes."""
    event, file = started(*(f"P{it}" for it in range(1, 9)))
    counting = stand_in(f'echo "$1" >> {room}/calls\nexec "$REAL" "$@"')

    def calls():
        with open(f"{room}/calls") as it:
            lines = it.read().split()
        os.unlink(f"{room}/calls")
        return lines

    prompt.said(file, "pair", "1 2 0", "2 2 0", "3 2 0", by=counting)
    assert calls()[-5:] == ["slips", "export", "result", "result", "result"], "calls for three results"
    prompt.said(file, "standings", "standings", "round 1", "round 1", by=counting)
    assert len([it for it in calls() if it in ("standings", "slips")]) == 2, "nothing is asked twice"
    program.run("result", file, "1", "4", "2", "0", "0")
    check_said(
        "what came from elsewhere is seen",
        prompt.said(file, "where", by=counting),
        "round 1 has all its scores",
    )


def test_lost(prompt, program, room, stand_in):
    """The program is killed before a command or after it: the prompt says what is stored."""
    lossy = stand_in(LOSSY)
    lines = [
        ["start"],
        ["pair"],
        ["1 2 1"],
        ["fix 1 0 2"],
        ["drop 4", "y"],
        ["cut", "y"],
        ["play final 2 0"],
        ["enrol Zed"],
    ]
    event = Event(1, 2)
    for name in ("Ana", "Bo", "Cy", "Di"):
        event.enrol(name)
    file = laid(program.path, f"{room}/e.event", event, "E")
    for line in lines:
        if line[0] == "cut":
            prompt.said(file, "2 2 0")
        if line == ["enrol Zed"]:
            file = laid(program.path, f"{room}/other.event", event, "E")
        serial = read(file).serial
        mark(f"{file}.before")
        check_said(
            f"lost before {line[0]}",
            prompt.said(file, *line, by=lossy),
            "No answer came.",
            "It is not stored. Type the line again.",
        )
        assert read(file).serial == serial, f"lost before {line[0]}, the serial"
        mark(f"{file}.behind")
        check_said(
            f"lost behind {line[0]}", prompt.said(file, *line, by=lossy), "No answer came.", "It is stored."
        )
        assert read(file).serial == serial + 1, f"lost behind {line[0]}, the serial"


# another program has the file for a moment: before the command, or after it
BUSY = """
if [ "$1" = result ] && [ -e "$2.busy" ]; then
    [ "$(cat "$2.busy")" = behind ] && "$REAL" "$@" > "$2.out"
    rm "$2.busy"; echo "refused 25 Store" >&2; exit 3
fi
exec "$REAL" "$@"
"""


def test_busy(prompt, started, stand_in):
    """A refusal 25 that passes isn't told: the command is sent again, unless it is stored already."""
    event, file = started("Ana", "Bo", "Cy", "Di")
    prompt.said(file, "pair")
    busy = stand_in(BUSY)
    for table, when, answer in (
        (1, "before", "ok 7: round 1, 1 table open: 2"),
        (2, "behind", "It is stored.: round 1 has all its scores."),
    ):
        with open(f"{file}.busy", "w") as it:
            it.write(when)
        status, text = prompt.typed(file, f"{table} 2 0", by=busy)
        check_said(f"busy {when} a command", text, answer)
        assert (status, read(file).serial) == (
            0,
            6 + table,
        ), f"busy {when} a command, the status and the serial"


def mark(path):
    open(path, "w").close()


def test_interrupted(prompt, room, started, stand_in):
    """Ctrl-C while a command is under way: it is answered all the same."""
    event, file = started("Ana", "Bo", "Cy", "Di")
    prompt.said(file, "pair")
    begun, may_go_on = f"{room}/begun", f"{room}/may-go-on"
    waits = f'[ "$1" = result ] && : > {begun} && until [ -e {may_go_on} ]; do sleep 0.02; done'
    terminal = prompt.terminal(file, by=stand_in(f'{waits}\nexec "$REAL" "$@"'))
    terminal.keys("1 2 0\r")
    assert comes(lambda: os.path.exists(begun)), "a command is under way"
    terminal.keys("\x03")
    mark(may_go_on)
    check_said("Ctrl-C in a command", terminal.read(), "table 1:", "2-0-0", "ok ", "1 table open: 2")
    assert terminal.end()[0] == 0, "Ctrl-C in a command, the end"
    assert read(file).stored[0][0][2] == (2, 0, 0), "Ctrl-C in a command, the file"
