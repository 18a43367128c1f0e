"""The key of each round, and whether a round is the one that its key gives: at the prompt by the copy, and by a second reading without the program."""
import subprocess

from tests.support.prompt import check_said, keys_of
from tests.support.waiting import PATIENCE
from tools import TOP


def checked(program, file):
    """What `scripts/check` says of the lists of the event."""
    paths = [f"{file}.{kind}.csv" for kind in ("players", "results")]
    for kind, path in zip(("players", "results"), paths):
        with open(path, "wb") as it:
            it.write(program.did("export", file, kind))
    ran = subprocess.run(
        ["bash", f"{TOP}/scripts/check", *paths, f"{file}.keys"],
        capture_output=True,
        timeout=PATIENCE,
        cwd="/",
    )
    return ran.returncode, ran.stdout.decode() + ran.stderr.decode()


def test_check(prompt, program, started):
    """Whoever wants to check a round can: at the prompt by the copy, and by a second reading without the program."""
    event, file = started(*(f"P{it}" for it in range(1, 10)))
    lines = ["1 2 0", "2 2 1", "3 0 2", "4 1 1 1"]
    text = prompt.said(
        file,
        "pair",
        *lines,
        "drop 9",
        "y",
        "enrol Late",
        "pair",
        *lines,
        "pair",
        "check 1",
        "check 2",
        "check",
        "check 4",
        "check x",
    )
    check_said(
        "check",
        text,
        *(f"Round {it} is what its key gives" for it in (1, 2, 3)),
        "Round 4 is not paired",
        "such as check 3",
    )
    is_so = "as the rules pair it by its key"
    assert checked(program, file) == (
        0,
        "".join(f"round {it}: {is_so}\n" for it in (1, 2, 3)) + "Checked: 3 rounds. Nothing is wrong.\n",
    ), "scripts/check"
    prompt.said(file, "fix 1 1 0 2", "y")
    status, text = checked(program, file)
    check_said(
        "scripts/check after a correction",
        text,
        f"round 1: {is_so}",
        "was corrected since, this can't be told",
    )
    assert status == 1, "scripts/check after a correction, the status"
    check_said("check after a correction", prompt.said(file, "check 2"), "Round 2 is what its key gives")
    keys = [f"round {number} {key.hex()}\n" for number, key in keys_of(file)]
    with open(f"{file}.keys", "w") as it:
        it.write(keys[0].replace(keys[0].split()[2], "ab" * 32) + keys[2])
    check_said(
        "check by another key",
        prompt.said(file, "check 1", "check 2"),
        "Round 1 is not what a copy",
        "differ",
        ".keys has no key of it",
    )
    status, text = checked(program, file)
    check_said(
        "scripts/check by another key",
        text,
        "round 1: not as the rules pair it from the scores",
        "round 2: its key is not in the list",
    )
    for paths, due in (([], 2), (["/none"], 2), ([f"{file}.players.csv", f"{file}.keys", f"{file}.keys"], 1)):
        ran = subprocess.run(["bash", f"{TOP}/scripts/check", *paths], capture_output=True, timeout=PATIENCE)
        assert (ran.returncode, b"Traceback" in ran.stderr, ran.stdout) == (
            due,
            False,
            b"",
        ), f"scripts/check {len(paths)}"


def test_key_first(prompt, started, stand_in):
    """The key is in FILE.keys, and the copy made, before `pair` is sent."""
    look = 'if [ "$1" = pair ]; then grep -c "^round $3 $4$" "$2.keys" > "$2.seen"; ls "$2.copies" >> "$2.seen"; fi\nexec "$REAL" "$@"'
    event, file = started("Ana", "Bo", "Cy", "Di")
    prompt.said(file, "pair", by=stand_in(look))
    with open(f"{file}.seen") as it:
        seen = it.read().split()
    assert (seen[0], [it[-19:] for it in seen[1:]]) == (
        "1",
        ["before-pair-1.event"],
    ), "the key and the copy come first"
    prompt.said(file, "pair")
    with open(f"{file}.keys") as it:
        left = it.read().split()[-1]
    assert left == "unused", "a key whose pairing was refused is marked"
    prompt.said(file, "1 2 0", "2 2 0", "pair")
    assert (
        [number for number, _ in keys_of(file)],
        len(set(open(f"{file}.keys").read().split()) - {"round", "unused", "1", "2"}),
    ) == ([1, 2], 3), "and is never used again"
    with open(f"{file}.keys", "a") as it:
        it.write("round 3 abc")
    prompt.said(file, "1 2 0", "2 2 0", "pair")
    with open(f"{file}.keys") as it:
        lines = it.read().splitlines()
    assert (lines[-2], lines[-1][:8], len(lines[-1])) == (
        "round 3 abc",
        "round 3 ",
        72,
    ), "a line that was broken off stays alone"


def test_other_key(prompt, started, stand_in):
    """Another one pairs by another key just when this prompt does, and this prompt is refused 25: it finds a round, and doesn't show its own key."""
    event, file = started(*(f"P{it}" for it in range(1, 17)))
    other = f'[ "$1 $2" = "pair {file}" ] && {{ "$REAL" pair "$2" "$3" {"0" * 64} > "$2.other"; echo "refused 25 Store" >&2; exit 3; }}\nexec "$REAL" "$@"'
    status, text = prompt.typed(file, "pair", by=stand_in(other))
    check_said("another key", text, "It is stored.", "Round 1 was paired by another key", "marked as unused")
    assert (status, "Show it to the players" in text) == (
        1,
        False,
    ), "another key, the status, and no key is shown"
    assert keys_of(file) == [], "another key, the list of keys"
