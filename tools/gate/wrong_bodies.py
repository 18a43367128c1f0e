"""Tries the wrong bodies of crates/NAME/wrong-bodies: each has to be refused by the proof of the function that it changes, at a goal about
its contract.

A wrong body is an edit in the form of must-fail edits: a line `file: src/NAME.rt`, and then pairs of lines `old:` and `new:`. A line
`in: MODULE::FUNCTION` names the function that must be refused, where that is not the one around the change. As many as don't touch the same
function are put into one copy of the crate, and one check says of each function whether it is still proved. What that check could not
judge, as a function that calls another one that is refused, is tried again without these beside it, and at last alone.

An answer of the function may merely no longer fit the changed body, and no goal of the contract stay open beside it. Such a wrong body is tried once
more without the answers that don't fit, and if others don't fit then, without any. Beside it the function as it is in the source is tried without the
same answers. The wrong body is refused if a clause stays open that is proved of the function as it is. If there is no such clause, it would be refused
whatever its body does, so the wrong body is `unclear`. A line `unclear:` in the edit names a goal that the check left open, and where somebody who
read it found it to be false; with `--strict` one without such a line fails the run. The invariants stay, since no loop is proved without them; if one
of them is refused, as one that names a local which has another name now, the wrong body is `unclear` too.

The edits of crates/NAME/controls change nothing that a function means: a space more, a `match` in place of an `if`, another name for a local. None of
them may be refused, or what this says of wrong bodies is worth nothing. One of each crate is tried each time, all if no turn is given.

Beside the gate, which leaves processors idle while crates wait for those below them, a crate's wrong bodies are tried as soon as the gate
has proved it, over copies of the libraries that it made. There those with a line `tried: always` are tried each time, before the others, and one of
each public function every second time. The rest comes in more turns; so do those of constants, since the facts that refuse them are proved by the
gate each time. The turns go on every three hours, by the time of the commit, so that the commits of a day do not all try the same ones. With no turn
given, all are tried. If time is short, on a machine that others use, what is left of the others is named, and not tried. What was said of those
that are tried each time, and of functions without their answers, is kept, as `rt ci` keeps it of its own edits, until something changes that the check
reads.
"""
import argparse
import bisect
import collections
import concurrent.futures
import contextlib
import dataclasses
import glob
import hashlib
import itertools
import json
import os
import re
import shutil
import signal
import subprocess
import sys
import tempfile
import threading
import time

from tools.gate import toolchain


rt = toolchain.load()
printing = threading.Lock()
# the free memory, in bytes, below which no check is begun beside others
ROOM = 8_000_000_000
# one of each public function is tried in this many turns
PUBLIC_TURNS = 2
# those of private functions and of constants are tried in this many turns
TURNS = 5
# What was not begun before the time was over.
NOT_TRIED = "not tried"
# What a proof file says of a name that it lost, and not of the contract.
LOST_NAME = re.compile(
    r"has no field|is not in scope|has no `|was not admitted|was rejected|was not checked|were not checked|which is not proved"
)
# What was refused by a proof's own text alone, which no longer fits what it is about, and by no goal.
BY_TEXT = "refused by a proof's text alone"
REFUSED = ("refused", BY_TEXT)
PASSED = "passed"
# It can't be tried, since its text is not one of the language.
UNREAD = "unread"
# What nothing is known of: the answers no longer fit, and without them the function is not proved as it is either.
UNCLEAR = "unclear"
BY_HAND = "unclear and judged by hand"
# What is said of a control: that it was not refused, or that it was.
HELD, MISJUDGED = "a control that was not refused", "a control that was refused"
# What a check says of such a text.
NOT_READ = re.compile(r"^(?:\./)?(src|specs)/\S+:\d+:\d+: error", re.M)

# Where the wrong value of a constant shows.
EXAMPLES = "Examples"
CONSTANT = re.compile(r"\bconst [A-Z_0-9]+:")


@dataclasses.dataclass
class WrongBody:
    name: str
    pairs: list
    functions: set
    is_always: bool
    # the goal that stayed open when it was judged by hand
    by_hand: str = ""
    # it changes nothing that the functions mean
    is_control: bool = False
    # the answers that it is tried without, each by its file and its goal
    without: frozenset = frozenset()

    @property
    def key(self):
        return (
            self.name,
            self.pairs,
            sorted(self.functions),
            self.by_hand,
            self.is_control,
            *[sorted(self.without)] * bool(self.without),
        )

    def is_settled(self, said):
        """Whether what a check beside others said of it counts. That a wrong body passes is said alone."""
        return said in REFUSED or said == PASSED and self.is_control

    def applied(self, texts, crate):
        """The texts of the crate with this edit too, or None if it does not fit beside the others."""
        made = dict(texts)
        for file, old, new in self.pairs:
            text = made.get(file) or open(f"{crate.folder}/{file}", encoding="utf-8").read()
            if text.count(old) != 1:
                return None
            made[file] = text.replace(old, new)
        return made


@dataclasses.dataclass
class Said:
    """What a check said of a wrong body."""

    verdict: str
    # the goals of its functions that stayed open, each after the function's path
    goals: set = dataclasses.field(default_factory=set)
    # the answers of its functions that don't fit it, each by its file and its goal
    unfit: set = dataclasses.field(default_factory=set)
    # whether an invariant of theirs was refused, as one that names a local by its old name: then nothing about the loop is proved, whatever it does
    lost_loop: bool = False


def module_of(file):
    inner = re.sub(r"^src/|\.rt$", "", file)
    return "" if inner in ("lib", "main") else inner.replace("/", "::")


HEAD = re.compile(r"^ *(?:pub(?:\([^)]*\))? )?(?:const )?fn (\w+)", re.M)
# one that is empty, on its line, has no function
IMPL = re.compile(r"^impl(?:<[^{]*?>)? (?:([\w:]+)(?:<[^{]*?>)? for )?(\w+)\b(?!.*\{\}$)", re.M)


def path_of(crate, text, head, file):
    """A pattern for the path of a function, without its crate: `module::Type::name`."""
    impls = [*IMPL.finditer(text[: head.start()])]
    if not impls or re.search(r"^}", text[impls[-1].end() : head.start()], re.M):
        return "::".join([*filter(None, [module_of(file)]), head[1]])
    trait, owner = impls[-1][1], impls[-1][2]
    if trait:
        # the parts are written one behind the other, as `ShareOrd` and `RefusalFromPairFault`
        return "::".join([*filter(None, [module_of(file)]), owner + trait.split("::")[-1] + r"\w*", head[1]])
    # a method goes by the module of its type, wherever it stands
    return "::".join([*filter(None, [module_with(crate, owner)]), owner, head[1]])


def sources_of(crate):
    for folder, _, names in os.walk(f"{crate.folder}/src"):
        for name in sorted(names):
            if name.endswith(".rt"):
                file = os.path.relpath(f"{folder}/{name}", crate.folder)
                yield file, open(f"{folder}/{name}", encoding="utf-8").read()


def module_with(crate, owner):
    """The module that has this type."""
    return next(
        (
            module_of(file)
            for file, text in sources_of(crate)
            if re.search(
                rf"^pub(?:\([^)]*\))? (?:struct|enum) {owner}\b|^(?:struct|enum) {owner}\b", text, re.M
            )
        ),
        "",
    )


def function_at(crate, text, end, file):
    """The function that a text before this place is in."""
    heads = [*HEAD.finditer(text[:end])]
    return path_of(crate, text, heads[-1], file) if heads else None


def is_asked(text, head):
    """Whether a trait asks for the function, which then has no proof of its own."""
    traits = [*re.finditer(r"^(?:pub(?:\([^)]*\))? )?trait \w", text[: head.start()], re.M)]
    return traits and not re.search(r"^}", text[traits[-1].end() : head.start()], re.M)


def functions_of(crate):
    """The functions of the crate that a hole can stand for: those that are no method of a trait, and in no cycle of calls."""
    found = {
        path_of(crate, text, it, file)
        for file, text in sources_of(crate)
        for it in HEAD.finditer(text)
        if not is_asked(text, it)
    }
    return {it for it in found if "\\" not in it and not os.path.isdir(proof_of(crate.folder, it, "+"))}


def proof_of(folder, function, mark=""):
    *modules, name = function.split("::")
    return "/".join([folder, "proofs", *modules, mark + name])


def read(path, crate):
    file, old, pairs, functions, named, is_always, by_hand = "", None, [], set(), False, False, ""
    for line in open(path, encoding="utf-8").read().split("\n"):
        if line.startswith("file: "):
            file = line[6:].strip()
        elif line.startswith("in: "):
            functions, named = {line[4:].strip()}, True
        elif line == "tried: always":
            is_always = True
        elif line.startswith("unclear: "):
            by_hand = line[9:].strip()
        elif line.startswith("old: "):
            old = line[5:]
        elif line.startswith("new:"):
            text = open(f"{crate.folder}/{file}", encoding="utf-8").read()
            if old is None or text.count(old) != 1:
                sys.exit(
                    f"{path}: an `old:` text stands {text.count(old or '')} times in {file}, and not once"
                )
            pairs.append((file, old, re.sub("^new: ?", "", line)))
            if not named:
                functions.add(
                    EXAMPLES
                    if CONSTANT.search(old)
                    else function_at(crate, text, text.index(old) + len(old), file)
                )
            old = None
    if not pairs or None in functions:
        sys.exit(f"{path}: no function is around the change: name one by a line `in: MODULE::FUNCTION`")
    return WrongBody(os.path.splitext(os.path.basename(path))[0], pairs, functions, is_always, by_hand)


def read_all(folder, crate):
    """The edits in a folder."""
    return (
        [read(f"{folder}/{it}", crate) for it in sorted(os.listdir(folder)) if it.endswith(".edit")]
        if os.path.isdir(folder)
        else []
    )


def controls_of(crate):
    """The edits of a crate that change nothing."""
    return [
        dataclasses.replace(it, is_always=True, is_control=True)
        for it in read_all(f"{crate.folder}/controls", crate)
    ]


def handed_out(root):
    """The names that a crate's root hands out: those that are public there, and the last ones of the paths that it uses publicly."""
    uses = [re.sub(r"\w+::", "", it) for it in re.findall(r"^pub use ([^;]*);", root, re.M)]
    return {
        *re.findall(r"\w+", " ".join(uses)),
        *re.findall(r"^pub (?:mod|fn|struct|enum) (\w+)", root, re.M),
    }


def is_public(crate, function):
    """Whether other crates may call the function: a trait's, or one that is public in a module or of a type which the crate hands out."""
    if function == EXAMPLES or "\\" in function:
        return True
    *path, name = function.split("::")
    sources = dict(sources_of(crate))
    owner = path[-1] if path and path[-1][0].isupper() else name
    is_declared = any(re.search(rf"^ *pub (?:const )?fn {name}\b", text, re.M) for text in sources.values())
    return is_declared and bool(handed_out(sources["src/lib.rt"]) & {owner, *path[:1]})


def of_turn(crate, bodies, turn):
    """The wrong bodies that are tried in this turn: those that are tried each time, one of each second public function, and a part of the others.
    Those of constants take a check of their own, so that they come together, in one turn."""
    constants, private, public = [], [], {}
    for body in (it for it in bodies if not it.is_always):
        called = sorted(function for function in body.functions if is_public(crate, function))
        if EXAMPLES in body.functions:
            constants.append(body)
        elif called:
            public.setdefault(called[0], []).append(body)
        else:
            private.append(body)
    private.sort(key=lambda it: min(it.functions))
    part = [*([it] for it in private), constants][turn % TURNS :: TURNS]
    of_public = [*public.values()][turn % PUBLIC_TURNS :: PUBLIC_TURNS]
    always = [it for it in bodies if it.is_always]
    return (
        always
        + [its[turn // PUBLIC_TURNS % len(its)] for its in of_public]
        + [it for its in part for it in its]
    )


OPEN_GOAL = re.compile(
    r"^note: (?:\./)?(src/\S+?\.rt):(\d+):\d+: it is not proved that .*? \(`([^`]+)`\)", re.M
)


def clause_of(goal):
    """The clause that a goal is of, or the empty text where it is all of them."""
    return goal.rpartition("-clause-")[2] if "-clause-" in goal else ""


def answers_of(folder, function):
    """The files of the function's answers: one or none, and more where a method's pattern is of several."""
    *modules, name = function.split("::")
    path = re.compile("/".join([re.escape(folder), "proofs", *modules, rf"\+?{name}", "Answers.antt"]))
    return [it for it in glob.glob(f"{folder}/proofs/**/Answers.antt", recursive=True) if path.fullmatch(it)]


def pieces(text):
    """The definitions of a file of answers, and what stands before them."""
    return re.split(r"\n\n(?=\S)", text)


def goal_of(piece):
    """The goal that a definition answers, or None."""
    found = re.match(r"(?:--.*\n)*pub (\S+) :\s+goal\.(\S+)", piece)
    return found and found[1]


def all_answers(crate, body):
    """The answers of the functions that a wrong body changes, each by its file and its goal."""
    files = {it for function in body.functions for it in answers_of(crate.folder, function)}
    named = (
        (os.path.relpath(it, crate.folder), goal_of(piece))
        for it in files
        for piece in pieces(open(it, encoding="utf-8").read())
    )
    return frozenset((file, goal) for file, goal in named if goal)


def answered_in(crate, function, without):
    """The goals of a function that its own answers are about, but for those that are left out."""
    found = set()
    for it in answers_of(crate.folder, function):
        file = os.path.relpath(it, crate.folder)
        read = [
            piece
            for piece in pieces(open(it, encoding="utf-8").read())
            if (file, goal_of(piece)) not in without
        ]
        found |= {goal for piece in read for goal in re.findall(r"goal\.(returns[^\s()]*)", piece)}
    return found


def unfit_in(crate, body, output):
    """The answers of a wrong body that the check refused: all of them if what it refused is none, as a lemma that they share."""
    found, left = set(), all_answers(crate, body) - body.without
    files = {
        os.path.relpath(it, crate.folder): it
        for function in body.functions
        for it in answers_of(crate.folder, function)
    }
    for file, line in re.findall(r"^(?:\./)?(proofs/\S+/Answers\.antt):(\d+):\d+: error: ", output, re.M):
        if file in files:
            kept = [
                it
                for it in pieces(open(files[file], encoding="utf-8").read())
                if (file, goal_of(it)) not in body.without
            ]
            ends = [*itertools.accumulate(it.count("\n") + 2 for it in kept)]
            at = bisect.bisect_left(ends, int(line))
            goal = goal_of(kept[at]) if at < len(kept) else None
            if goal is None:
                return left
            found.add((file, goal))
    return found


def pattern_of(function):
    """A pattern for the folder of a function's proof."""
    *folders, name = function.split("::")
    return "/".join(["proofs", *folders, rf"\+?{name}"])


def lost_goals(output, function):
    """Whether the function's answers name a goal that is not there any more, so that another one may stand for it."""
    return re.search(
        rf"^(?:\./)?{pattern_of(function)}/Answers\.antt:\d+:\d+: error: .*\.Goals` has no `", output, re.M
    )


def has_lost_loop(body, output):
    """Whether the check refused an invariant of a function that the wrong body changes."""
    return any(
        re.search(rf"^(?:\./)?{pattern_of(it)}/Invariants\.antt:\d+:\d+: error: ", output, re.M)
        for it in body.functions
    )


def open_goals(crate, texts, output):
    """The goals that stayed open, each after its function."""
    for file, line, goal in OPEN_GOAL.findall(output):
        text = texts.get(file) or open(f"{crate.folder}/{file}", encoding="utf-8").read()
        at = sum(len(it) for it in text.splitlines(True)[: int(line) - 1])
        # a function with an attribute begins there, before its head
        ahead = HEAD.search(text, at) if re.match(" *#", text[at:]) else None
        function = function_at(crate, text, ahead.end() if ahead else text.find("\n", at), file)
        if function:
            yield function, goal


def of_contract(goals):
    """Those of these goals that are of a function's contract."""
    return [(function, goal) for function, goal in goals if goal.startswith("returns")]


def left_open(crate, goals, output, without):
    """The functions of which a goal stayed open that no answer of theirs is about: none is about its clause, or each goal that they are about is there
    beside it. With it a clause is refused, whatever other names their answers lost."""
    found = set()
    for function, goal in of_contract(goals):
        answered = answered_in(crate, function, without)
        is_beside = goal not in answered and not lost_goals(output, function)
        if is_beside or not {clause_of(it) for it in answered} & {"", clause_of(goal)}:
            found.add(function)
    return found


def said_of(crate, function, output, constants, open_in):
    """What the check said of a function: `proved`, `refused` at a goal of its contract, by a proof's text alone, or `unclear`."""
    if function == EXAMPLES:
        told = re.findall(r"^(?:\./)?proofs/Examples\.antt:\d+:\d+: error: (.*)$", output, re.M)
        if sum(not LOST_NAME.search(it) for it in told) >= constants:
            return "refused"
        return UNCLEAR if told else "proved"
    line = re.search(rf"^fn {crate.name}::{function}: (.*)$", output, re.M)
    if not line:
        return UNCLEAR
    if line[1].startswith(("proved", "no holes", "depends on a hole")):
        return "proved"
    if "did not prove" in line[1] or function in open_in:
        return "refused"
    told = [
        it
        for it in re.findall(rf"^(?:\./)?{pattern_of(function)}/\S+?:\d+:\d+: error: (.*)$", output, re.M)
        if not LOST_NAME.search(it)
    ]
    return BY_TEXT if told else UNCLEAR


def verdict(crate, body, output, constants, open_in):
    said = {said_of(crate, it, output, constants, open_in) for it in body.functions}
    return next((it for it in REFUSED if it in said), PASSED if said == {"proved"} else UNCLEAR)


def together(crate, bodies):
    """The first of these that go into one copy, and its texts."""
    taken, texts, touched = [], {}, set()
    of_functions = [it for it in bodies if EXAMPLES not in it.functions]
    for body in of_functions or bodies:
        made = None if body.functions & touched - {EXAMPLES} else body.applied(texts, crate)
        if made is not None:
            taken, texts, touched = [*taken, body], made, touched | body.functions
    return taken, texts


def only(bodies, holes):
    """Has a check go through these functions and what they call, and leave the rest."""
    functions = {it for body in bodies for it in body.functions}
    if EXAMPLES in functions:
        # the facts of a constant are of no function: a hole brings them in
        return ["--only", min(holes)] if holes else []
    # a method of a trait goes by its module
    paths = sorted({it.split("::")[0] if "\\" in it else it for it in functions})
    return [word for path in paths for word in ("--only", path)]


def leave_hole(crate, room, function, fact=None):
    """Puts a hole in place of the proof of a function, which reads this fact of the examples too."""
    folder = proof_of(room, function)
    shutil.rmtree(folder, ignore_errors=True)
    os.makedirs(folder)
    name = function.split("::")[-1]
    with open(f"{folder}/Proof.antt", "w", encoding="utf-8") as it:
        it.write(f"use Rattle.{crate.name}.proofs.{function.replace('::', '.')}.Statement.{{statement}}\n")
        if fact:
            it.write(f"use Rattle.{crate.name}.proofs.{EXAMPLES}.{{{fact}}}\n")
        it.write("\n")
        it.write(f"pub {name}_spec : {{M : Type 1}} → statement M\n{name}_spec = ?\n")


def fact_of(crate):
    """A fact of the examples that a proof can name."""
    file = f"{crate.folder}/proofs/{EXAMPLES}.antt"
    found = os.path.isfile(file) and re.search(r"^pub (\w+) :", open(file, encoding="utf-8").read(), re.M)
    return found[1] if found else None


def leave_out(room, without):
    """Takes these answers out of a copy of the crate."""
    for file in {file for file, _goal in without}:
        with open(f"{room}/{file}", encoding="utf-8") as it:
            kept = [piece for piece in pieces(it.read()) if (file, goal_of(piece)) not in without]
        if any(map(goal_of, kept)):
            with open(f"{room}/{file}", "w", encoding="utf-8") as it:
                it.write("\n\n".join(kept).rstrip("\n") + "\n")
        else:
            os.remove(f"{room}/{file}")


def checked(crate, texts, holes, without, flags, kept):
    """What a check says of a copy of the crate with these texts, a hole for each of these functions, and without these answers."""
    with tempfile.TemporaryDirectory(prefix="rt-edit-") as room:
        for part in ("src", "specs", "proofs"):
            if os.path.isdir(f"{crate.folder}/{part}"):
                shutil.copytree(f"{crate.folder}/{part}", f"{room}/{part}")
        for path, text in texts.items():
            with open(f"{room}/{path}", "w", encoding="utf-8") as it:
                it.write(text)
        for function in holes:
            leave_hole(crate, room, function, fact_of(crate) if function == min(holes) else None)
        leave_out(room, without)
        flags = ["--jobs", "1", *flags, *(["--allow-holes"] if holes else [])]
        words = [rt.rtlib.RATTLE, "check", *crate.words(flags, keeps=False), "--incremental", kept]
        how = {
            "cwd": room,
            "stdin": subprocess.DEVNULL,
            "stdout": subprocess.PIPE,
            "stderr": subprocess.STDOUT,
            "errors": "replace",
        }
        ran = subprocess.run([*rt.rtlib.guarded(), *words], **how)
        if ran.returncode == -signal.SIGKILL:
            # most likely for memory, which the gate may have taken too
            ran = subprocess.run([*rt.rtlib.guarded(), *words], **how)
        return ran.stdout


def tried(crate, bodies, kept, has_holes=True):
    """Tries these in one check, and returns what it said of each."""
    taken, texts = together(crate, bodies)
    touched = {it for body in taken for it in body.functions}
    without = {it for body in taken for it in body.without}
    holes = functions_of(crate) - touched if has_holes else set()
    output = checked(crate, texts, holes, without, only(taken, holes), kept)
    if re.search(NOT_READ, output) or not re.search(r"^(logic|only|holes)=", output, re.M):
        said = {it.name: Said(UNCLEAR) for it in taken}
        if len(taken) == 1 and not has_holes:
            said = {taken[0].name: Said(UNREAD)}
    else:
        constants = sum(EXAMPLES in it.functions for it in taken)
        goals = {*open_goals(crate, texts, output)}
        open_in = left_open(crate, goals, output, without)
        said = {}
        for it in taken:
            of_its = {(function, goal) for function, goal in goals if function in it.functions}
            lost_loop = has_lost_loop(it, output)
            found = UNCLEAR if lost_loop else verdict(crate, it, output, constants, open_in)
            said[it.name] = Said(found, of_its, unfit_in(crate, it, output), lost_loop)
    return said, output


# when no check is begun any more but of those that are tried each time, by the clock of `time.monotonic`
deadline = float("inf")


def in_time(bodies):
    """Those of these for which a check is still begun."""
    return bodies if time.monotonic() < deadline else [it for it in bodies if it.is_always]


def judged(crate, bodies, kept, shows, tell=lambda body, said: None):
    """What was said of each of these wrong bodies of a crate, by name, but of those for which there was no time. Each is told once it is known."""
    found, alone = {}, []
    left, again = in_time(bodies), []
    while left:
        said, output = tried(crate, left, kept)
        if shows:
            print(output)
        refused = any(it.verdict in REFUSED for it in said.values())
        for it in (it for it in left if it.name in said and it.is_settled(said[it.name].verdict)):
            found[it.name] = said[it.name]
            tell(it, said[it.name])
        unclear = [it for it in left if it.name in said and it.name not in found]
        left = in_time([it for it in left if it.name not in said])
        # those may have waited for others that were refused
        again += unclear if refused else []
        alone += [] if refused else unclear
        if not left:
            left, again = in_time(again), []
    # what was not refused so is tried alone, over the proofs of the whole crate
    for body in alone:
        if in_time([body]):
            said, output = tried(crate, [body], kept, has_holes=False)
            if shows:
                print(output)
            for it in said.values():
                tell(body, it)
            found.update(said)
    return found


def sum_of(crate, body, *more):
    """The sum of all that a check of this one reads."""
    # an older toolchain sums a crate only by its own method
    stamp = rt.stamp_of(crate, {}) if hasattr(rt, "stamp_of") else crate.stamp()
    return hashlib.sha256(repr((stamp, body.key, *more)).encode()).hexdigest()


class Earlier:
    """What runs of the gate on this machine said of the edits that are tried each time, if it was as it has to be, and of the functions as they are without
    their answers. It is kept where `rt ci` keeps what its own edits came to, by the sum of all that the check reads, and of this script. An older
    toolchain keeps nothing."""

    def __init__(self, crates):
        self.kept = rt.Kept(crates) if hasattr(rt, "Kept") else None
        with open(__file__, "rb") as it:
            self.judge = it.read()

    def said(self, crate, body):
        """What is kept of this one, or None."""
        found = self.kept and self.kept.tried(sum_of(crate, body, self.judge))
        return found[1] if found else None

    def add(self, crate, bodies, said):
        """Keeps what was said of each of these, unless a file that their check read was touched meanwhile."""
        if self.kept is not None and all(self.kept.is_untouched(it) for it in [*crate.below(), crate]):
            for body in bodies:
                self.kept.keep_tried(sum_of(crate, body, self.judge), rt.REFUSED, said[body.name])


class Verdicts:
    """A file with a line of JSON for each edit that was tried, so that a run which takes long may go on where an earlier one was stopped."""

    def __init__(self, path):
        self.path, self.rows = path, {}
        if os.path.exists(path):
            with open(path, encoding="utf-8") as it:
                self.rows = {row["sum"]: row for row in map(json.loads, it)}

    def said(self, crate, body):
        """The verdict that is there, or None."""
        return self.rows.get(sum_of(crate, body), {}).get("verdict")

    def add(self, crate, body, **said):
        row = {
            "crate": crate.name,
            "edit": body.name,
            "functions": sorted(body.functions),
            **said,
            "sum": sum_of(crate, body),
        }
        with printing, open(self.path, "a", encoding="utf-8") as it:
            it.write(json.dumps(row) + "\n")


def as_it_is(body):
    """The functions that a wrong body changes as they are in the source, without the answers that it is tried without."""
    name = " ".join([*sorted(body.functions), *sorted(f"-{goal}" for _file, goal in body.without)])
    return WrongBody(name, [], body.functions, body.is_always, is_control=True, without=body.without)


def open_as_they_are(crate, bodies, kept, shows, earlier):
    """The goals that stay open of the functions of each of these as they are in the source, by the name of the wrong body: None if that is not known."""
    controls = {body.name: as_it_is(body) for body in bodies}
    # one that is tried each time stands for all that are the same
    each = {it.name: it for it in sorted(controls.values(), key=lambda it: it.is_always)}
    found = {name: earlier.said(crate, it) for name, it in each.items()} if earlier else {}
    found = {name: {*map(tuple, json.loads(it))} for name, it in found.items() if it}
    said = judged(crate, [it for name, it in each.items() if name not in found], kept, shows)
    found.update((name, it.goals if it.goals or it.verdict == PASSED else None) for name, it in said.items())
    if earlier:
        known = [each[name] for name in said if found[name] is not None]
        earlier.add(crate, known, {it.name: json.dumps(sorted(found[it.name])) for it in known})
    return {name: found[it.name] for name, it in controls.items() if it.name in found}


def is_refused(said, as_they_are):
    """Whether a wrong body is refused without some of its answers, where these goals stay open of the functions as they are: at a clause of which none is
    open there. An open goal that names no clause is of all of them. One whose answer is there and doesn't fit says nothing.
    """
    unfit = {goal for _file, goal in said.unfit}
    told = [(function, goal) for function, goal in said.goals if goal not in unfit]
    here, there = (
        {(function, clause_of(goal)) for function, goal in of_contract(goals)}
        for goals in (told, as_they_are)
    )
    all_of = {function for function, clause in there if not clause}
    some_of = {function for function, _clause in there}
    is_beyond = any(
        function not in (all_of if clause else some_of) and (function, clause) not in there
        for function, clause in here
    )
    return not said.lost_loop and (is_beyond or not as_they_are and said.verdict == "refused")


def again_without(crate, lost, kept, shows, earlier):
    """What is said of each of these, by name, without the answers that they are to be tried without, and the goals that stay open of the functions as they
    are."""
    as_they_are = open_as_they_are(crate, lost, kept, shows, earlier)
    found = {name: (Said(UNCLEAR), goals) for name, goals in as_they_are.items() if goals is None}
    said = judged(crate, [it for it in lost if it.name in as_they_are and it.name not in found], kept, shows)
    for name, it in said.items():
        it.verdict = (
            PASSED if it.verdict == PASSED else "refused" if is_refused(it, as_they_are[name]) else UNCLEAR
        )
        found[name] = it, as_they_are[name]
    return found


def try_all(crate, bodies, shows, earlier=None, verdicts=None, work_in=None):
    """What was found of each of these wrong bodies and controls of a crate, by name. Those of which an earlier run said it are not tried. What checks
    have proved is kept in a folder of the crate's in `work_in`, and without that only until the end."""
    found = {it.name: earlier.said(crate, it) for it in bodies if earlier and it.is_always}
    found.update({it.name: verdicts.said(crate, it) for it in bodies if verdicts and not found.get(it.name)})
    found = {name: what for name, what in found.items() if what}
    known, new = len(found), [it for it in bodies if it.name not in found]

    def is_lost(it, said):
        return said.verdict in (BY_TEXT, UNCLEAR) and all_answers(crate, it)

    def add(it, first, said, as_they_are=None):
        found[it.name] = counted(it, said.verdict)
        if verdicts:
            unfit = sorted(goal for _file, goal in first.unfit)
            open_in = {
                "open": sorted(said.goals),
                "open_as_it_is": None if as_they_are is None else sorted(as_they_are),
            }
            verdicts.add(crate, it, first=first.verdict, unfit=unfit, **open_in, verdict=found[it.name])

    with contextlib.nullcontext(f"{work_in}/{crate.name}") if work_in else tempfile.TemporaryDirectory(
        prefix="wrong-bodies-"
    ) as kept:
        os.makedirs(kept, exist_ok=True)
        first = judged(crate, new, kept, shows, lambda it, said: is_lost(it, said) or add(it, said, said))
        lost = [it for it in new if it.name in first and is_lost(it, first[it.name])]
        less = [
            dataclasses.replace(it, without=frozenset(first[it.name].unfit or all_answers(crate, it)))
            for it in lost
        ]
        again = again_without(crate, less, kept, shows, earlier)
        # others may not fit then, and what is left may prove less than nothing does; one that was judged by hand isn't tried so
        unclear = [
            it
            for it in less
            if it.name in again
            and again[it.name][0].verdict == UNCLEAR
            and it.without != all_answers(crate, it)
        ]
        bare = [it for it in unclear if again[it.name][0].unfit or not (it.by_hand or it.is_control)]
        again.update(
            again_without(
                crate,
                [dataclasses.replace(it, without=all_answers(crate, it)) for it in bare],
                kept,
                shows,
                earlier,
            )
        )
    for it in (it for it in lost if it.name in again):
        add(it, first[it.name], *again[it.name])
    if earlier:
        earlier.add(
            crate,
            [it for it in new if it.is_always and found.get(it.name) in ("refused", BY_HAND, HELD)],
            found,
        )
    found.update({it.name: NOT_TRIED for it in bodies if it.name not in found})
    with printing:
        for name, what in sorted(found.items()):
            if what not in ("refused", HELD):
                print(f"{crate.name}/{name}: {what.upper()}", flush=True)
        if known:
            print(
                f"{crate.name}: {known} were tried in an earlier run on this machine, and nothing that they stand on has changed"
            )
        print(f"{crate.name}: {told([found])}", flush=True)
    return found


def counted(body, what):
    """What counts of a body of which this was said."""
    if body.is_control and what != UNREAD:
        return HELD if what in (PASSED, UNCLEAR) else MISJUDGED
    return BY_HAND if what == UNCLEAR and body.by_hand else what


def told(found):
    """How many were refused, passed, and were not tried."""
    counts = collections.Counter(it for said in found for it in said.values())
    parts = [
        f"{counts['refused']} refused at a goal",
        f"{counts[PASSED]} passed",
        f"{counts[UNCLEAR]} unclear",
    ]
    parts += [f"{counts[it]} {it}" for it in (BY_HAND, BY_TEXT, UNREAD) if counts[it]]
    parts += [f"{counts[HELD]} of {counts[HELD] + counts[MISJUDGED]} controls not refused"] * (
        counts[HELD] + counts[MISJUDGED] > 0
    )
    return ", ".join(parts + [f"{counts[NOT_TRIED]} not tried for want of time"] * (counts[NOT_TRIED] > 0))


# What the gate says of a crate that it has proved, and what its log ends with.
PROVED = re.compile(r"^rt: (\w+) (?:proved$|is kept: )", re.M)
ENDED = "the gate has ended\n"


class Gate:
    """The gate that runs beside this, by its log."""

    def __init__(self, log, room):
        self.log, self.room, self.taken = log, room, set()

    def said(self):
        with open(self.log, encoding="utf-8", errors="replace") as it:
            return it.read()

    def has_ended(self):
        return self.said().endswith(ENDED)

    def has_proved(self, crate):
        """Whether it has proved the crate and the libraries below, whose copies are taken then: the gate puts others in their place at its end."""
        wanted, proved = {it.name for it in [*crate.below(), crate]}, {*PROVED.findall(self.said())}
        if not wanted <= proved:
            return False
        for it in crate.below():
            if it.name not in self.taken:
                made = f"{self.room}/{it.name}/{it.name}.rlib"
                shutil.copytree(it.rlib, made, copy_function=linked)
                it.rlib = made
                self.taken.add(it.name)
        return True


def linked(one, other):
    """Copies a file, by a link if it can be one."""
    try:
        os.link(one, other)
    except OSError:
        shutil.copy2(one, other)


def give_way(niceness):
    """Lets other work go first. If the kernel shares processors among sessions, niceness counts within one alone, so the session gets it too."""
    os.nice(niceness)
    with contextlib.suppress(OSError), open("/proc/self/autogroup", "w", encoding="ascii") as it:
        it.write(str(niceness))


def try_beside(gate, work, shows, earlier, verdicts):
    """Tries those of a crate once the gate has proved it: with half of the processors until the gate has ended, and then with all."""
    give_way(10)
    found, left, running = [], [*work], set()
    with concurrent.futures.ThreadPoolExecutor(rt.processors()) as pool:
        while left or running:
            has_ended = gate.has_ended()
            lanes = rt.processors() if has_ended else max(1, rt.processors() // 2)
            ready = [it for it in left if gate.has_proved(it[0])]
            if has_ended and not ready and not running:
                sys.exit(f"the gate did not prove {left[0][0].name}")
            places = lanes - len(running)
            if rt.free() < ROOM:
                # one goes on even so
                places = 0 if running else 1
            for it in ready[:places]:
                left.remove(it)
                running.add(pool.submit(try_all, *it, shows, earlier, verdicts))
            ended, running = concurrent.futures.wait(
                running, timeout=5, return_when=concurrent.futures.FIRST_COMPLETED
            )
            found += [it.result() for it in ended]
            if not running and not ready:
                time.sleep(5)
    return found


def try_now(work, shows, jobs, verdicts, work_in):
    """Tries all, this many crates at once, over the libraries below as the session builds them."""
    if any(
        it.build_rlib(["--jobs", "1"], anew=False) for crate, bodies in work if bodies for it in crate.below()
    ):
        sys.exit("a library below could not be built")
    with concurrent.futures.ThreadPoolExecutor(jobs) as pool:
        return list(pool.map(lambda it: try_all(*it, shows, verdicts=verdicts, work_in=work_in), work))


def main():
    words = argparse.ArgumentParser(
        prog="scripts/wrong_bodies",
        description="Tries the wrong bodies of each crate, or of those that are named.",
    )
    words.add_argument("names", nargs="*", metavar="NAME")
    words.add_argument(
        "--beside-gate",
        metavar="LOG",
        help="begin with each crate once rt ci, whose output goes to LOG, has proved it",
    )
    words.add_argument(
        "--turn",
        metavar="NUMBER",
        type=int,
        help="try what is tried each time, and of the others those whose turn this is",
    )
    words.add_argument(
        "--minutes",
        metavar="NUMBER",
        type=int,
        help="begin no check after this many but of those tried each time; what is left is named, and is no fault",
    )
    words.add_argument(
        "--only", metavar="EDIT", action="append", help="try this one, and no other that is not named so too"
    )
    words.add_argument("--show", action="store_true", help="print what each check said")
    words.add_argument(
        "--strict", action="store_true", help="fail if one is unclear and was not judged by hand"
    )
    words.add_argument(
        "--jobs",
        metavar="NUMBER",
        type=int,
        default=rt.processors(),
        help="try those of this many crates at once; without it, as many as there are processors",
    )
    words.add_argument(
        "--verdicts",
        metavar="FILE",
        help="add a line of JSON for each that was tried to FILE, and leave out those of which it has one",
    )
    words.add_argument(
        "--work-in",
        metavar="FOLDER",
        help="keep what checks have proved there, and use it, so that a run that is stopped goes on quickly",
    )
    given = words.parse_args()
    if given.minutes:
        global deadline
        deadline = time.monotonic() + 60 * given.minutes
    os.environ.pop(rt.rtlib.ALLOW_C, None)
    rt.rtlib.guarded()
    work, crates = [], rt.rtlib.crates_below(os.getcwd())
    for crate in crates:
        if os.path.isdir(f"{crate.folder}/wrong-bodies") and (not given.names or crate.name in given.names):
            bodies, controls = read_all(f"{crate.folder}/wrong-bodies", crate), controls_of(crate)
            if given.turn is not None:
                bodies, controls = (
                    of_turn(crate, bodies, given.turn),
                    controls[given.turn % max(len(controls), 1) :][:1],
                )
            work.append((crate, [it for it in bodies + controls if not given.only or it.name in given.only]))
    work.sort(key=lambda it: -it[0].count(rb"\n"))
    verdicts = Verdicts(given.verdicts) if given.verdicts else None
    if given.beside_gate:
        with tempfile.TemporaryDirectory(prefix="gate-libraries-") as room:
            found = try_beside(Gate(given.beside_gate, room), work, given.show, Earlier(crates), verdicts)
    else:
        found = try_now(work, given.show, given.jobs, verdicts, given.work_in)
    print(f"wrong bodies: {told(found)}")
    all_said = {it for said in found for it in said.values()}
    return (
        1
        if all_said & {PASSED, UNREAD, MISJUDGED, *[UNCLEAR] * given.strict}
        or not all_said & {"refused", BY_HAND, HELD}
        else 0
    )


if __name__ == "__main__":
    sys.exit(main())
