"""Runs a program once for each allocation that it asks for, with that allocation refused.

The command in which the allocation falls is answered as ever, or `refused 24 Memory`. What follows must then be what the program answers to
the script without that command, so that a refusal leaves the event as it was; or, where it was the store that lacked memory, each
further command is refused until the event is opened again. No other command is answered that memory or the store was at fault.
"""
import subprocess
import sys

from tests.faults.refusing import no_cause_no_fault, refusing
from tests.support.words import LIBRARY, PROGRAM, Word, given_by

MEMORY = b"refused 24 Memory\n"
NEEDS_REOPEN = b"refused 26 NeedsReopen\n"


class Script:
    """The commands of a script, what each is answered, and the allocations that are made until then."""

    def __init__(self, program, library, commands):
        self.program, self.library, self.commands = program, library, commands
        _, self.output, said = self.run(commands)
        # each answer is one write
        *self.until, self.count = (int(it) for it in said.split())
        ends = [len(self.run(commands[:count])[1]) for count in range(len(commands) + 1)]
        self.answers = [self.output[start:end] for start, end in zip(ends, ends[1:])]
        # what the commands after each are answered, if it was not sent
        self.without = [
            self.run(commands[:at] + commands[at + 1 :])[1][end:] for at, end in enumerate(ends[:-1])
        ]

    def run(self, commands, nth=0):
        """The status, the output and the errors, with this allocation refused, or none; then the errors say how many there were."""
        ran = subprocess.run(
            [self.program],
            input=b"".join(commands),
            capture_output=True,
            env=refusing(self.library, nth),
            timeout=60,
        )
        return ran.returncode, ran.stdout, ran.stderr

    def command_of(self, nth):
        """The command in which an allocation falls, from 0; what is allocated before the first is counted to that."""
        return sum(nth > count for count in self.until)

    def lawful(self, nth):
        """The statuses and outputs that are lawful if this allocation is refused."""
        at, answers = self.command_of(nth), self.answers
        if at == len(answers):
            return [(0, self.output)]
        before, left = b"".join(answers[:at]), len(answers) - at - 1
        unread = [(4, MEMORY)] if at == 0 else []
        return [
            (0, self.output),
            (0, before + MEMORY + self.without[at]),
            (0, before + MEMORY + NEEDS_REOPEN * left),
            *unread,
        ]

    def fault(self, nth):
        """What is wrong with the run in which this allocation is refused, or None."""
        status, output, errors = self.run(self.commands, nth)
        # with no words to tell a script from a command line, that is an error
        is_wordless = self.command_of(nth) == 0 and (status, output, errors) == (4, b"", MEMORY)
        if is_wordless or (status, output) in self.lawful(nth):
            return None
        return f"allocation {nth} of {self.count}, in command {self.command_of(nth) + 1}: status {status}, {output}"

    def faults(self, each):
        """What is wrong in all runs, which `each` goes through, as `map` does."""
        wrong = [] if no_cause_no_fault([*self.answers, *self.without]) else ["a fault without a cause"]
        if len(self.until) != len(self.commands):
            wrong.append("an answer is not one write")
        return wrong + [it for it in each(self.fault, range(1, self.count + 1)) if it]


def main(program, library, script, whole):
    it = Script(program, library, open(script, "rb").read().splitlines(keepends=True))
    if it.output != open(whole, "rb").read():
        sys.exit(f"{script} is not answered as {whole} has it")
    count, wrong = it.count, it.faults(map)
    print("\n".join(wrong), file=sys.stderr, end="\n" if wrong else "")
    print(f"refused memory in {script}: {count} allocations, each refused once")
    print(f"{count - len(wrong)} passed, {len(wrong)} failed")
    sys.exit(1 if wrong else 0)


if __name__ == "__main__":
    script, whole = Word(str, "the script"), Word(str, "what it is answered")
    main(**given_by(__doc__, program=PROGRAM, library=LIBRARY, script=script, whole=whole))
