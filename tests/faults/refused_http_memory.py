"""Serves an event with one allocation refused, of those that one request takes, each in turn. The request is answered as ever, or 503 with
refusal 24. After such an answer nothing has changed, or the store was at fault: then the next request is answered 26, and the file holds the
event before the score or after it. The next request is never the one that lacks memory.

A score that is handed in allocates some hundreds of times, so that of a request's allocations each STRIDE-th is refused, and then each of the last 60.
"""
import concurrent.futures
import copy
import os
import sys
import tempfile

from tests.faults.refusing import chosen_allocations, no_cause_no_fault, refusing
from tests.support.event_files import copied, event_of_four, make_four, rows_of, rows_of_copy
from tests.support.plain_http import refusal, served as served_plainly
from tests.support.serving import Serving, served
from tests.support.words import LIBRARY, PROGRAM, Word, given_by

LAST = 60

NO_REQUEST = b"\0"
SLIP = b"GET /rounds/1/tables/1 HTTP/1.1\r\n\r\n"
REQUESTS = [
    b"GET /standings HTTP/1.1\r\n\r\n",
    b"GET /rounds/1 HTTP/1.1\r\n\r\n",
    SLIP,
    b'POST /rounds/1/tables/1 HTTP/1.1\r\nContent-Length: 19\r\n\r\n{"a":2,"b":1,"d":0}',
    b'POST /rounds/1/tables/1 HTTP/1.1\r\nContent-Length: 19\r\n\r\n{"a":2,"b":2,"d":0}',
    b'POST /rounds/1/tables/1 HTTP/1.1\r\nContent-Length: 7\r\n\r\n{"a":2}',
    b"DELETE /nope HTTP/1.1\r\n\r\n",
]
MEMORY, NEEDS_REOPEN = refusal("refused 24 Memory"), refusal("refused 26 NeedsReopen")


class Request:
    """A request to an event that is served from a file, and what it and the next one are due."""

    def __init__(self, program, library, template, event, sent, rows=rows_of):
        self.program, self.library, self.template, self.sent = program, library, template, sent
        after = copy.deepcopy(event)
        slip_before, _ = served_plainly(event, SLIP)
        self.due, _ = served_plainly(after, sent)
        slip_after, _ = served_plainly(after, SLIP)
        self.before, self.after = rows(event), rows(after)
        self.as_ever = [self.due, slip_after], self.after
        self.lacking = [
            ([MEMORY, slip_before], self.before),
            ([MEMORY, NEEDS_REOPEN], self.before),
            ([MEMORY, NEEDS_REOPEN], self.after),
        ]
        self.first, self.last = self.allocations(NO_REQUEST) + 1, self.allocations(sent)

    def served_with(self, nth, *requests):
        """The answers, how it ended, and the rows of the file then, with this allocation refused."""
        with tempfile.TemporaryDirectory() as room:
            file = copied(self.template, room)
            with Serving(self.program, file, len(requests), env=refusing(self.library, nth)) as serving:
                answers = [serving.ask(sent) for sent in requests]
                return answers, serving.end(), rows_of_copy(file)

    def allocations(self, sent):
        """Returns how many allocations there are before the program says that it has served, after which it closes the file."""
        _, (_, _, err), _ = self.served_with(0, sent)
        return int(err.split()[-2])

    def closing(self):
        """Returns the allocations after the program has said that it served this request and the next: it closes the file by them."""
        _, (_, _, err), _ = self.served_with(0, self.sent, SLIP)
        said, last = (int(count) for count in err.split()[-2:])
        return range(said + 1, last + 1)

    def tried(self, nth):
        """Whether the request lacked memory if this allocation is refused, and what was wrong, if something was."""
        answers, end, rows = self.served_with(nth, self.sent, SLIP)
        if ((answers, rows) == self.as_ever or (answers, rows) in self.lacking) and end == served(2):
            return answers[0] == MEMORY, None
        return (
            answers[0] == MEMORY,
            f"{self.sent}, allocation {nth} of {self.first} to {self.last}: {answers}, {end}, {rows}",
        )

    def faults(self, each, allocations):
        """How many answers reported out of memory, and what failed."""
        answers, end, rows = self.served_with(0, self.sent, SLIP)
        is_calm = (answers, rows) == self.as_ever and end[:2] == served(2)[:2] and no_cause_no_fault(answers)
        tried = list(each(self.tried, allocations))
        wrong = [fault for _, fault in tried if fault]
        return sum(is_lacking for is_lacking, _ in tried), wrong if is_calm else [
            f"{self.sent}: {answers}, {end}, {rows}, without a cause",
            *wrong,
        ]


def main(program, library, stride):
    count, lacking, wrong = 0, 0, []
    # a program that serves waits for the disk most of the time
    with tempfile.TemporaryDirectory() as room, concurrent.futures.ThreadPoolExecutor(
        len(os.sched_getaffinity(0))
    ) as pool:
        template = f"{room}/e.event"
        make_four(program, template)
        for sent in REQUESTS:
            it = Request(program, library, template, event_of_four(), sent)
            chosen = chosen_allocations(it.first, it.last, stride, LAST)
            told, faults = it.faults(pool.map, chosen)
            # by then both are answered, so no refusal is due
            closing = list(pool.map(it.tried, it.closing()))
            faults += [
                fault or f"{sent}: lacked memory while it closed"
                for lacked, fault in closing
                if lacked or fault
            ]
            count, lacking, wrong = count + len(chosen) + len(closing), lacking + told, wrong + faults
    print("\n".join(wrong), file=sys.stderr, end="\n" if wrong else "")
    print(
        f"refused memory while it serves: {count} allocations, each refused once, and {lacking} answers that say so"
    )
    print(f"{count - len(wrong)} passed, {len(wrong)} failed")
    return 1 if wrong else 0


if __name__ == "__main__":
    stride = Word(int, "of so many growths one is refused")
    sys.exit(main(**given_by(__doc__, program=PROGRAM, library=LIBRARY, stride=stride)))
