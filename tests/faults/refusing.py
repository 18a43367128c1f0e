"""A program with one allocation refused: how it is run, and what no command may be answered in which nothing was refused."""
import os

FAULTS = (b"refused 24 ", b"refused 25 ", b'"refused":24}', b'"refused":25}', b"HTTP/1.1 503 ")


def refusing(library, nth):
    """The environment in which this allocation is refused. With 0 none is, and the last line of the errors says how many there were."""
    return {**os.environ, "LD_PRELOAD": library, "REFUSE_NTH": str(nth)}


def chosen_allocations(first, last, stride, of_the_last):
    """One allocation in this many, and each of the last ones."""
    return sorted({*range(first, last + 1, stride), *range(max(first, last - of_the_last + 1), last + 1)})


def no_cause_no_fault(answers):
    """Whether none of these answers says that memory or the store was at fault. It is asked of commands in which nothing was refused, on a desk
    that needs no reopening.
    """
    return not any(fault in answer for answer in answers for fault in FAULTS)
