"""How far a build is, and about how long it still takes: by the processor seconds of its crates, and by how fast this machine was so far. It needs no
toolchain. `python3 -B -m tools.gate.progress` prints the table of the seconds anew, by the newest build of each crate here.
"""
import glob
import json
import os
import time

from tools import TOP

# processor seconds from nothing, December 2026; er_copy's, and what it takes of er_cli's, are estimated
SECONDS = {
    "er_share": 17,
    "er_event": 365,
    "er_rank": 60,
    "er_pair": 87,
    "er_bracket": 19,
    "er_rules": 85,
    "er_store": 530,
    "er_desk": 220,
    "er_paper": 221,
    "er_answers": 77,
    "er_slips": 144,
    "er_words": 174,
    "er_copy": 60,
    "er_cli": 570,
    "event_reporter": 405,
}
# of a crate that the table lacks
UNKNOWN = 100
# A crate keeps about two processors busy, however many there are: before and after its proofs one works alone.
MOST_LANES = 2


class Progress:
    """Follows a build of the crates in `below`, each with the names of those below it."""

    def __init__(self, below, processors, clock=time.monotonic):
        self.below, self.processors, self.clock = below, processors, clock
        self.left, self.running, self.begun = set(below), {}, clock()
        self.all = self.estimate()

    def begins(self, name, jobs):
        self.running[name] = (self.clock(), jobs)

    def ends(self, name):
        del self.running[name]
        self.left.remove(name)

    def rest(self, name):
        """Returns the processor seconds that a crate still takes. One at work is taken to keep its jobs busy, but never to have ended."""
        seconds = SECONDS.get(name, UNKNOWN)
        begun, jobs = self.running.get(name, (self.clock(), 0))
        return seconds - min(0.9 * seconds, (self.clock() - begun) * jobs)

    def estimate(self):
        """Returns the seconds that are left on the machine of the table: those of the longest chain of crates, or of all by all processors."""
        chains = {}
        # a crate has more below it than each of those below it
        for name in sorted(self.left, key=lambda it: -len(self.below[it])):
            above = [chains[it] for it in chains if name in self.below[it]]
            chains[name] = self.rest(name) / min(MOST_LANES, self.processors) + max(above, default=0)
        whole = sum(map(self.rest, self.left)) / self.processors
        return max(whole, *chains.values()) if chains else 0

    def text(self):
        """Says how long it has taken, and about how long it still takes. The first minute says little of how fast this machine is."""
        gone, left = self.clock() - self.begun, self.estimate()
        done = self.all - left
        pace = min(max(gone / done, 0.3), 5) if done > 60 else 1
        return f"{gone / 60:.0f} minutes gone, about {left * pace / 60:.0f} left"


def is_running(process):
    try:
        os.kill(process, 0)
    except ProcessLookupError:
        return False
    except PermissionError:
        pass
    return True


def under_way(folder=f"{TOP}/crates/event_reporter/out"):
    """Returns how far the build is that is at work in a checkout, or nothing if there is none. Its log has the number of its process."""
    logs = glob.glob(f"{glob.escape(folder)}/build.log.[0-9]*")
    if not any(is_running(int(log.rpartition(".")[2])) for log in logs):
        return ""
    try:
        with open(f"{folder}/building", encoding="utf-8") as it:
            return it.read().strip()
    except FileNotFoundError:
        return "it has just begun"


def main():
    for name, kept in SECONDS.items():
        try:
            with open(f"{TOP}/crates/{name}/out/made.json", encoding="utf-8") as made:
                kept = json.load(made)["seconds"] or kept
        except (OSError, KeyError):
            pass
        print(f'    "{name}": {kept:.0f},')


if __name__ == "__main__":
    main()
