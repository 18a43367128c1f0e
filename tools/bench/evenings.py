"""The lines of evenings by which the program is timed and counted."""
import hashlib


def seed(round):
    return hashlib.sha256(b"round %d" % round).hexdigest()


def enrolled(players, rounds, cut=0):
    return [f"init\tFriday\t{rounds}\t{cut}", *(f"enrol\tN{it}" for it in range(1, players + 1))]


def played(players, rounds, cut=0, after_each=()):
    """All rounds of an event, with each result: the first-named player wins at two tables of three."""
    lines = [*enrolled(players, rounds, cut), "start"]
    for round in range(1, rounds + 1):
        lines.append(f"pair\t{round}\t{seed(round)}")
        for table in range(1, players // 2 + 1):
            score = ("2\t0\t0", "1\t2\t0", "2\t1\t0")[(table + round) % 3]
            lines += [f"result\t{round}\t{table}\t{score}", *after_each]
    return lines


def to_the_champion(players, rounds, cut):
    lines, stage, slots = [*played(players, rounds, cut), "cut"], 1, cut // 2
    while slots:
        lines += [f"playoff\t{stage}\t{slot}\t2\t1\t0" for slot in range(1, slots + 1)]
        stage, slots = stage + 1, slots // 2
    return [*lines, "bracket", "standings"]
