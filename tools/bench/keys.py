"""How many keys a round of seventeen tables takes, from the copy before it to the question which tables are open: by command lines, and at the prompt.

    python3 -B -m tools.bench.keys
"""


def main():
    scores = [
        "2 0",
        "2 1",
        "0 2",
        "2 0",
        "1 2",
        "2 1",
        "2 0",
        "0 2",
        "2 1",
        "1 1 1",
        "2 0",
        "2 1",
        "0 2",
        "2 0",
        "1 2",
        "2 0",
        "2 1",
    ]
    lines = [
        "cp friday.event before-pair-1.event",
        'k=$(openssl rand -hex 32); echo "round 1 $k" >> friday.keys',
        "./event_reporter pair friday.event 1 $k",
        "./event_reporter slips friday.event 1",
    ]
    lines += [
        f"./event_reporter result friday.event 1 {table} {score}{' 0' if len(score) == 3 else ''}"
        for table, score in enumerate(scores, 1)
    ]
    lines += ["./event_reporter slips friday.event 1 | awk '$4 == \"-\"'"]
    prompt = ["pair", *(f"{table} {score}" for table, score in enumerate(scores, 1)), "open"]
    before, after = (sum(len(it) + 1 for it in some) for some in (lines, prompt))
    print(f"a round of seventeen tables: {before} keys by command lines, {after} at the prompt")


if __name__ == "__main__":
    main()
