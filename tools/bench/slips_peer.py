"""Slips over HTTP by Python's `http.server` and `sqlite3`, as an engineer might write them in an hour, to time the program beside. It answers
GET /standings and POST /rounds/ROUND/tables/TABLE from an event's file, which it reads anew for each request. Shares are whole numbers over a
common denominator, so the standings are exact. They are worked out here and not by the plain reading on purpose: that one is slow, and
this is to be as fast as it is easily made.
"""
import argparse
import http.server
import json
import math
import re
import sqlite3

# over it each average of at most 12 shares is whole
WHOLE = 3 * math.lcm(*range(1, 73)) * math.lcm(*range(1, 13))
LEAST = WHOLE * 33 // 100


def share(points, parts):
    return max(LEAST, WHOLE * points // (3 * parts)) if parts else LEAST


def printed(value):
    n = (20000 * value + WHOLE) // (2 * WHOLE)
    return f"{n // 100}.{n % 100:02}"


def standings(base):
    players = base.execute("SELECT no, name, dropped FROM player2 ORDER BY no").fetchall()
    joined = base.execute("SELECT no, joined FROM player2 WHERE joined > 0").fetchall()
    rows = base.execute("SELECT round, lo, hi, swapped, done, x, y, d FROM pairing").fetchall()
    is_open = {row[0] for row in rows if not row[4]}
    total = {no: [0, 0, 0, 0] for no, _, _ in players}
    met = {no: [] for no, _, _ in players}
    for number, lo, hi, swapped, _, x, y, d in rows:
        if number in is_open:
            continue
        a, b = (hi, lo) if swapped else (lo, hi)
        for one, other, won, lost in ((a, b, x, y), (b, a, y, x)):
            if one:
                mine = total[one]
                mine[0] += 3 if won > lost else won == lost
                mine[1] += 1
                mine[2] += 3 * won + d
                mine[3] += x + y + d
                if other:
                    met[one].append(other)
    complete = {row[0] for row in rows} - is_open
    for no, rounds in joined:
        total[no][1] += len(complete & {*range(1, rounds + 1)})
    match_wins = {no: share(points, rounds) for no, (points, rounds, _, _) in total.items()}
    game_wins = {no: share(points, games) for no, (_, _, points, games) in total.items()}

    def mean(shares, others):
        return sum(shares[it] for it in others) // len(others) if others else LEAST

    def line(no, name, dropped):
        return (
            -total[no][0],
            -mean(match_wins, met[no]),
            -game_wins[no],
            -mean(game_wins, met[no]),
            no,
            name,
            dropped,
        )

    lines = sorted(line(*player) for player in players)
    text, before, rank = "Rank   No Pts    OMW    GWP    OGW D Name\n", None, 0
    for place, (*merit, no, name, dropped) in enumerate(lines, 1):
        if merit != before:
            before, rank = merit, place
        shares = " ".join(f"{printed(-it):>6}" for it in merit[1:])
        text += f"{rank:4} {no:4} {-merit[0]:3} {shares} {'D' if dropped else ' '} {name}\n"
    return text.encode()


def report(base, number, table, score):
    """Stores a score if there is none, and gives the serial."""
    base.execute("BEGIN IMMEDIATE")
    values = score["a"], score["b"], score["d"], number, table
    stored = base.execute(
        "UPDATE pairing SET done = 1, x = ?, y = ?, d = ? WHERE round = ? AND tab = ? AND done = 0", values
    )
    if stored.rowcount != 1:
        base.execute("ROLLBACK")
        return None
    base.execute("UPDATE event SET serial = serial + 1")
    serial = base.execute("SELECT serial FROM event").fetchone()[0]
    base.execute("COMMIT")
    return serial


class Handler(http.server.BaseHTTPRequestHandler):
    protocol_version = "HTTP/1.1"

    def send(self, status, kind, body):
        self.send_response(status)
        self.send_header("Content-Type", kind)
        self.send_header("Content-Length", str(len(body)))
        self.send_header("Connection", "close")
        self.end_headers()
        self.wfile.write(body)

    def do_GET(self):
        self.send(200, "text/plain; charset=utf-8", standings(self.server.base))

    def do_POST(self):
        number, table = re.fullmatch("/rounds/([0-9]+)/tables/([0-9]+)", self.path).groups()
        serial = report(
            self.server.base,
            int(number),
            int(table),
            json.loads(self.rfile.read(int(self.headers["Content-Length"]))),
        )
        self.send(
            200 if serial else 409,
            "application/json",
            json.dumps({"serial": serial}, separators=(",", ":")).encode(),
        )

    def log_message(self, *_):
        pass


def main():
    # it is started by its path, and so knows no module of the scripts
    words = argparse.ArgumentParser(description=__doc__)
    words.add_argument("file", metavar="FILE", help="the event's file")
    base = sqlite3.connect(words.parse_args().file, isolation_level=None)
    base.execute("PRAGMA synchronous = FULL")
    with http.server.HTTPServer(("127.0.0.1", 0), Handler) as server:
        server.base = base
        print(f"listening {server.server_port}", flush=True)
        server.serve_forever()


if __name__ == "__main__":
    main()
