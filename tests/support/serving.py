"""The program as it serves a file, and its clients: what each sends, and what comes back."""
import random
import re
import select
import signal
import socket
import subprocess

from tests.support.waiting import PATIENCE

SILENCE = b" .. and then nothing came"


# at another address of this machine, so that no other script takes the same ports
claims = []


def free_port():
    """A port that nobody holds, below those that the kernel gives to clients, so that it is still free when it is taken again. It is claimed until the
    script ends."""
    while True:
        port, claim = random.randrange(20_000, 32_000), socket.socket()
        try:
            claim.bind(("127.0.0.2", port))
            with socket.socket() as it:
                it.bind(("127.0.0.1", port))
            claims.append(claim)
            return port
        except OSError:
            claim.close()


def sent_whole(client, sent):
    """Sends the bytes. If the other side has closed already, the rest isn't sent."""
    try:
        client.sendall(sent)
    except ConnectionError:
        pass


def sent_to_the_end(client, sent):
    """Sends the bytes, and that no more come."""
    sent_whole(client, sent)
    try:
        client.shutdown(socket.SHUT_WR)
    except OSError:
        pass


def received(client):
    """All that comes, until the other side closes. A reset closes too, where bytes were sent that it didn't read."""
    came = b""
    while True:
        try:
            more = client.recv(65_536)
        except ConnectionError:
            return came
        except socket.timeout:
            return came + SILENCE
        if not more:
            return came
        came += more


def hear_interrupts():
    """If these scripts run behind others, the shell may have had Ctrl-C ignored."""
    signal.signal(signal.SIGINT, signal.SIG_DFL)


class Serving:
    """`serve` as a process of its own, from the line `listening PORT` on. It doesn't outlive the `with` that it stands in."""

    def __init__(self, program, file, count, port=0, **how):
        words = self.words(program, file, count, port)
        self.process = subprocess.Popen(
            words, stdin=subprocess.DEVNULL, stdout=subprocess.PIPE, stderr=subprocess.PIPE, **how
        )
        is_there, _, _ = select.select([self.process.stdout], [], [], PATIENCE)
        line = self.process.stdout.readline() if is_there else b""
        found = re.fullmatch(rb"listening ([0-9]+)\n", line)
        if not found:
            self.kill()
            raise OSError(f"{words}: {line}, and not the port that it listens on")
        self.port = int(found[1])

    def words(self, program, file, count, port):
        return [program, "serve", file, str(port), str(count)]

    def __enter__(self):
        return self

    def __exit__(self, *_):
        self.kill()

    def kill(self):
        self.process.kill()
        self.process.communicate(timeout=PATIENCE)

    def client(self):
        client = socket.create_connection(("127.0.0.1", self.port), timeout=PATIENCE)
        client.setsockopt(socket.IPPROTO_TCP, socket.TCP_NODELAY, 1)
        return client

    def ask(self, sent, ends=True):
        """The answer to these bytes, sent in one piece. `ends`: the input ends behind them, and doesn't stay open."""
        try:
            with self.client() as client:
                (sent_to_the_end if ends else sent_whole)(client, sent)
                return received(client)
        except ConnectionError as fault:
            return f"no connection: {fault}".encode()

    def ask_slowly(self, sent, pieces):
        """The same, sent in these pieces. The input stays open."""
        with self.client() as client:
            at = 0
            for size in pieces:
                sent_whole(client, sent[at : at + size])
                at += size
            return received(client)

    def end(self):
        """The status, and what was printed after the line with the port."""
        try:
            out, err = self.process.communicate(timeout=PATIENCE)
        except subprocess.TimeoutExpired:
            return None, b"it is still serving", b""
        return self.process.returncode, out, err


def served(count):
    return 0, b"served %d\n" % count, b""
