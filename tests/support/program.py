"""The program as it is built: its command lines and scripts. An `assert` here is no check: it guards what a test builds on."""
import resource
import signal
import subprocess

from tests.support.waiting import PATIENCE, comes

# what a command line is answered while another program has the file
BUSY = b"refused 25 Store\n"

# what `stand_in` makes of this is killed before a command, if there is FILE.before, or after it, if there is FILE.behind. The prompt asks with `drop 0` and
# with an empty name in which phase the event is: these are answered.
LOSSY = """
case "$1 $3" in "drop 0" | "enrol ") exec "$REAL" "$@";; esac
case $1 in result | correct | pair | drop | cut | playoff | start | enrol)
    if [ -e "$2.before" ]; then rm "$2.before"; kill -9 $$; fi
    if [ -e "$2.behind" ]; then rm "$2.behind"; "$REAL" "$@" > "$2.out" 2>&1; kill -9 $$; fi
esac
exec "$REAL" "$@"
"""


class Program:
    def __init__(self, path):
        self.path = path

    def run(self, *words, **how):
        """The status, the output and the errors of a command line."""
        how.setdefault("stdin", subprocess.DEVNULL)
        ran = subprocess.run(
            [how.pop("path", self.path), *words], capture_output=True, timeout=PATIENCE, **how
        )
        return ran.returncode, ran.stdout, ran.stderr

    def fed(self, data, *words):
        """The same where it reads these bytes: as a script, if there are no words."""
        ran = subprocess.run([self.path, *words], input=data, capture_output=True, timeout=PATIENCE)
        return ran.returncode, ran.stdout, ran.stderr

    def did(self, *words):
        """What a command line prints that has to be taken. While another program has the file, it is sent again, as a scorekeeper would."""
        ran = []

        def is_answered():
            ran.append(self.run(*words))
            return ran[-1][2] != BUSY

        comes(is_answered)
        status, out, err = ran[-1]
        assert status == 0, (words, status, err)
        return out

    def narrowly(self, most, *words):
        """A command line while no file can have more bytes than these."""

        def narrow():
            signal.signal(signal.SIGXFSZ, signal.SIG_IGN)
            resource.setrlimit(resource.RLIMIT_FSIZE, (most, most))

        return self.run(*words, preexec_fn=narrow, restore_signals=False)

    def played(self, file, lines=(), title="Friday", rounds=3, cut=0):
        """An event in a file, of which these lines are taken: `["enrol", "Ana"]`."""
        self.did("init", file, title, str(rounds), str(cut))
        for name, *rest in lines:
            self.did(name, file, *rest)
        return file


def laid(room, name, data):
    """A file with these bytes."""
    with open(f"{room}/{name}", "wb") as it:
        it.write(data)
    return f"{room}/{name}"
