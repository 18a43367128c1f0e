"""The sheets and the board, `companions/bin/event-sheets`, over the program as it is built."""
import os
import pty
import re
import subprocess
import sys

from tests.support.waiting import PATIENCE

# where a browser is looked for, by its commands
BROWSERS = "chromium", "chromium-browser", "google-chrome"
BEFORE = "<p>the page before</p>\n"
# without any package beside
BARE = sys.executable, "-S", "-B"


def timeless(text):
    """A page, or what was printed, without the time at which it was made."""
    return re.sub(r"printed \d{4}-\d\d-\d\d \d\d:\d\d", "printed", text)


class Sheets:
    """The command line, in the folder of an event."""

    def __init__(self, program, companions, room):
        self.program, self.path, self.room = program, f"{companions}/bin/event-sheets", room

    def words(self, *words, python=(sys.executable, "-B")):
        return [*python, self.path, "--program", self.program, *words]

    def printed(self, *words, python=(sys.executable, "-B"), **how):
        """The status, the output and the errors, where the output is no terminal."""
        line = self.words(*words, python=python)
        ran = subprocess.run(
            line, cwd=self.room, stdin=subprocess.DEVNULL, capture_output=True, timeout=PATIENCE, **how
        )
        return ran.returncode, timeless(ran.stdout.decode()), ran.stderr.decode()

    def at_a_terminal(self, *words):
        """The status, and what is said there."""
        line, (child, master) = self.words(*words), pty.fork()
        if child == 0:
            os.chdir(self.room)
            os.execvp(line[0], line)
        said = b""
        try:
            while True:
                said += os.read(master, 65536)
        except OSError:
            os.close(master)
        return os.WEXITSTATUS(os.waitpid(child, 0)[1]), timeless(said.decode().replace("\r\n", "\n"))

    def watching(self, *words):
        """A process that keeps a page up to date."""
        return subprocess.Popen(
            self.words(*words), stdin=subprocess.DEVNULL, stdout=subprocess.PIPE, stderr=subprocess.PIPE
        )

    def read(self, name):
        with open(f"{self.room}/{name}", encoding="utf-8", newline="") as page:
            return timeless(page.read())

    def lay(self, name):
        with open(f"{self.room}/{name}", "w", encoding="utf-8") as page:
            page.write(BEFORE)

    def there(self):
        """What lies there, without the log of the file that was laid by SQL."""
        return sorted(it for it in os.listdir(self.room) if not it.endswith("-wal"))
