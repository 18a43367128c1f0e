"""Opens the desk in a browser's window."""
from __future__ import annotations

import logging
import os
import shutil
import subprocess
import threading

from event_companions.core.program import Source
from event_companions.phones.door import NO_LIMIT, door_at
from event_companions.phones.serving import server_of
from event_companions.window.site import MOST_BODY, Window
from event_companions.window.worker import Worker

THREADS = 6
# a browser opens its page as a window of its own by one of these
APPLICATIONS = ("chromium", "chromium-browser", "google-chrome")


def serve(source: Source, file: str, port: int = 0, opens: bool = True) -> int:
    logging.getLogger("waitress").setLevel(logging.ERROR)
    door = door_at("127.0.0.1", port, NO_LIMIT, "Another port, as: --port 8090")
    worker = Worker(source, file)
    window = Window(worker, door.getsockname()[1])
    server = server_of(window, door, THREADS, False, most_body=MOST_BODY)
    threading.Thread(target=server.run, name="serves the window", daemon=True).start()
    if not (opens and opened(window.address)):
        print(f"The desk: {window.address}\nThis address is of use once, on this machine.", flush=True)
    else:
        print("The desk is open in the browser.", flush=True)
    print("Ctrl-C ends; what was answered ok is in the file.", flush=True)
    try:
        worker.go_on()
    finally:
        worker.end()
    return 0


def opened(address: str) -> bool:
    if not (os.environ.get("DISPLAY") or os.environ.get("WAYLAND_DISPLAY")):
        return False
    opener = shutil.which("xdg-open")
    if not opener:
        return False
    nothing = subprocess.DEVNULL
    try:
        subprocess.Popen(
            [opener, address], stdin=nothing, stdout=nothing, stderr=nothing, start_new_session=True
        )
    except OSError:
        return False
    return True
