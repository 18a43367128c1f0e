"""Waiting for what another process does."""
import time

# nothing takes this many seconds, however much else runs: what is waited for longer hangs
PATIENCE = 240


def comes(is_so, seconds=PATIENCE):
    """Whether it comes to be so, in good time."""
    until = time.monotonic() + seconds
    while not is_so():
        if time.monotonic() > until:
            return False
        time.sleep(0.02)
    return True
