"""Commands that the tool starts, which end with it."""
from __future__ import annotations

import contextlib
import os
import shutil
import signal
import subprocess
import tempfile
import threading
import time
from collections.abc import Iterator, Sequence

RUNNING, STARTING = set(), threading.RLock()


@contextlib.contextmanager
def started(words: Sequence[str], folder: str) -> Iterator[subprocess.Popen]:
    """Starts a command, whose output the caller reads. The command and its own processes end with
    the tool."""
    how = {"stdin": subprocess.DEVNULL, "stdout": subprocess.PIPE, "stderr": subprocess.STDOUT, "text": True, "errors": "replace"}
    with STARTING:
        ran = subprocess.Popen(words, cwd=folder, start_new_session=True, **how)
        RUNNING.add(ran)
    try:
        with ran:
            yield ran
    finally:
        RUNNING.discard(ran)


def stop(*_: object) -> None:
    """Ends all commands, and the tool, at the first Ctrl-C. Nothing starts any more, since the lock
    is kept."""
    STARTING.acquire()
    for it in [*RUNNING]:
        with contextlib.suppress(ProcessLookupError):
            os.killpg(it.pid, signal.SIGKILL)
    # A copy for the next check continues until that check would start.
    for _ in range(40):
        shutil.rmtree(tempfile.tempdir, ignore_errors=True)
        time.sleep(0.05)
        if not os.path.exists(tempfile.tempdir):
            break
    os._exit(130)
