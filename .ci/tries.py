"""Tries of copies, by `rt try`, which proves nothing."""
import os
import signal
import subprocess
import threading
import time

from crates import read, write


def tried(folder, *words):
    """What `rt try` says of the crate in a folder, tried with these words. It may run beside proofs, so a test may take
    long before it is said to hang."""
    words = ["rt", "try", "--seconds", "900", *words]
    how = {"stdin": subprocess.DEVNULL, "stdout": subprocess.PIPE, "stderr": subprocess.STDOUT}
    how["env"] = {**os.environ, "RT_ALLOW_C": "ld_trial"}
    with subprocess.Popen(words, cwd=folder, text=True, errors="replace", **how) as process:
        threading.Thread(target=tend, args=[process], daemon=True).start()
        return process.communicate()[0]


def tend(process):
    """Sees that `rt try` takes no more than it has to. Where Linux gives each session its own share of the processors,
    its tool, which has a session of its own, gets the share of this one. A check that it starts beside the tests, for
    hints that nothing reads here, is ended."""
    while process.poll() is None:
        try:
            share = read("/proc/self/autogroup").split()[-1] if os.access("/proc/self/autogroup", os.W_OK) else None
            for child in read(f"/proc/{process.pid}/task/{process.pid}/children").split():
                if "no function" in read(f"/proc/{child}/cmdline"):
                    os.kill(int(child), signal.SIGTERM)
                elif share:
                    write(f"/proc/{child}/autogroup", share)
        except OSError:
            # A process that has ended meanwhile.
            pass
        time.sleep(1)
