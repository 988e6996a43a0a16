"""Child processes that end when this program ends, however it ends.

Each child leads a process group of its own. An interrupt of this program ends these groups and removes its scratch folders; a
child whose parent was killed is ended by the kernel, rt ends what it has started when rt itself is gone, and the next scratch
folder takes those away that a killed program left.
"""

import atexit
import contextlib
import ctypes
import os
import re
import shutil
import signal
import subprocess
import tempfile
import threading
import time

PR_SET_PDEATHSIG = 1
LIBC = ctypes.CDLL(None, use_errno=True)
RUNNING, FOLDERS, ALONE = set(), set(), threading.RLock()
ENDING = threading.Event()


def die_with_parent():
    """Runs in the child: the kernel kills it when the thread that started it ends."""
    LIBC.prctl(PR_SET_PDEATHSIG, signal.SIGKILL)


def end_with_parent():
    """Has the kernel ask this program to end when its parent is gone."""
    LIBC.prctl(PR_SET_PDEATHSIG, signal.SIGTERM)


def start(words, **how):
    """Starts a child. What it is given as standard input is nothing, unless `how` says so."""
    how = {"stdin": subprocess.DEVNULL, "start_new_session": True, "preexec_fn": die_with_parent, **how}
    with ALONE:
        if ENDING.is_set():
            raise SystemExit(1)
        # pylint: disable-next=consider-using-with,subprocess-popen-preexec-fn
        child = subprocess.Popen(words, **how)
        RUNNING.add(child)
    return child


def run(words, **how):
    """Runs a child to its end, and gives its status and what it wrote to both streams, as text."""
    how = {"stdout": subprocess.PIPE, "stderr": subprocess.STDOUT, "text": True, "errors": "replace", **how}
    child = start(words, **how)
    told = child.communicate()[0]
    ended(child)
    return child.returncode, told


def ended(child):
    """Waits for the child, and forgets it."""
    child.wait()
    with ALONE:
        RUNNING.discard(child)
    return child.returncode


def give_way(words, much=19):
    """The words that run these so that they leave processor time to others, also where the kernel weighs sessions."""
    return ["sh", "-c", f'{{ echo {much} >/proc/self/autogroup; }} 2>/dev/null; exec nice -n {much} "$@"', "sh", *words] if much else words


def is_at_work(pid):
    """Whether the child has not ended. It may not have been waited for."""
    try:
        with open(f"/proc/{pid}/stat", encoding="utf-8") as it:
            return it.read().rpartition(")")[2].split()[0] not in "ZX"
    except OSError:
        return False


def end_all(seconds=5):
    """Ends the groups of all children that still run: they are asked to, and then killed."""
    with ALONE:
        left = list(RUNNING)
        RUNNING.clear()
    for sign in (signal.SIGTERM, signal.SIGKILL):
        for it in left:
            with contextlib.suppress(OSError):
                os.killpg(it.pid, sign)
        until = time.monotonic() + seconds
        while sign == signal.SIGTERM and time.monotonic() < until and any(is_at_work(it.pid) for it in left):
            time.sleep(0.05)


@contextlib.contextmanager
def scratch(name):
    """A new folder, which goes at the end."""
    if ENDING.is_set():
        raise SystemExit(1)
    for it in os.listdir(tempfile.gettempdir()):
        if (of := re.match(r"lrlex-[a-z]+-(\d+)-", it)) and not os.path.exists(f"/proc/{of[1]}"):
            shutil.rmtree(f"{tempfile.gettempdir()}/{it}", ignore_errors=True)
    with tempfile.TemporaryDirectory(prefix=f"lrlex-{name}-{os.getpid()}-", ignore_cleanup_errors=True) as folder:
        FOLDERS.add(folder)
        yield folder
        FOLDERS.discard(folder)


def end_all_at_exit():
    """Has an interrupt, a request to end and a lost terminal end the children first."""

    def end(number, _frame):
        ENDING.set()
        end_all()
        for it in list(FOLDERS):
            shutil.rmtree(it, ignore_errors=True)
        signal.signal(number, signal.SIG_DFL)
        os.kill(os.getpid(), number)

    for number in (signal.SIGINT, signal.SIGTERM, signal.SIGHUP):
        signal.signal(number, end)
    atexit.register(end_all)
