"""Processes that are ended as groups, and folders that go, whatever happens."""
import contextlib
import os
import shutil
import signal
import subprocess
import tempfile
import threading
import time

GRACE = 2.0  # seconds that a program has to end once it was told to


class Stop(Exception):
    """Ends this program with a status."""

    def __init__(self, status, why=None):
        super().__init__(why)
        self.status, self.why = status, why


# ---- signals: one ends all that was started, and this program at once, but not where a process is started that is not known yet
SIGNALS = (signal.SIGINT, signal.SIGTERM, signal.SIGHUP)
is_starting, came, rooms = False, None, []


def stopped(number, _):
    global came
    came = number
    if not is_starting:
        stop_now()


def catch_signals():
    """From now on a signal ends all, and this program."""
    for number in SIGNALS:
        signal.signal(number, stopped)


def stop_now():
    for number in SIGNALS:
        signal.signal(number, signal.SIG_IGN)
    end_all()
    until = time.monotonic() + 2 * GRACE  # parts on other processors take a moment to end
    while any(map(os.path.exists, rooms)) and time.monotonic() < until:
        for room in rooms:
            shutil.rmtree(room, ignore_errors=True)
        time.sleep(0.05)
    os._exit(128 + came)


@contextlib.contextmanager
def room_of_its_own():
    """A folder that goes whatever happens."""
    with tempfile.TemporaryDirectory(prefix="pnpdrive-with.", ignore_cleanup_errors=True) as room:
        rooms.append(room)
        yield room


# ---- processes: each in a group of its own, which is ended as a whole
alive, alive_lock, is_stopping = set(), threading.RLock(), threading.Event()


def start(words, **how):
    """Starts a program in a group of its own; an OSError where it cannot be started."""
    global is_starting
    is_main = threading.current_thread() is threading.main_thread()
    if is_main:
        is_starting = True
    try:
        with alive_lock:
            if is_stopping.is_set():
                raise Stop(130)
            process = subprocess.Popen(words, start_new_session=True, **how)
            alive.add(process)
    finally:
        if is_main:
            is_starting = False
    if is_main and came:
        stop_now()
    return process


def has_ended(process, seconds):
    """Whether a process ends within so many seconds. It is not reaped here, so its group cannot be another's."""
    until = time.monotonic() + seconds
    pause = 0.0005
    try:
        while process.returncode is None and os.waitid(os.P_PID, process.pid, os.WEXITED | os.WNOHANG | os.WNOWAIT) is None:
            if time.monotonic() >= until:
                return False
            time.sleep(pause)
            pause = min(2 * pause, 0.05)
    except ChildProcessError:
        pass  # another thread has reaped it since
    return True


def end(process, seconds=0.0):
    """Gives a process so many seconds, ends it and its group, and returns its status and whether it ended by itself."""
    by_itself = has_ended(process, seconds)
    with alive_lock:
        if process.returncode is None:
            try:
                os.killpg(process.pid, signal.SIGKILL)
            except (ProcessLookupError, PermissionError):
                pass
        status = process.wait()
        alive.discard(process)
    return status, by_itself


def end_all():
    """Ends what was started and not ended, and lets nothing be started any more."""
    is_stopping.set()
    with alive_lock:
        left = list(alive)
    for process in left:
        end(process)


def shown_status(status):
    name = next((one.name for one in signal.Signals if one == -status), "no name")
    return f"with status {status}" if status >= 0 else f"by signal {-status} ({name})"
