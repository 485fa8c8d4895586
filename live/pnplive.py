"""The other side of `pnpdrive` in Python: a class with a method for each request (docs/LIVE.md). The standard library alone.

    import pnplive

    class Disk(pnplive.Driver):
        def query_remove_device(self, path, driver):
            return pnplive.FAIL

    pnplive.run(Disk())

    bin/pnpdrive-with --live disk 'python3 my_disk.py' disk.pnp disk.inf
"""
import collections
import re
import sys

OK, FAIL, PEND = "ok", "fail", "pend"
PORT, IRQ, MEM, DMA, BUS = "port", "irq", "mem", "dma", "bus"

Resource = collections.namedtuple("Resource", "kind low high shared")
Completion = collections.namedtuple("Completion", "path minor answer")

TAG = re.compile(r"[A-Za-z0-9_.-]{1,64}\Z")
RANGE = re.compile(r"(port|irq|mem|dma|bus):(0x[0-9a-fA-F]+|[0-9]+)-(0x[0-9a-fA-F]+|[0-9]+)(:shared)?\Z")
REQUESTS = ("START_DEVICE", "QUERY_REMOVE_DEVICE", "REMOVE_DEVICE", "CANCEL_REMOVE_DEVICE", "STOP_DEVICE", "QUERY_STOP_DEVICE", "CANCEL_STOP_DEVICE", "SURPRISE_REMOVAL")


class ProtocolError(Exception):
    """A line of the manager that is not understood, or an answer that it would not understand."""


class Driver:
    """Answers ok to all. A method that is overridden answers OK, FAIL or, but for `add`, PEND; what was pended is completed by `complete`."""

    def __init__(self):
        self._due = collections.deque()
        self._tags = []

    def add(self, path, driver):
        return OK

    def start_device(self, path, driver, resources):
        return OK

    def query_remove_device(self, path, driver):
        return OK

    def remove_device(self, path, driver):
        return OK

    def cancel_remove_device(self, path, driver):
        return OK

    def stop_device(self, path, driver):
        return OK

    def query_stop_device(self, path, driver):
        return OK

    def cancel_stop_device(self, path, driver):
        return OK

    def surprise_removal(self, path, driver):
        return OK

    def probe(self, path, driver):
        """Would a request of a program be taken now (OK), refused (FAIL) or queued (PEND)?"""
        return OK

    def poll(self):
        """A Completion of what was pended, or None. Without another text: the oldest that `complete` was called with."""
        return self._due.popleft() if self._due else None

    def heard(self, line):
        """Each line of the manager that is no ask of ours: the trace, as docs/LANGUAGE.md describes it."""

    def complete(self, path, minor, answer=OK):
        """A request that was pended is over: told at the next poll."""
        if minor not in REQUESTS or answer not in (OK, FAIL):
            raise ProtocolError(f"no completion: {path} {minor} {answer}")
        self._due.append(Completion(path, minor, answer))

    def broke(self, tag):
        """Tells with the next answer that a rule was broken."""
        if not TAG.match(tag):
            raise ProtocolError(f"no tag: {tag}")
        if tag not in self._tags:
            self._tags.append(tag)

    def take_tags(self):
        """The tags that were not told, which are then told."""
        tags, self._tags = self._tags, []
        return tags


def resource_of(word):
    """Reads a resource, as `port:0x3f8-0x3ff` or `irq:16-16:shared`."""
    found = RANGE.match(word)
    if not found:
        raise ProtocolError(f"no resource: {word}")
    return Resource(found[1], int(found[2], 0), int(found[3], 0), found[4] is not None)


def answer_to(driver, words):
    """Returns the words of the answer to an ask, of which the words stand behind its number."""
    if words == ["poll"]:
        done = driver.poll()
        return ["none"] if done is None else ["complete", done.path, done.minor, done.answer, *driver.take_tags()]
    what, path, name, *rest = words
    if what in ("add", "probe"):
        answer = getattr(driver, what)(path, name)
    elif what == "START_DEVICE":
        answer = driver.start_device(path, name, [resource_of(word) for word in rest])
    elif what in REQUESTS:
        answer = getattr(driver, what.lower())(path, name)
    else:
        raise ProtocolError(f"no request: {what}")
    if answer not in ((OK, FAIL) if what == "add" else (OK, FAIL, PEND)):
        raise ProtocolError(f"no answer to {what}: {answer!r}")
    return [answer, *driver.take_tags()]


def run(driver, asks=None, answers=None):
    """Answers until the manager has ended. Files of lines may stand for standard input and output."""
    asks = sys.stdin if asks is None else asks
    answers = sys.stdout if answers is None else answers
    print("live 1", file=answers, flush=True)
    for line in asks:
        line = line.rstrip("\n")
        if not line.startswith("# ask "):
            driver.heard(line)
            continue
        number, *words = line.split(" ")[2:]
        try:
            print(number, *answer_to(driver, words), file=answers, flush=True)
        except ValueError as error:
            raise ProtocolError(f"an ask is not understood: {line}") from error
