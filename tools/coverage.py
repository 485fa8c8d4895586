"""What the runs of a folder reached of the machine: rows of the state diagram, lines of the trace, refusals, problems."""
from html import escape

import expectations

# The rows of the state diagram: from a state, by a request that ended well or badly, to a state. The first is how a device gets its drivers.
ROWS = [
    ("NoStack", "add", "ok", "NotStarted"),
    ("NotStarted", "START_DEVICE", "ok", "Started"),
    ("NotStarted", "START_DEVICE", "fail", "NotStarted"),
    ("NotStarted", "REMOVE_DEVICE", "ok", "NoStack"),
    ("Started", "QUERY_STOP_DEVICE", "ok", "StopPending"),
    ("Started", "QUERY_STOP_DEVICE", "fail", "Started"),
    ("Started", "CANCEL_STOP_DEVICE", "ok", "Started"),
    ("StopPending", "CANCEL_STOP_DEVICE", "ok", "Started"),
    ("StopPending", "STOP_DEVICE", "ok", "Stopped"),
    ("Stopped", "START_DEVICE", "ok", "Started"),
    ("Stopped", "START_DEVICE", "fail", "Stopped"),
    ("Stopped", "SURPRISE_REMOVAL", "ok", "SurpriseRemoved"),
    ("Started", "QUERY_REMOVE_DEVICE", "ok", "RemovePending"),
    ("Started", "QUERY_REMOVE_DEVICE", "fail", "Started"),
    ("Started", "CANCEL_REMOVE_DEVICE", "ok", "Started"),
    ("RemovePending", "CANCEL_REMOVE_DEVICE", "ok", "Started"),
    ("RemovePending", "REMOVE_DEVICE", "ok", "NoStack"),
    ("Started", "SURPRISE_REMOVAL", "ok", "SurpriseRemoved"),
    ("SurpriseRemoved", "REMOVE_DEVICE", "ok", "NoStack"),
]
MAY_FAIL = ("START_DEVICE", "QUERY_STOP_DEVICE", "QUERY_REMOVE_DEVICE")
EVENTS = "driver teach plug pull disable enable eject relate reserve complete window open close watch unwatch change".split()
OPERATIONS = {
    "disable": ["done", "veto"],
    "eject": ["done", "veto"],
    "surprise": ["done", "waiting"],
    "finish": ["done"],
    "rebalance": ["moved", "nofit", "spent"],
    "change": ["moved", "nofit", "spent", "refused"],
}
TASKS = ["list", "start", *OPERATIONS]
REASONS = {
    "plug": "NoParent SameId WorldFull",
    "pull": "NoDevice RootStays",
    "driver": "SameName RackEmpty",
    "teach": "NoDriver NotTeachable BookFull",
    "disable": "NoDevice RootStays AlreadyDisabled",
    "enable": "NotDisabled",
    "eject": "NoDevice RootStays",
    "relate": "NoDevice Busy SelfRelation SameRelation RelationCycle NotStarted",
    "reserve": "Busy InUse",
    "window": "NoDevice RootStays HasChildren SameWindow",
    "open": "NoDevice RootStays Busy NotStarted",
    "close": "NoDevice NoHandle",
    "watch": "NoDevice Busy NotStarted SameWatch",
    "unwatch": "NoDevice Busy NoWatch",
    "change": "NoDevice RootStays NotStarted",
    "complete": "NoSuchRequest",
}
PROBLEMS = "10 12 22 28 31 39 47 budget held".split()


def whole():
    """Returns all that can be reached: for each part its name and its things, each with a count of 0."""
    lines = [f"event {it}" for it in EVENTS] + ["join", "gone", "listed", "install", "add ok", "add fail", "assign", "nofit", "spent", "fits", "commit"]
    for minor in sorted({row[1] for row in ROWS} - {"add"}):
        lines += [f"{minor} {it}" for it in ("ok", "fail" if minor in MAY_FAIL else "violation", "pend")]
    lines += ["notice QUERY_REMOVE ok", "notice QUERY_REMOVE refuse", "notice REMOVE_CANCELLED", "notice REMOVE_COMPLETE", "declined disable", "declined eject"]
    lines += [f"begin {it}" for it in OPERATIONS] + [f"end {op} {how}" for op, hows in OPERATIONS.items() for how in hows]
    lines += ["handles", "waits", "leave", "ejected"] + [f"skip {it}" for it in TASKS]
    return {
        "rows of the state diagram": dict.fromkeys((" ".join(it) for it in ROWS), 0),
        "lines of the trace": dict.fromkeys(lines, 0),
        "refusals": dict.fromkeys((f"{event} {it}" for event, reasons in REASONS.items() for it in reasons.split()), 0),
        "problems": dict.fromkeys(PROBLEMS, 0),
    }


class Coverage:
    """What was reached, over all runs that were added."""

    def __init__(self):
        self.parts = whole()

    def add(self, data):
        """Adds what one run wrote."""
        states, asked = {}, {}
        for line in expectations.Output(data).trace:
            words = line.split()
            self.count("lines of the trace", line_of(words))
            if words[0] == "refused":
                self.count("refusals", " ".join(words[1:3]))
            elif words[0] == "problem":
                self.count("problems", words[2])
            elif words[0] == "join":
                states[words[2].lower()] = "NoStack"
            else:
                self.walk(words, states, asked)

    def walk(self, words, states, asked):
        """Adds the row of the diagram that a line tells, if it tells one. An answer that comes later is that of the request that waits."""
        if words[0] == "event":
            if words[1] == "complete" and words[2].lower() in asked and words[4] == "fail" and words[3] in MAY_FAIL:
                asked[words[2].lower()] = (words[3], "fail")
            return
        path = words[1].lower() if len(words) > 1 else ""
        if words[0] == "add" and words[3] == "ok" and states.get(path) == "NoStack":
            states[path] = "NotStarted"
            self.count("rows of the state diagram", "NoStack add ok NotStarted")
        elif len(words) == 4 and (words[0] in MAY_FAIL or words[0].endswith(("_DEVICE", "_REMOVAL"))):
            asked[path] = (words[0], "fail" if words[3] == "fail" else "ok")
        elif words[0] == "state" and path in asked:
            minor, how = asked.pop(path)
            self.count("rows of the state diagram", f"{states.get(path, 'NoStack')} {minor} {how} {words[2]}")
            states[path] = words[2]

    def count(self, part, name):
        """Counts a thing, where it is one of those that are known."""
        if name in self.parts[part]:
            self.parts[part][name] += 1

    def table(self):
        """Returns the lines of a text: for each part how much was reached, and what was not."""
        lines = []
        for part, counts in self.parts.items():
            missed = [it for it, count in counts.items() if not count]
            lines.append(f"{part}: {len(counts) - len(missed)} of {len(counts)} reached" + ("; not reached:" if missed else ""))
            lines += [f"    {it}" for it in missed]
        return lines

    def page(self):
        """Returns the same as a page for a browser, with how often each was reached."""
        rows = []
        for part, counts in self.parts.items():
            reached = sum(1 for it in counts.values() if it)
            rows.append(f"<h2>{escape(part)}: {reached} of {len(counts)}</h2>\n<table>")
            rows += [f'<tr{"" if count else " class=missed"}><td>{escape(name)}</td><td>{count or "not reached"}</td></tr>' for name, count in counts.items()]
            rows.append("</table>")
        style = "body{font-family:sans-serif;margin:2rem}td{padding:.1rem 1rem .1rem 0;font-family:monospace}.missed{color:#b00020}"
        head = f'<!DOCTYPE html>\n<html lang="en">\n<head><meta charset="utf-8"><title>What the scripts reach</title><style>{style}</style></head>\n<body>'
        return "\n".join([head, "<h1>What the scripts reach</h1>", *rows, "</body>\n</html>\n"])


def line_of(words):
    """Returns which line of the trace this is, by its fixed words."""
    first = words[0]
    if first in ("event", "begin", "declined", "skip"):
        return " ".join(words[:2])
    if first == "add":
        return f"add {words[3]}"
    if first == "end":
        return f"end {words[1]} {words[3]}"
    if first == "notice":
        return " ".join([*words[:2], *words[4:5]])
    return f"{first} {words[3]}" if len(words) == 4 and first.isupper() else first
