"""What a script expects of its run, in comments of its own: lines that begin with `#!`.

    #! never PATTERN            no line of the trace fits
    #! always PATTERN           a line of the trace fits
    #! in-order PATTERN; ..     lines of the trace fit, one after another in this order; others may stand between them
    #! end PATH STATE           the tree at the end has the device in this state; behind it `problem CODE`, if that is wanted too
    #! end PATH gone            the tree at the end has no device of the path
    #! problems none            no device has a problem at the end
    #! problems CODE ..         devices have just these problems at the end, in any order
    #! map RANGE HOLDER         the map at the end has this line
    #! outstanding none         no request is outstanding at the end
    #! outstanding PATH REQUEST one of the device is
    #! status N                 the run ends with status N; without this line with 0

A PATTERN is 1 to 16 words, of which `*` is any one. A line fits where its first words are those of the pattern. `violation`, alone, is
every answer that a driver may not give (`* * * violation`), and `veto`, alone, every end of an operation that was refused (`end * * veto`).
"""
import re

STATES = ("NoStack", "NotStarted", "Started", "StopPending", "Stopped", "RemovePending", "SurpriseRemoved")
ALONE = {"violation": "* * * violation", "veto": "end * * veto"}
NODE = re.compile(r" *\d+ (\S+) (\S+)(?: problem (\S+))?")
PARTS = ("tree", "map", "outstanding", "handles")


class Output:
    """What a run wrote: the lines of its trace, and those of each part of its end."""

    def __init__(self, data):
        lines = data.decode("latin-1").split("\n")[:-1]
        at = lines.index("tree") if "tree" in lines else len(lines)
        self.trace, self.parts = lines[:at], {}
        for line in lines[at:]:
            if line in PARTS:
                part = self.parts.setdefault(line, [])
            else:
                part.append(line)
        nodes = [NODE.fullmatch(it) for it in self.parts.get("tree", [])]
        # The states and problems by path, as the paths are compared: without regard to case.
        self.nodes = {it[1].lower(): (it[2], it[3]) for it in nodes if it}

    def problems(self):
        """Returns the problems at the end, sorted."""
        return sorted(problem for _, problem in self.nodes.values() if problem)


class NotUnderstood(Exception):
    """A line `#!` that says nothing that is known."""


def words_of(pattern):
    """Returns the words of a pattern."""
    words = ALONE.get(pattern.strip(), pattern).split()
    if not 1 <= len(words) <= 16:
        raise NotUnderstood("a pattern has 1 to 16 words")
    return words


def fits(words, line):
    """Returns whether a line fits a pattern."""
    first = line.split()[: len(words)]
    return len(first) == len(words) and all(wanted in ("*", word) for wanted, word in zip(words, first))


def never(output, _, text):
    """Says which line fits that should not."""
    words = words_of(text)
    return next((f"line {at} is {line}" for at, line in enumerate(output.trace, 1) if fits(words, line)), None)


def always(output, _, text):
    """Says that no line fits."""
    words = words_of(text)
    return None if any(fits(words, it) for it in output.trace) else "no line of the trace fits"


def in_order(output, _, text):
    """Says which pattern no line fits behind those of the patterns before it."""
    at = 0
    for pattern in text.split(";"):
        words = words_of(pattern)
        found = next((k for k in range(at, len(output.trace)) if fits(words, output.trace[k])), None)
        if found is None:
            return f"no line fits {pattern.strip()}" + (f" behind line {at}" if at else "")
        at = found + 1
    return None


def end(output, _, text):
    """Says in which state the device is, where it is another."""
    words = text.split()
    is_gone, is_full = words[1:] == ["gone"], len(words) == 4 and words[2] == "problem"
    if not is_gone and not ((len(words) == 2 or is_full) and words[1] in STATES):
        raise NotUnderstood(f"`end PATH STATE`, with `problem CODE` behind it or not, or `end PATH gone`; a STATE is one of {', '.join(STATES)}")
    state, problem = output.nodes.get(words[0].lower(), ("gone", None))
    if state != words[1] or (is_full and problem != words[3]):
        return f"it is {state}" + (f" with problem {problem}" if problem else " without a problem" if is_full and state != "gone" else "")
    return None


def problems(output, _, text):
    """Says which problems there are, where they are others."""
    wanted = sorted(text.split())
    if not wanted:
        raise NotUnderstood("`problems none`, or their codes")
    found = output.problems()
    return None if found == ([] if wanted == ["none"] else wanted) else f"they are {' '.join(found) or 'none'}"


def in_map(output, _, text):
    """Says that the map has no such line."""
    if len(text.split()) != 2:
        raise NotUnderstood("`map RANGE HOLDER`, as the line stands in the output")
    return None if " ".join(text.split()) in output.parts.get("map", []) else "the map has no such line"


def outstanding(output, _, text):
    """Says what is outstanding, where it is something else."""
    found, words = output.parts.get("outstanding", []), text.split()
    if words == ["none"]:
        return f"{found[0]} is" if found else None
    if len(words) != 2:
        raise NotUnderstood("`outstanding none`, or a path and a request")
    return None if any(it.split()[:2] == words for it in found) else "it is not"


def status(_, given, text):
    """Says with which status the run ended, where it is another."""
    if not re.fullmatch(r"\d{1,3}", text.strip()):
        raise NotUnderstood("`status N`")
    return None if given == int(text) else f"it is {given}"


KINDS = {"never": never, "always": always, "in-order": in_order, "end": end, "problems": problems, "map": in_map, "outstanding": outstanding, "status": status}


def expected_of(script):
    """Returns what a script expects: for each line `#!` its number, its word, and what stands behind it."""
    found = []
    for number, line in enumerate(script.decode("latin-1").split("\n"), 1):
        text = line.strip()
        if text.startswith("#!"):
            word, _, rest = text[2:].strip().partition(" ")
            found.append((number, word, rest.strip()))
    return found


def faults_of(expected, given, data):
    """Returns what is not as a script expects it: a text for each such line, and one where it expects no status and the run ended with another than 0."""
    output, found = Output(data), []
    for number, word, text in expected:
        try:
            if word not in KINDS:
                raise NotUnderstood(f"the words are {', '.join(KINDS)}")
            fault = KINDS[word](output, given, text)
        except NotUnderstood as why:
            fault = f"not understood: {why}"
        if fault:
            found.append(f"line {number}, {word} {text}: {fault}")
    if given and not any(word == "status" for _, word, _ in expected):
        found.append(f"it ended with status {given}")
    return found
