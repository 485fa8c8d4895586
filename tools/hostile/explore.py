#!/usr/bin/env python3
"""explore.py [PROGRAM]: what the system can do to pnpexplore, tried on the built program, with counts.

Each k-th allocation, open, read and write fails in a run of its own (fail.c is loaded before the program), for a whole exploration, a part,
parts put together, a count, a script, a bad line and a refused INF: the status says so, and nothing was written, or where a write failed a
front of it. Reads and writes are short or interrupted. Files are bad. Needs python3, and cc for fail.c: without cc those are skipped.
Ends with status 1 where a run ended otherwise than docs/EXPLORE.md says."""
import collections
import os
import shutil
import subprocess
import sys
import tempfile

HERE = os.path.dirname(os.path.abspath(__file__))
TOP = os.path.dirname(os.path.dirname(HERE))
PROGRAM = os.path.abspath(sys.argv[1] if len(sys.argv) > 1 else os.path.join(TOP, "crates/pnpexplore/out/pnpexplore"))
TESTS = os.path.join(TOP, "tools/tests/explore")
DONE, BAD_FAMILY, BAD_WORDS, READ, WRITE, BAD_INF, MEMORY, LARGE, BROKEN, NOT_ALL, BAD_PARTS = range(11)
FAMILY = ["pulled_anywhere.family", "own.inf"]
wrong = []
failed = collections.Counter()


def run(words, env=(), **more):
    full = dict(os.environ)
    full.update(env)
    more.setdefault("stdout", subprocess.PIPE)
    ran = subprocess.run([PROGRAM, *words], stderr=subprocess.PIPE, env=full, timeout=120, check=False, **more)
    return ran.returncode, ran.stdout or b"", ran.stderr


def expect(name, got, status, text=None):
    fine = got[0] == status and got[2] == b"" and (text is None or got[1] == text)
    print("%-60s status %s%s" % (name, got[0], "" if fine else "   WRONG, wanted %s" % status), flush=True)
    if not fine:
        wrong.append(name)


def sweep(room, name, words, variable, counted, allowed):
    """Each k-th call of one kind fails: the status is the one that is allowed and nothing is written (of a write a front), or all is as ever."""
    to = os.path.join(room, "counts")
    base = run(words, {"LD_PRELOAD": room + "/fail.so", "COUNT_TO": to}, cwd=room)
    with open(to, encoding="ascii") as file:
        counts = file.read().split()
    total = int(counts[counts.index(counted) + 1])
    seen = collections.Counter()
    for k in range(1, total + 1):
        status, text, error = run(words, {"LD_PRELOAD": room + "/fail.so", variable: str(k)}, cwd=room)
        same = (status, text) == base[:2]
        front = base[1].startswith(text) if variable == "FAIL_WRITE" else text == b""
        seen["as ever" if same else "status %s" % status] += 1
        if error or not (same or (status in allowed and front)):
            wrong.append("%s %s=%d" % (name, variable, k))
    failed[variable] += total
    told = ", ".join("%d %s" % (n, what) for what, n in sorted(seen.items()))
    print("%-24s %-12s %5d runs: %s" % (name, variable, total, told or "no such call"), flush=True)


def failing_calls(room):
    cc = shutil.which("cc")
    if not cc:
        print("skipped: calls that fail (there is no cc)")
        return
    subprocess.run([cc, "-O2", "-shared", "-fPIC", "-o", room + "/fail.so", os.path.join(HERE, "fail.c"), "-ldl"], check=True)
    for name, words, wanted in (
        ("whole", FAMILY, DONE),
        ("with expectations", ["--never", "refused pull", "--always=join", "--endings", "1", "--exact", *FAMILY], BROKEN),
        ("part", ["--part", "2/2", *FAMILY], DONE),
        ("parts put together", ["--from", "1.part", "--from", "2.part", *FAMILY], DONE),
        ("first", ["--first", "2", *FAMILY], NOT_ALL),
        ("count", ["--count", FAMILY[0]], DONE),
        ("script", ["--script", "3", FAMILY[0]], DONE),
        ("bad line", ["open_block.family"], BAD_FAMILY),
        ("refused INF", [FAMILY[0], "empty.family"], BAD_INF),
        ("bad parts", ["--from", "1.part", "--from", "1.part", *FAMILY], BAD_PARTS),
    ):
        whole = run(words, cwd=room)
        expect(name, whole, wanted)
        for variable, counted, allowed in (("FAIL_ALLOC", "alloc", [MEMORY]), ("FAIL_OPEN", "open", [READ]), ("FAIL_READ", "read", [READ]), ("FAIL_WRITE", "write", [WRITE]), ("INTR_READ", "read", []), ("INTR_WRITE", "write", [])):
            sweep(room, name, words, variable, counted, allowed)
        for variable in ("SHORT_READ", "SHORT_WRITE"):
            expect("%s, %s=1" % (name, variable), run(words, {"LD_PRELOAD": room + "/fail.so", variable: "1"}, cwd=room), wanted, whole[1])


def words_and_files(room):
    def at(name, text):
        with open(os.path.join(room, name), "wb") as file:
            file.write(text)
        return name

    def tried(name, words, status, text=None, **more):
        expect(name, run(words, cwd=room, **more), status, text)

    tried("no words", [], BAD_WORDS, b"")
    tried("a word that is not UTF-8", [b"\xff\xfe"], BAD_WORDS, b"")
    tried("64 INFs", ["empty.family"] + ["empty.family"] * 64, BAD_INF, b"inf 1 error 1 line 0\n")
    tried("65 INFs", ["empty.family"] + ["empty.family"] * 65, BAD_WORDS, b"")
    tried("16 patterns", ["--never", "x"] * 16 + ["empty.family"], DONE)
    tried("17 patterns", ["--never", "x"] * 17 + ["empty.family"], BAD_WORDS, b"")
    tried("a family that is not there", ["none"], READ, b"")
    tried("a folder for a family", ["."], READ, b"")
    tried("/dev/zero", ["--count", "/dev/zero"], LARGE, b"")
    tried("16,777,216 bytes of comments", ["--count", at("large", (b"#" * 4095 + b"\n") * 4096)], DONE, b"scripts 1\n")
    tried("one byte more", ["--count", at("large", (b"#" * 4095 + b"\n") * 4096 + b"#")], LARGE, b"")
    tried("as many, with no line feed at the end", ["--count", at("large", (b"#" * 4095 + b"\n") * 4095 + b"#" * 4096)], LARGE, b"")
    tried("a line of 4,096 bytes", ["--count", at("line", b"#" * 4096)], DONE, b"scripts 1\n")
    tried("a line of 4,097 bytes", ["--count", at("line", b"#" * 4097)], BAD_FAMILY, b"family error line 1\n")
    tried("a NUL", ["--count", at("line", b"pull A\\B\\\0\n")], BAD_FAMILY, b"family error line 1\n")
    lines = b"".join(b"pull A\\B\\%d\n" % k for k in range(512))
    tried("1,024 lines in one together", ["--count", at("wide", b"together\n" + lines + b"and\n" + lines + b"end\n")], DONE, b"scripts more than 18446744073709551614\n")
    tried("one more", ["--count", at("wide", b"together\n" + lines + b"and\n" + lines + b"pull A\\B\\X\nend\n")], LARGE, b"")
    deep = b"either\n" * 100000 + b"end\n" * 100000
    tried("100,000 blocks, one in another", ["--count", at("deep", deep)], DONE, b"scripts 1\n")
    tried("the same, and one is open", ["--count", at("deep", deep[:-4])], BAD_FAMILY, b"family error line 1\n")
    with open("/dev/full", "wb") as full:
        tried("a full disk", FAMILY, WRITE, stdout=full)
    there, here = os.pipe()
    os.close(there)
    tried("a pipe that nobody reads", FAMILY, WRITE, stdout=here)
    os.close(here)
    tried("standard output closed", FAMILY, WRITE, stdout=None, preexec_fn=lambda: os.close(1))


def main():
    if not os.path.exists(PROGRAM):
        raise SystemExit("there is no program %s: build it by bin/pnpexplore, or name one" % PROGRAM)
    with tempfile.TemporaryDirectory() as room:
        for name in os.listdir(TESTS):
            shutil.copy(os.path.join(TESTS, name), room)
        for part in ("1", "2"):
            with open(os.path.join(room, part + ".part"), "wb") as file:
                file.write(run(["--part", part + "/2", *FAMILY], cwd=room)[1])
        words_and_files(room)
        failing_calls(room)
    for variable, total in failed.items():
        print("%-12s %6d runs in all" % (variable, total))
    print("%d wrong" % len(wrong))
    for name in wrong:
        print("   " + name)
    return 1 if wrong else 0


if __name__ == "__main__":
    sys.exit(main())
