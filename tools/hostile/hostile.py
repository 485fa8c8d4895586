#!/usr/bin/env python3
"""hostile.py [PROGRAM]: what the system can do to the program, tried on the built program, with counts.

Each k-th allocation, open, read and write fails in a run of its own (fail.c is loaded before the program), reads and writes
are short or interrupted, and words, files and pipes are bad. Needs python3, and cc for fail.c: without cc those are skipped.
Ends with status 1 where a run ended otherwise than docs/LANGUAGE.md says."""
import collections, os, resource, shutil, subprocess, sys, tempfile, threading, time

HERE = os.path.dirname(os.path.abspath(__file__))
TOP = os.path.dirname(os.path.dirname(HERE))
PROGRAM = sys.argv[1] if len(sys.argv) > 1 else os.path.join(TOP, "crates/pnpmgr/out/pnpmgr")
EXAMPLES = os.path.join(TOP, "examples")
DONE, BAD_SCRIPT, BAD_WORDS, READ, WRITE, BAD_INF, MEMORY, LARGE, NOT_A_RUN = range(9)
LIMIT = 16777216
END = b"tree\n0 HTREE\\ROOT\\0 Started\nmap\noutstanding\n"
wrong = []
failed = collections.Counter()


def run(words, env=(), **more):
    full = dict(os.environ)
    full.update(env)
    more.setdefault("stdout", subprocess.PIPE)
    try:
        p = subprocess.run([PROGRAM] + words, stderr=subprocess.PIPE, env=full, timeout=120, **more)
    except subprocess.TimeoutExpired:
        return None, b"", b"hangs"
    return p.returncode, p.stdout or b"", p.stderr


def expect(name, got, status, text=None):
    fine = got[0] == status and got[2] == b"" and (text is None or got[1] == text)
    print("%-60s status %s%s" % (name, got[0], "" if fine else "   WRONG, wanted %s" % status), flush=True)
    if not fine:
        wrong.append(name)


def sweep(so, name, words, variable, counted, allowed):
    """Each k-th call of one kind fails: the status is one of those allowed and the output a front, or all is as ever."""
    with tempfile.TemporaryDirectory() as d:
        to = os.path.join(d, "counts")
        base = run(words, {"LD_PRELOAD": so, "COUNT_TO": to})
        counts = open(to).read().split() if os.path.exists(to) else []
    total = int(counts[counts.index(counted) + 1]) if counts else 0
    seen = collections.Counter()
    for k in range(1, total + 1):
        status, text, error = run(words, {"LD_PRELOAD": so, variable: str(k)})
        same = (status, text) == base[:2]
        fine = error == b"" and (same or (status in allowed and base[1].startswith(text)))
        seen["as ever" if same else "status %s" % status] += 1
        if not fine:
            wrong.append("%s %s=%d" % (name, variable, k))
    failed[variable] += total
    told = ", ".join("%d %s" % (n, what) for what, n in sorted(seen.items()))
    print("%-24s %-12s %5d runs: %s" % (name, variable, total, told or "no such call"), flush=True)


def swept():
    """A name, the words and the wanted output of each script whose calls fail: the four of scripts/, and three examples."""
    own = os.path.join(HERE, "scripts")
    for name in ("chain", "veto", "failed_restart", "clients"):
        yield "scripts/" + name, [os.path.join(own, name + ".pnp"), os.path.join(own, "own.inf")], os.path.join(own, name + ".out")
    for name in ("rebalance_chain", "veto", "failed_restart"):
        folder = os.path.join(EXAMPLES, name)
        infs = sorted(f for f in os.listdir(folder) if f.endswith(".inf"))
        yield name, [os.path.join(folder, f) for f in [name + ".pnp"] + infs], os.path.join(folder, name + ".out")


def failing_calls(d):
    cc = shutil.which("cc")
    if not cc:
        print("skipped: calls that fail (there is no cc)")
        return
    so = os.path.join(d, "fail.so")
    subprocess.run([cc, "-O2", "-shared", "-fPIC", "-o", so, os.path.join(HERE, "fail.c"), "-ldl"], check=True)
    for name, words, out in swept():
        with open(out, "rb") as it:
            wanted = it.read()
        whole = run(words)
        expect(name, whole, DONE, wanted)
        sweep(so, name, words, "FAIL_ALLOC", "alloc", [MEMORY])
        sweep(so, name, words, "FAIL_OPEN", "open", [READ])
        sweep(so, name, words, "FAIL_READ", "read", [READ])
        sweep(so, name, words, "FAIL_WRITE", "write", [WRITE])
        sweep(so, name, words, "INTR_READ", "read", [])
        sweep(so, name, words, "INTR_WRITE", "write", [])
        for variable in ("SHORT_READ", "SHORT_WRITE"):
            expect("%s, %s=1" % (name, variable), run(words, {"LD_PRELOAD": so, variable: "1"}), whole[0], whole[1])
    sweep(so, "--gen 2", ["--gen", "2"], "FAIL_ALLOC", "alloc", [MEMORY])
    sweep(so, "--gen 2", ["--gen", "2"], "FAIL_WRITE", "write", [WRITE])
    checked = [os.path.join(EXAMPLES, "veto", name) for name in ("veto.out", "veto.pnp", "veto.inf")]
    words = ["--check"] + checked
    expect("--check", run(words), DONE, b"yes\n")
    for variable, counted, allowed in (("FAIL_ALLOC", "alloc", MEMORY), ("FAIL_OPEN", "open", READ), ("FAIL_READ", "read", READ), ("FAIL_WRITE", "write", WRITE)):
        sweep(so, "--check", words, variable, counted, [allowed])


def words_and_files(d):
    at = lambda name: os.path.join(d, name)
    open(at("empty"), "wb").close()
    expect("no words", run([]), BAD_WORDS, b"")
    expect("a word that is not UTF-8", run([b"\xff\xfe"]), BAD_WORDS, b"")
    expect("64 INFs", run([at("empty")] + [at("empty")] * 64), BAD_INF, b"inf 1 error 1 line 0\n")
    expect("65 INFs", run([at("empty")] + [at("empty")] * 65), BAD_WORDS, b"")
    expect("10,000 words", run(["w"] * 10000), BAD_WORDS, b"")
    expect("--gen and a script", run(["--gen", "1", at("empty")]), BAD_WORDS, b"")
    expect("--gen and --check", run(["--gen", "1", "--check", at("empty")]), BAD_WORDS, b"")
    expect("--check without a script", run(["--check", at("empty")]), BAD_WORDS, b"")
    expect("--check, all empty", run(["--check", at("empty"), at("empty")]), NOT_A_RUN, b"no line 1\n")
    expect("--check of a folder", run(["--check", d, at("empty")]), READ, b"")
    expect("--gen 401", run(["--gen", "401"]), BAD_WORDS, b"")
    expect("--gen 50", run(["--gen", "50"]), DONE, b"devices 50\nsteps 765\nstarted 51\nproblem12 0\nmoved 1\n")
    expect("an empty script", run([at("empty")]), DONE, END)
    expect("/dev/null", run(["/dev/null"]), DONE, END)
    expect("a script that is not there", run([at("none")]), READ, b"")
    expect("an empty name", run([""]), READ, b"")
    expect("a name of 100,000 bytes", run(["n" * 100000]), READ, b"")
    expect("a folder for a script", run([d]), READ, b"")
    if os.getuid() != 0:
        open(at("locked"), "wb").close()
        os.chmod(at("locked"), 0)
        expect("a script without leave to read", run([at("locked")]), READ, b"")
    else:
        print("skipped: a script without leave to read (root may read all)")
    expect("/dev/zero", run(["/dev/zero"]), BAD_SCRIPT, b"script error line 1\n" + END)
    with open("/dev/full", "wb") as full:
        expect("a full disk", run([at("empty")], stdout=full), WRITE)
    there, here = os.pipe()
    os.close(there)
    expect("a pipe that nobody reads", run([at("empty")], stdout=here), WRITE)
    os.close(here)
    expect("standard output closed", run([at("empty")], stdout=None, preexec_fn=lambda: os.close(1)), WRITE)


def sizes(d):
    at = lambda name: os.path.join(d, name)
    line = b"#" * 4095 + b"\n"
    for name, text, status, told in (
        ("16,777,216 bytes of comments", line * 4096, DONE, END),
        ("one byte more", line * 4096 + b"#", LARGE, b""),
        ("17,000,000 bytes without LF", b"#" * 17000000, BAD_SCRIPT, b"script error line 1\n" + END),
        ("a bad line before the limit, and more behind it", b"plag\n" + line * 4100, BAD_SCRIPT, b"script error line 1\n" + END),
        ("a bad line behind the limit", line * 4096 + b"plag\n", LARGE, b""),
    ):
        with open(at("large"), "wb") as out:
            out.write(text)
        began = time.time()
        expect(name, run([at("large")]), status, told)
        print("    %.2f s" % (time.time() - began), flush=True)
    print("    most memory of any run so far: %d KB" % resource.getrusage(resource.RUSAGE_CHILDREN).ru_maxrss, flush=True)


OWN_INF = rb'''[Version]
Signature="$Windows NT$"
[Manufacturer]
Own=M
[M]
Device=I,OWN\DEV
[I.Services]
AddService=dev,2,S
'''


def extremes(d):
    """The greatest worlds, books, lines and searches, and one more of each."""
    at = lambda name: os.path.join(d, name)
    with open(at("own.inf"), "wb") as out:
        out.write(OWN_INF)

    def ran(lines, words=()):
        with open(at("extreme"), "wb") as out:
            out.write("".join(line + "\n" for line in lines).encode())
        began = time.time()
        status, text, error = run(list(words) + [at("extreme"), at("own.inf")])
        return status, text, error, time.time() - began

    def told(name, got, *facts):
        fine = got[0] == DONE and got[2] == b"" and all(facts)
        print("%-60s status %s, %.2f s%s" % (name, got[0], got[3], "" if fine else "   WRONG"), flush=True)
        if not fine:
            wrong.append(name)

    def parts(text):
        """The lines of the labels, and of the tree."""
        trace, _, end = text.partition(b"tree\n")
        return trace.splitlines(), end.partition(b"map\n")[0].splitlines()

    root = r"HTREE\ROOT\0"
    device = lambda k: r"OWN\DEV\%d" % k
    plugs = [r"plug %s OWN\DEV %d" % (device(k - 1) if k > 1 else root, k) for k in range(1, 4097)]
    deep = ran(["driver dev steady"] + plugs)
    labels, tree = parts(deep[1])
    told("4,096 devices, each under the one before", deep, len(labels) == 36865, len(tree) == 4097, all(line.endswith(b" Started") for line in tree))
    more = ran(["driver dev steady"] + plugs + [r"plug %s OWN\DEV 4097" % root])
    told("one device more", more, parts(more[1])[0] == labels + [b"refused plug WorldFull"])
    gone = ran(["driver dev steady"] + plugs + ["disable " + device(1)])
    after, left = parts(gone[1])
    told("the first of them is disabled", gone, after[:36865] == labels, len(after) == 36865 + 20483,
         left == [b"0 HTREE\\ROOT\\0 Started", b" 1 OWN\\DEV\\1 NoStack problem 22"])
    taught = ran(["driver dev scripted"] + ["teach dev START_DEVICE * fail"] * 65)
    told("65 rules for a driver", taught, parts(taught[1])[0] == [b"event driver dev"] + [b"event teach dev"] * 64 + [b"refused teach BookFull"])
    nine = ["driver dev steady"] + [r"plug %s OWN\DEV %d need=irq:1-8" % (root, k) for k in range(1, 10)]
    for budget, problem in ((178880, b"budget"), (178881, b"12")):
        spent = ran(nine, ["--budget", str(budget)])
        told("nine devices for eight interrupts, budget %d" % budget, spent, b"problem OWN\\DEV\\9 " + problem in parts(spent[1])[0])
    for length, status, text in ((4096, DONE, END), (4097, BAD_SCRIPT, b"script error line 1\n" + END)):
        with open(at("extreme"), "wb") as out:
            out.write(b"#" * length + b"\n")
        expect("a comment of %d bytes" % length, run([at("extreme")]), status, text)


def live(d):
    """The lines of each event are there while the producer still waits."""
    fifo = os.path.join(d, "fifo")
    os.mkfifo(fifo)
    p = subprocess.Popen([PROGRAM, fifo], stdout=subprocess.PIPE)
    killer = threading.Timer(60, p.kill)
    killer.start()
    with open(fifo, "wb", buffering=0) as producer:
        producer.write(b"driver dev steady\n")
        first = p.stdout.readline()
        producer.write(b"driver dev steady\n")
        second = p.stdout.readline()
    rest = p.stdout.read()
    status = p.wait()
    killer.cancel()
    expect("a FIFO, with the trace live", (status, first + second + rest, b""), DONE, b"event driver dev\nrefused driver SameName\n" + END)
    feeder = subprocess.Popen(["printf", "driver dev steady\\n"], stdout=subprocess.PIPE)
    expect("/dev/stdin from a pipe", run(["/dev/stdin"], stdin=feeder.stdout), DONE, b"event driver dev\n" + END)
    feeder.wait()


def main():
    if not os.path.exists(PROGRAM):
        raise SystemExit("there is no program %s: build it by bin/pnpmgr, or name one" % PROGRAM)
    with tempfile.TemporaryDirectory() as d:
        words_and_files(d)
        sizes(d)
        extremes(d)
        live(d)
        failing_calls(d)
    for variable, total in failed.items():
        print("%-12s %6d runs in all" % (variable, total))
    print("%d wrong" % len(wrong))
    for name in wrong:
        print("   " + name)
    return 1 if wrong else 0


if __name__ == "__main__":
    sys.exit(main())
