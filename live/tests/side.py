#!/usr/bin/env python3
"""The other side of pnpdrive as nobody wants it. tests/side.py KIND [K]: asked by tools/check_live."""
import os
import subprocess
import sys
import time


def say(text):
    os.write(1, text)


def answers(until=None):
    """Answers ok to each ask, and to a poll none. Before ask `until`, a number or what is asked, it stops, and returns True."""
    say(b"live 1\n")
    for line in sys.stdin.buffer:
        if line.startswith(b"# ask "):
            number = line.split()[2]
            if until and until in (int(number), line.split()[3].decode()):
                return True
            say(number + (b" none\n" if line.split()[3] == b"poll" else b" ok\n"))
    return False


def endless(data):
    while True:
        say(data)


def sleep():
    time.sleep(1000)


def main(kind, k):
    if kind == "ok":
        answers()
    elif kind == "silent":
        sleep()
    elif kind == "dies":
        if answers(k):
            os.kill(os.getpid(), 11)
    elif kind == "ends":
        answers(k)
    elif kind == "hangs":
        if answers(k):
            sleep()
    elif kind == "endless-bytes":
        endless(b"x" * 4096)
    elif kind == "endless-lines":
        endless(b"live 1\n")
    elif kind == "endless-answers":
        say(b"live 1\n")
        for number in range(1, 1 << 40):
            say(b"%d ok\n" % number)
    elif kind == "drips":
        while True:
            say(b"l")
            time.sleep(0.2)
    elif kind == "closes-input":
        if answers(k):
            os.close(0)
            sleep()
    elif kind == "closes-output":
        if answers(k):
            os.close(1)
            sleep()
    elif kind == "leaves-a-child":
        # The child has the pipes too, in a session of its own, and lives on.
        subprocess.Popen(["sleep", "4"], start_new_session=True)
        answers(k)
    elif kind == "stays":
        answers()
        sleep()
    elif kind == "status":
        answers()
        sys.exit(k)
    elif kind == "text":
        say(os.environ["TEXT"].encode("latin-1").replace(b"\\n", b"\n"))
    else:
        sys.exit(2)


if __name__ == "__main__":
    try:
        main(sys.argv[1], None if len(sys.argv) < 3 else int(sys.argv[2]) if sys.argv[2].isdigit() else sys.argv[2])
    except BrokenPipeError:
        os._exit(0)
