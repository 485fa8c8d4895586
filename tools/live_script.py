"""What a live run wrote, and the script that it ran: the trace alone, and the script with the completions that were heard."""


def parts(out, script):
    """Returns the trace without its notes, and the script in which each completion that was heard stands as a line. A line that is put in moves a bad
    line down, so the number of a bad line is moved in the trace too."""
    trace, woven, heard, put, at = [], [], False, 0, 0
    lines = script.split(b"\n")
    for row in out.split(b"\n")[:-1]:
        words = row.split(b" ")
        if words[0] == b"#":
            heard = words[1] == b"done" or (heard and words[1] == b"broke")
            continue
        if words[0] in (b"event", b"refused"):
            if heard:
                woven.append(b" ".join([b"complete", *words[2:4], b"ok" if words[4] == b"ok" else b"fail"]))
                put += 1
            else:
                while at < len(lines) and (not lines[at].split() or lines[at].split()[0].startswith(b"#")):
                    woven.append(lines[at])
                    at += 1
                woven.append(lines[at])
                at += 1
        elif row.startswith(b"script error line "):
            row = b"script error line %d" % (int(words[3]) + put)
        heard = False
        trace.append(row)
    return b"".join(row + b"\n" for row in trace), b"\n".join(woven + lines[at:])
