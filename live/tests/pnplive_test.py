#!/usr/bin/env python3
"""Tests of pnplive.py."""
import io
import os
import sys
import unittest

sys.path.insert(0, os.path.dirname(os.path.dirname(os.path.realpath(__file__))))
import pnplive  # noqa: E402

PATH = "OWN\\DISK\\1"


def answered(driver, *asks):
    out = io.StringIO()
    pnplive.run(driver, io.StringIO("".join(ask + "\n" for ask in asks)), out)
    return out.getvalue().split("\n")[:-1]


class Recorder(pnplive.Driver):
    def __init__(self):
        super().__init__()
        self.calls, self.lines = [], []

    def start_device(self, path, driver, resources):
        self.calls.append((path, driver, resources))
        return pnplive.PEND

    def heard(self, line):
        self.lines.append(line)


class Bad(pnplive.Driver):
    def add(self, path, driver):
        return pnplive.PEND


class PnpliveTest(unittest.TestCase):
    def test_ok_to_all(self):
        asks = [f"# ask {number} {minor} {PATH} disk" for number, minor in enumerate(("add", *pnplive.REQUESTS, "probe"), 1)]
        self.assertEqual(answered(pnplive.Driver(), *asks), ["live 1"] + [f"{number} ok" for number in range(1, 11)])

    def test_each_request_has_its_method(self):
        for minor in pnplive.REQUESTS:
            if minor != "START_DEVICE":
                driver = type("One", (pnplive.Driver,), {minor.lower(): lambda self, path, name: pnplive.FAIL})()
                self.assertEqual(answered(driver, f"# ask 7 {minor} {PATH} disk"), ["live 1", "7 fail"])

    def test_resources(self):
        driver = Recorder()
        lines = answered(driver, f"# ask 1 START_DEVICE {PATH} Disk port:0x1f0-0x1f7 irq:16-16:shared bus:1-4 mem:0x0-0xffffffffffffffff")
        self.assertEqual(lines, ["live 1", "1 pend"])
        wanted = [pnplive.Resource("port", 0x1F0, 0x1F7, False), pnplive.Resource("irq", 16, 16, True), pnplive.Resource("bus", 1, 4, False), pnplive.Resource("mem", 0, 2**64 - 1, False)]
        self.assertEqual(driver.calls, [(PATH, "Disk", wanted)])

    def test_polls_and_tags(self):
        driver = Recorder()
        driver.complete(PATH, "START_DEVICE", pnplive.FAIL)
        driver.broke("late")
        driver.broke("late")
        self.assertEqual(answered(driver, "# ask 1 poll", "# ask 2 poll"), ["live 1", f"1 complete {PATH} START_DEVICE fail late", "2 none"])

    def test_tags_wait_behind_none(self):
        driver = pnplive.Driver()
        driver.broke("a.b_c-D")
        self.assertEqual(answered(driver, "# ask 1 poll", f"# ask 2 add {PATH} disk", f"# ask 3 add {PATH} disk"), ["live 1", "1 none", "2 ok a.b_c-D", "3 ok"])

    def test_the_trace_is_heard(self):
        driver = Recorder()
        answered(driver, "event driver disk", "# broke 1 disk x", "tree")
        self.assertEqual(driver.lines, ["event driver disk", "# broke 1 disk x", "tree"])

    def test_what_is_refused(self):
        for asks in (["# ask 1"], ["# ask 1 add"], ["# ask 1 EJECT A disk"], [f"# ask 1 START_DEVICE {PATH} disk port:1"]):
            with self.assertRaises(pnplive.ProtocolError):
                answered(pnplive.Driver(), *asks)
        with self.assertRaises(pnplive.ProtocolError):
            answered(Bad(), f"# ask 1 add {PATH} disk")
        for tag in ("", "a b", "a/b", "x" * 65, "a\n"):
            with self.assertRaises(pnplive.ProtocolError):
                pnplive.Driver().broke(tag)
        with self.assertRaises(pnplive.ProtocolError):
            pnplive.Driver().complete(PATH, "START", pnplive.OK)


if __name__ == "__main__":
    unittest.main()
