#!/usr/bin/env python3
"""A device of a laboratory, scripted: it wants port 0x300 or nothing, starts late, and refuses once to go, as its experiment is not over."""
import os
import sys

sys.path.insert(0, os.path.dirname(os.path.dirname(os.path.realpath(__file__))))
import pnplive  # noqa: E402


class Instrument(pnplive.Driver):
    def __init__(self):
        super().__init__()
        self.running = set()

    def start_device(self, path, driver, resources):
        if not any(one.kind == pnplive.PORT and one.low == 0x300 for one in resources):
            self.broke("not-at-0x300")
            return pnplive.FAIL
        self.complete(path, "START_DEVICE")
        self.running.add(path)
        return pnplive.PEND

    def query_remove_device(self, path, driver):
        return pnplive.FAIL if path in self.running else pnplive.OK

    def surprise_removal(self, path, driver):
        self.running.discard(path)
        return pnplive.OK

    def heard(self, line):
        if line.startswith("end disable ") and " veto " in line:
            self.running.discard(line.split(" ")[2])


if __name__ == "__main__":
    pnplive.run(Instrument())
