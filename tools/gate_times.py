#!/usr/bin/env python3
"""Runs the gate, and prints what each crate and each must-fail edit costs: gate_times.py [COMMAND WORD..]

The command is `rt ci` if none is given, with `--anew` if the kit's `rt help` names this flag; without
the flag, `rt ci` always begins from nothing. While it runs, this script looks at the checkers that it
has started, five times a second. At the end it prints the processor seconds of each crate's proof,
of its tests, of the proof that its must-fail edits begin with, and of each edit; when each began, and
how long it took; and the sums. What a checker does after the last look isn't counted, nor a process
that ends before the first. Ends with the command's status. Needs Linux.
"""

import os
import subprocess
import sys
import time
from typing import NamedTuple

from must_fail import Unusable, changed_texts, gate_edits_of
from sources import TOP, crate_lines, text_of

TICKS = os.sysconf("SC_CLK_TCK")
KINDS = ("proof", "tests", "base of the edits", "edit")


class Process(NamedTuple):
    parent: str
    # Processor seconds, and when the process began, in ticks since the machine did.
    seconds: float
    begun: int


class Work(NamedTuple):
    crate: str
    kind: str
    # Of an edit.
    name: str


class Cost:
    """What a work has cost: the processor seconds of its processes, and when it was seen."""

    def __init__(self, now):
        self.seconds, self.first, self.last = {}, now, now

    def note(self, process, seconds, now):
        self.seconds[process], self.last = seconds, now

    def sum(self):
        return sum(self.seconds.values())


def process_of(number):
    """Returns what the system says of a process. Raises OSError if it has ended."""
    with open(f"/proc/{number}/stat", encoding="utf-8", errors="replace") as file:
        words = file.read().rpartition(")")[2].split()
    return Process(words[1], (int(words[11]) + int(words[12])) / TICKS, int(words[19]))


def processes():
    found = {}
    for number in filter(str.isdigit, os.listdir("/proc")):
        try:
            found[number] = process_of(number)
        except OSError:
            pass
    return found


def is_below(number, top, found):
    while number in found and number != top:
        number = found[number].parent
    return number == top


def edit_in(crate, folder):
    """Returns the name of the edit that is applied in a copy of a crate, or an empty text if none is."""
    for edit in gate_edits_of(crate):
        try:
            texts = changed_texts(edit, os.path.join(TOP, "crates", crate))
            if all(text_of(os.path.join(folder, path)) == text for path, text in texts.items()):
                return edit.name
        except (Unusable, OSError):
            pass
    return ""


def work_of(number):
    """Returns what a process of the checker works at; None for another process."""
    with open(f"/proc/{number}/cmdline", encoding="utf-8", errors="replace") as file:
        words = file.read().split("\0")
    if "--crate-name" not in words:
        return None
    crate, folder = words[words.index("--crate-name") + 1], os.readlink(f"/proc/{number}/cwd")
    if not os.path.basename(folder).startswith("rt-edit-"):
        return Work(crate, "tests" if "--test" in words else "proof", "")
    name = edit_in(crate, folder)
    return Work(crate, "edit" if name else "base of the edits", name)


class Watch:
    """What the checkers below a process have cost so far."""

    def __init__(self, top):
        self.top, self.begun, self.costs, self.works = str(top), time.monotonic(), {}, {}

    def work(self, number, found):
        """Returns the work of a process, or else of the nearest process above it that has one."""
        key = (number, found[number].begun)
        # Until it runs its own program, a new process has the words of the one that started it.
        if self.works.get(key) is None:
            self.works[key] = work_of(number)
        parent = found[number].parent
        if self.works[key] is None and number != self.top and parent in found:
            return self.work(parent, found)
        return self.works[key]

    def look(self):
        found, now = processes(), time.monotonic() - self.begun
        for number in (it for it in found if is_below(it, self.top, found)):
            try:
                work = self.work(number, found)
            except OSError:
                continue
            if work:
                process = (number, found[number].begun)
                self.costs.setdefault(work, Cost(now)).note(process, found[number].seconds, now)


def table(costs):
    """Returns the lines of the table: crates in their order, and of each crate its edits last, the dearest first."""
    crates = [*crate_lines(), *sorted({work.crate for work in costs} - {*crate_lines()})]
    order = lambda it: (crates.index(it[0].crate), KINDS.index(it[0].kind), -it[1].sum())
    lines = [f"{'crate':20}{'work':48}{'processor s':>12}{'from min':>10}{'min':>8}"]
    for work, cost in sorted(costs.items(), key=order):
        took = f"{cost.first / 60:10.1f}{(cost.last - cost.first) / 60:8.1f}"
        lines.append(f"{work.crate:20}{work.name or work.kind:48}{cost.sum():12.0f}{took}")
    return lines


def sums(costs):
    """Returns the lines of the sums, in processor minutes."""
    lines = []
    for kind in KINDS:
        ones = [cost.sum() for work, cost in costs.items() if work.kind == kind]
        lines.append(f"{kind}: {len(ones)} took {sum(ones) / 60:.1f} processor minutes")
    return lines + [f"in all {sum(cost.sum() for cost in costs.values()) / 60:.1f} processor minutes"]


def gate_from_nothing():
    """Returns the command that runs the gate from nothing with the present kit."""
    told = subprocess.run(["rt", "help"], capture_output=True, text=True)
    return ["rt", "ci"] + ["--anew"] * ("--anew" in told.stdout + told.stderr)


def main():
    with subprocess.Popen(sys.argv[1:] or gate_from_nothing(), cwd=TOP) as started:
        watch = Watch(started.pid)
        while started.poll() is None:
            watch.look()
            time.sleep(0.2)
    minutes = (time.monotonic() - watch.begun) / 60
    print("\n".join([*table(watch.costs), *sums(watch.costs), f"{minutes:.1f} minutes on {os.cpu_count()} processors"]))
    return started.returncode


if __name__ == "__main__":
    sys.exit(main())
