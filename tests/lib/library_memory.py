"""Tests memory and stack of the library, for library.py: each growth of a call refused, the blocks that calls don't free, and the stack
that a thread needs. C programs make the calls; for the first two, the library of refusing.py is loaded before the C library."""

import re

from lib.program import Program
from lib.refusing import Growths, ways

# In KiB: the stacks that are tried, and what a call must leave of one, since on another machine a thread itself may take more.
STACKS, LEFT = (16, 32, 64, 128), 4
# What library_handles opens, and the ways in which it then frees everything.
KINDS, WAYS = ("workspace", "stream", "coder", "reader"), ("closed", "replaced", "refused")


def try_refusals(in_c, library, rows, want, tally):
    """Refuses each growth of a call, alone and with all later ones. In each run the call must free what it has allocated. A row is
    a call and its result with ample memory; `want` is the result for lack of memory."""
    growths = Growths(in_c.program, library, in_parts=True)

    def run(*words, **more):
        answer, _, run.refused = growths.refuse(*run.range, in_c.program.run, *words)
        return answer

    for call, right in rows:
        for alone in (True, False):
            for run.range in ways(alone):
                got = in_c.ask(call, 100, run)
                what = f"growths {run.range} refused in {call.name}"
                tally.check(what, got, want if run.refused else right)
                tally.check(f"{what}: blocks that aren't freed", growths.kept, 0)
                if run.refused == 0:
                    break


def try_freed(handles, library, tally):
    """Checks that each call on a handle, or closing the handle, frees what was allocated; for each
    kind of handle that closing it frees it, and so does opening another in its place; that a handle
    left open is noticed."""
    growths = Growths(handles, library, in_parts=True)
    _, number, _ = growths.refuse(0, -1, handles.run)
    tally.holds(number > 0, "handles: no growth is counted, so the library sees none")
    tally.check("handles: blocks that aren't freed", growths.kept, 0)
    for kind in KINDS:
        for way in WAYS:
            (status, printed), *_ = growths.refuse(0, -1, handles.run, way, kind)
            tally.check(f"{kind} {way}: {printed}", status, 0)
            tally.check(f"{kind} {way}: blocks that aren't freed", growths.kept, 0)
        growths.refuse(0, -1, handles.run, "lost", kind)
        tally.holds(growths.kept > 0, f"{kind}: one that isn't closed is not seen")


def stacks_of(header, names):
    """Returns the least stack for each call in KiB, as the header says it."""
    with open(header, encoding="utf-8") as file:
        text = re.sub(r"\s*\n \*\s*", " ", file.read())
    said = re.search(r"a stack of (\d+) KiB for (.*?), and of (\d+) KiB for the other calls", text)
    if not said:
        return {}
    more = set(re.findall(r"aecp_(\w+)", said[2]))
    return {name: int(said[1] if name in more else said[3]) for name in names}


def written(stacks, name, kib):
    """Returns how many bytes a call writes of a stack of so many KiB, None if it doesn't end as it must."""
    status, printed = stacks.run(name, str(kib))
    return int(printed) if status == 0 else None


def least_stack(stacks, name):
    """Returns the least stack in KiB of which a call leaves enough, None if no tried stack suffices."""
    for kib in STACKS:
        taken = written(stacks, name, kib)
        if taken is not None and taken <= 1024 * (kib - LEFT):
            return kib
    return None


def try_stacks(path, folder, header, names, tally):
    """Prints the least stack of a thread for each call as a table, and checks that the header names it."""
    stacks, said = Program(path, folder), stacks_of(header, names)
    tally.check("a thread that makes no call", least_stack(stacks, "none"), STACKS[0])
    print("| Call | Least stack of a thread | Bytes written of 128 KiB |\n|---|---|---|")
    for name in sorted(names):
        least = least_stack(stacks, name)
        print(f"| `aecp_{name}` | {least} KiB | {written(stacks, name, STACKS[-1])} |")
        tally.check(f"aecp_{name}: the least stack of a thread in KiB", said.get(name), least)
