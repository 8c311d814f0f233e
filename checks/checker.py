"""Checks a crate, and judges whether the checker has refused a wrong body, for wrong_bodies.py."""

import os
import re
import signal
import subprocess
import threading
import time

REFUSED = "logic=not-proved"
# The most seconds that a check over kept proofs may take.
SECONDS = 900
# Set once the run is told to stop.
STOP = threading.Event()
# What the checker prints if it can't read a text.
UNREAD = re.compile(
    r"is not in scope|has no field|is no name|operand is missing|expected the end|cannot continue"
)
# What it prints if a proof names what isn't there any more.
TAKEN_AWAY = re.compile(
    r"(\./)?proofs/.*(has no field|is not in scope|has no `|was not admitted)"
)


class Stopped(Exception):
    """The run was told to stop before a check ended."""


def output_of(words, folder, seconds):
    """Returns the status of a command and what it printed; None and nothing if it took too long.
    Raises Stopped if the run is told to stop before the command ends."""
    # A command in a session of its own doesn't get the signals that stop this run. This function
    # can end it with all that it has started.
    how = {"stdout": subprocess.PIPE, "stderr": subprocess.STDOUT, "start_new_session": True}
    last = time.monotonic() + seconds
    with subprocess.Popen(words, cwd=folder, **how) as started:
        while True:
            try:
                said = started.communicate(timeout=1)[0]
                return started.returncode, said
            except subprocess.TimeoutExpired:
                if not STOP.is_set() and time.monotonic() < last:
                    continue
            os.killpg(started.pid, signal.SIGKILL)
            if STOP.is_set():
                raise Stopped
            return None, b""


def check(folder, seconds=SECONDS):
    """Returns the status of a check, None if it took too long, and the checker's lines without
    those of `rt`, which are advice. Raises Stopped if the run is told to stop before it ends."""
    if STOP.is_set():
        raise Stopped
    status, said = output_of(["rt", "check", "--jobs", "1"], folder, seconds)
    if status is None:
        return None, [f"no answer in {seconds} seconds"]
    lines = said.decode(errors="replace").rstrip("\n").split("\n")
    return status, [line for line in lines if not line.startswith("rt: ")]


def is_unread(line, paths):
    told = re.match(r"(?:\./)?(\S+?):\d+:\d+: error: (?:(`[^`]*`): )?(.*)", line)
    if not told or not (told[1] in paths or told[1].startswith(("src/", "specs/"))):
        return False
    return not told[2] or bool(UNREAD.search(re.sub(r"`[^`]*`", "", told[3])))


def verdict(status, said, paths):
    """Returns whether the checker refused what it read, and its first message on that."""
    unread = next((line for line in said if is_unread(line, paths)), None)
    if unread:
        return False, f"the checker can't read the edited text: {unread}"
    last = said[-1] if said else "nothing was printed"
    if status != 1 or not last.startswith(REFUSED):
        return False, f"not refused: {last}"
    told = [line for line in said if re.match(r"(note: )?\S+:\d+:\d+:", line)]
    told = [line for line in told if ": error" in line or line.startswith("note: ")]
    if not told:
        return False, f"refused for nothing that is named: {last}"
    first = next((line for line in told if not TAKEN_AWAY.match(line)), None)
    if first:
        return True, first
    return False, f"refused only because a proof names what the edit took away: {told[0]}"
