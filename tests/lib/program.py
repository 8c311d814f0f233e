"""A program under test, the files that it works on, and the count of what was checked."""

import argparse
import os
import subprocess
import tempfile
from concurrent.futures import ProcessPoolExecutor

# The folder of the repository.
TOP = os.path.abspath(os.path.join(os.path.dirname(__file__), "..", ".."))
SECONDS = 20


class Program:
    """A program, and the files of the folder that it runs in."""

    def __init__(self, path, folder):
        self.path, self.folder = os.path.abspath(path), folder

    def file(self, name):
        return os.path.join(self.folder, name)

    def write(self, name, data):
        if data is not None:
            with open(self.file(name), "wb") as file:
                file.write(data)
        elif os.path.exists(self.file(name)):
            os.remove(self.file(name))

    def read(self, name):
        if not os.path.exists(self.file(name)):
            return None
        with open(self.file(name), "rb") as file:
            return file.read()

    def run(self, *words, **more):
        """Runs the program. Returns the status and all that it prints. Named arguments go to `subprocess.run`."""
        try:
            ended = subprocess.run([self.path, *words], cwd=self.folder, capture_output=True, timeout=SECONDS, **more)
            return ended.returncode, (ended.stdout + ended.stderr).decode(errors="replace")
        except subprocess.TimeoutExpired:
            return None, f"no answer in {SECONDS} seconds"

    def answer(self, words, given):
        """Runs the program on these bytes. Returns what it writes, None if it writes nothing or doesn't end. `said` is what it prints."""
        self.write("source", given)
        self.write("dest", None)
        status, self.said = self.run(*words, "source", "dest")
        return None if status is None else self.read("dest")


def add_case_options(parser, cases, what=None):
    """Adds the options of a test with random cases: the seed, how many cases there are (`what` says of what), or the one to try."""
    parser.add_argument("--seed", type=int, default=121)
    parser.add_argument("--cases", type=int, default=cases, help=what)
    parser.add_argument("--only", type=int, help="the number of the one case to try")


def numbers_of(asked):
    """Returns the numbers of the cases that these options ask for."""
    return range(asked.cases) if asked.only is None else [asked.only]


def asked_of(description, cases, other=False):
    """Parses the arguments of a test with random cases: the program, another one if two are compared, the seed, and the numbers
    of the cases. Prints the seed and how many cases there are."""
    words = argparse.ArgumentParser(description=description)
    words.add_argument("program")
    if other:
        words.add_argument("other")
    add_case_options(words, cases)
    asked = words.parse_args()
    asked.numbers = numbers_of(asked)
    print(f"seed {asked.seed}, {len(asked.numbers)} cases", flush=True)
    return asked


def on_one_core(work, path, numbers, *more):
    with tempfile.TemporaryDirectory() as folder:
        return work(Program(path, folder), numbers, *more)


def on_each_core(work, path, numbers, *more):
    """Calls `work(program, numbers, *more)` on all cores at once, each with a part of the numbers and a folder of its own.
    Returns the list of the results."""
    cores = os.cpu_count() or 1
    with ProcessPoolExecutor(cores) as pool:
        parts = [pool.submit(on_one_core, work, path, numbers[i::cores], *more) for i in range(cores)]
        return [part.result() for part in parts]


class Tally:
    """Counts checks, and prints those that fail."""

    def __init__(self):
        self.passed, self.failed = 0, 0

    def holds(self, is_so, failure):
        """Counts one check, and prints `failure` if it fails."""
        if is_so:
            self.passed += 1
        else:
            self.failed += 1
            print(f"FAILED: {failure}", flush=True)

    def check(self, what, got, wanted):
        """Counts one check that a result is the wanted one."""
        self.holds(got == wanted, f"{what}: {short(got)} in place of {short(wanted)}")

    def add(self, other):
        self.passed, self.failed = self.passed + other.passed, self.failed + other.failed

    def print(self, skipped=0, reason=""):
        more = f", {skipped} skipped ({reason})" if skipped else ""
        print(f"{self.passed} passed, {self.failed} failed{more}")


def short(it):
    """Returns a text for what was found or wanted, cut if it is long."""
    text = it.hex(" ") if isinstance(it, bytes) else repr(it)
    return text if len(text) <= 200 else f"{text[:200]}.. ({len(text)} characters)"


def raised(call):
    try:
        call()
    except Exception as fault:  # noqa: BLE001 - the caller checks which one it is
        return fault
    return None


def said(message):
    """Returns the expected status and output of a run: of a refusal with this message, or of success if None."""
    return (0, "") if message is None else (1, f"aec: {message}\n")
