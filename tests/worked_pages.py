#!/usr/bin/env python3
"""Tests the commands, examples and code of README.md, docs/COMMAND.md and docs/LIBRARY.md: worked_pages.py PATH_OF_AEC

Runs the commands of README's part 'Use it' and checks the size that it names. Runs each example of COMMAND's part 'Examples', which has
options, perhaps a script, the bytes of SOURCE and those of DEST. Runs COMMAND's command that sorts a script. The code of LIBRARY's part
'Rattle' must be in the file that is named before it. A page without commands, examples or code fails.

Prints the checks that fail and, last, how many passed. Ends with status 1 if one failed.
"""

import os
import re
import subprocess
import sys
import tempfile

sys.path.insert(0, os.path.dirname(os.path.abspath(__file__)))

from lib.program import TOP, Program, Tally

EXAMPLE = re.compile(r"^- (?:without options|`(-[^`]*)`)(?: with `([^`]*)`)?: `([0-9A-F ]+)` becomes `([0-9A-F ]+)`\.$", re.M)


def part_of(page, heading):
    with open(os.path.join(TOP, page), encoding="utf-8") as file:
        return file.read().split(f"\n## {heading}\n", 1)[1].split("\n## ", 1)[0]


def commands_of(text):
    return re.search(r"```sh\n(.*?)```", text, re.S).group(1)


def try_examples(program, tally):
    part = part_of("docs/COMMAND.md", "Examples")
    examples = EXAMPLE.findall(part)
    tally.check("examples of COMMAND", len(examples), part.count("\n- "))
    tally.holds(len(examples) > 0, "COMMAND has no examples")
    for words, script, source, dest in examples:
        program.write("SCRIPT", script.encode() + b"\n")
        tally.check(f"aec {words} on {source}", program.answer(words.split(), bytes.fromhex(source)), bytes.fromhex(dest))


def run_commands(program, commands):
    """Runs commands as they are. Returns their status and what they print."""
    os.makedirs(program.file("bin"), exist_ok=True)
    if not os.path.exists(program.file("bin/aec")):
        os.symlink(program.path, program.file("bin/aec"))
        os.symlink(os.path.join(TOP, "examples"), program.file("examples"))
    path = program.file("bin") + os.pathsep + os.environ["PATH"]
    ran = subprocess.run(["sh", "-e", "-c", commands], cwd=program.folder, capture_output=True, text=True, env={"PATH": path})
    return ran.returncode, ran.stdout + ran.stderr


def try_commands(program, tally):
    """Runs the commands of README, and checks the size that is named beside them."""
    commands = commands_of(part_of("README.md", "Use it"))
    tally.check("commands of README", run_commands(program, commands), (0, ""))
    coded = int(re.search(r"bytes become ([\d,]+)", commands).group(1).replace(",", ""))
    tally.check("bytes that README names", len(program.read("d.aec") or b""), coded)


def try_sorting(program, tally):
    """Sorts a script of overwrites by the command of COMMAND. Its lines must be in the order of their places, and mean the same."""
    command = re.search(r"`(sort [^`]*) SCRIPT`", part_of("docs/COMMAND.md", "Edits")).group(1)
    places = [37 * number % 48 for number in range(48)]
    lines = [b"overwrite %d %d\n" % (place, place // 2) for place in places]
    ran = subprocess.run(command.split(), input=b"".join(lines), capture_output=True, check=True)
    tally.check("sorted overwrites", ran.stdout, b"".join(line for _, line in sorted(zip(places, lines))))
    results = []
    for script in (b"".join(lines), ran.stdout):
        program.write("SCRIPT", script)
        results.append(program.answer(["--edit", "SCRIPT", "--count", "48"], bytes.fromhex("00 04 00 10 00 40")))
    tally.holds(results[0] is not None and results[0] == results[1], "a sorted script means something else")


def try_code(tally):
    """Checks that the code of the library's page is in a file that is proved."""
    part = part_of("docs/LIBRARY.md", "Rattle")
    shown = re.findall(r"\]\(\.\./(crates/[^)]*\.rt)\)[^`]*```rust\n(.*?)```", part, re.S)
    tally.check("code of LIBRARY", len(shown), part.count("```rust"))
    tally.holds(len(shown) > 0, "LIBRARY shows no code")
    for name, code in shown:
        with open(os.path.join(TOP, name), encoding="utf-8") as file:
            tally.holds(code in file.read(), f"code of LIBRARY isn't in {name}")


def main():
    tally = Tally()
    try_code(tally)
    with tempfile.TemporaryDirectory() as folder:
        program = Program(sys.argv[1], folder)
        try_examples(program, tally)
        try_commands(program, tally)
        try_sorting(program, tally)
    tally.print()
    return 1 if tally.failed else 0


if __name__ == "__main__":
    sys.exit(main())
