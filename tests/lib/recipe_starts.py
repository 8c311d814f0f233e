"""That the scripts of examples/ start: with Python 3.9, the oldest that runs them, if one is there,
and by a look at their annotations; and that they end quietly if nobody reads what they print."""

import ast
import glob
import os
import shutil
import subprocess

from lib.recipe_calls import EXAMPLES, hiding

OLDEST = "3.9"


def scripts():
    """Returns the paths of the scripts of examples/ and of their modules."""
    return sorted(glob.glob(os.path.join(EXAMPLES, "*.py")))


def text_of(path):
    with open(path, encoding="utf-8") as file:
        return file.read()


def oldest_python():
    """Returns the path of a Python 3.9 that runs, None if there is none."""
    found = sorted(glob.glob(os.path.expanduser(f"~/.pyenv/versions/{OLDEST}.*/bin/python3")))
    for path in [*found, shutil.which(f"python{OLDEST}")]:
        if path and subprocess.run([path, "--version"], capture_output=True, check=False).returncode == 0:
            return path
    return None


def annotations_of(tree):
    """Yields the annotations of a module."""
    for node in ast.walk(tree):
        for name in ("annotation", "returns"):
            if getattr(node, name, None) is not None:
                yield getattr(node, name)


def joins_types(annotation):
    """Returns whether an annotation has X | Y, which Python 3.9 can't evaluate."""
    nodes = ast.walk(annotation)
    return any(isinstance(it, ast.BinOp) and isinstance(it.op, ast.BitOr) for it in nodes)


def defers_annotations(tree):
    """Returns whether a module's annotations aren't evaluated."""
    imports = (it for it in tree.body if isinstance(it, ast.ImportFrom) and it.module == "__future__")
    return any(name.name == "annotations" for it in imports for name in it.names)


def try_annotations(tally):
    """Tests that no annotation needs a newer Python."""
    found = 0
    for path in scripts():
        tree = ast.parse(text_of(path), path, feature_version=(3, 9))
        is_newer = any(map(joins_types, annotations_of(tree)))
        found += is_newer
        is_so = not is_newer or defers_annotations(tree)
        tally.holds(is_so, f"{os.path.basename(path)}: X | Y in an annotation, not deferred")
    tally.holds(found > 0, "no annotation with X | Y was found")
    for text, wanted in (
        ("def f(x: int | None): pass", True),
        ("class C:\n    x: list[int] | None", True),
        ("def f() -> int | str: pass", True),
        ("def f(x: int): return x | 1", False),
    ):
        is_newer = any(map(joins_types, annotations_of(ast.parse(text))))
        tally.check(f"X | Y in {text}", is_newer, wanted)


def try_oldest(aec, tally):
    """Runs each script with --help, and imports each module, by Python 3.9."""
    python = oldest_python()
    if python is None:
        print(f"no python{OLDEST}: the scripts aren't started with it", flush=True)
        return
    for path in scripts():
        name, text = os.path.basename(path), text_of(path)
        words = [path, "--help"] if "__main__" in text else ["-c", f"import {name[:-3]}"]
        if "from numcodecs" in text:
            continue
        environment = {**hiding(aec.folder, "h5py", "aecp"), "PYTHONDONTWRITEBYTECODE": "1"}
        environment["PYTHONPATH"] += f":{EXAMPLES}"
        ended = subprocess.run([python, *words], env=environment, capture_output=True, text=True, check=False)
        tally.check(f"{name} with Python {OLDEST}: {ended.stderr[-200:]}", ended.returncode, 0)


def try_closed_output(words, script, tally):
    """Runs a script whose output nobody reads after its first line, and whose output has no room.
    The output of these words is longer than a pipe takes."""
    words, pipe = [script.path, *words], subprocess.PIPE
    with subprocess.Popen(words, cwd=script.folder, stdout=pipe, stderr=pipe, text=True) as running:
        line = running.stdout.readline()
        running.stdout.close()
        said = running.stderr.read()
    tally.holds(line.startswith("place"), f"closed output: the first line {line}")
    tally.check("closed output", (running.returncode, said), (1, ""))
    with open("/dev/full", "w", encoding="utf-8") as full:
        ended = subprocess.run(words, cwd=script.folder, stdout=full, stderr=pipe, text=True, check=False)
    wanted = 1, "grib_ccsds.py: standard output: No space left on device\n"
    tally.check("full output", (ended.returncode, ended.stderr), wanted)


def ended_with(output, words, folder):
    """Runs words whose standard output has no room ("full"), isn't read ("unread") or is closed.
    Returns the status, and what it prints on standard error."""
    more = {"cwd": folder, "stderr": subprocess.PIPE, "text": True, "check": False}
    if output == "closed":
        ended = subprocess.run(["sh", "-c", 'exec "$@" >&-', "sh", *words], **more)
    elif output == "full":
        with open("/dev/full", "wb") as full:
            ended = subprocess.run(words, stdout=full, **more)
    else:
        read_end, write_end = os.pipe()
        os.close(read_end)
        ended = subprocess.run(words, stdout=write_end, **more)
        os.close(write_end)
    return ended.returncode, ended.stderr


def try_no_output(aec, script, tally):
    """Runs grib_ccsds.py where standard output fails. The files `m`, and `t`, a table, are there."""
    set_words, grib = ["set", aec.path, "m", "t", "o"], os.path.join(EXAMPLES, "grib_ccsds.py")
    tally.check("standard output", script.run(grib, *set_words)[0], 0)
    wanted = aec.read("o")
    is_written, fault = "o is written, but ", "grib_ccsds.py: {}standard output: {}\n"
    no_room, is_closed = "No space left on device", "Bad file descriptor"
    for words, output, answer in (
        (set_words, "full", (1, fault.format(is_written, no_room))),
        (set_words, "unread", (0, "")),
        (set_words, "closed", (0, "")),
        (["take", "m", "s"], "closed", (0, "")),
        (["values", aec.path, "m"], "closed", (1, fault.format("", is_closed))),
        (["options", "m"], "closed", (1, fault.format("", is_closed))),
        (["options", "m"], "full", (1, fault.format("", no_room))),
        (["options", "m"], "unread", (1, "")),
        (["--help"], "closed", (1, fault.format("", is_closed))),
        (["set", "--help"], "closed", (1, fault.format("", is_closed))),
    ):
        aec.write("o", b"old")
        said = ended_with(output, [script.path, grib, *words], aec.folder)
        tally.check(f"{words} with {output} output", said, answer)
        is_so = aec.read("o") == (wanted if words == set_words else b"old")
        tally.holds(is_so, f"{words} with {output} output: OUT")
