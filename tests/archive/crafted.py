"""Crafted files, and a lean process that runs the verbs on each of them: crafted.py FOLDER FIRST COUNT

Makes the files with numbers from FIRST on: a sound FILE.aec whose fields were mutated and sealed again, cut, flipped, or made of
random bytes. Each verb runs in a child with 256 MiB of address space and 20 seconds. Prints a line of JSON for each that prints a
traceback or a control character, ends by a signal, takes too long, or changes what it may not change.
"""

from __future__ import annotations

import json
import os
import random
import resource
import signal
import sys
import zlib
from typing import Any, Callable

SECONDS = 60
MOST = 256 << 20
VALUES: list[Any] = [
    None, True, False, 0, 1, -1, 2, 15, 16, 17, 31, 32, 33, 2**31, 2**32 - 1, 2**32, 2**32 + 1, 2**63, 2**64, 10**30, 1.5, float("inf"),
    float("nan"), "", "x", "0" * 64, "f" * 64, "F" * 64, "\0" * 64, "\x1b[2J", "\udcff", "../../x", "x" * 300, "x" * 100_000, [], [1], [[]],
    {}, {"bytes": 1}, [2**32, 2**32], [0], [-1], "<u2", "<f8", ">i4", "O", "2026-11-30T01:02:03Z", "2026-11-30T01:02:03Z\n", "AAAA",
]  # fmt: skip
VERBS = [
    ["check", "f.aec", "--jobs", "1"],
    ["back", "f.aec", "back.out"],
    ["info", "f.aec"],
    ["log", "f.aec"],
    ["undo", "f.aec"],
    ["rescue", "f.aec", "rescue.out"],
    ["log", "f.aec", "--script", "1"],
    ["edit", "f.aec", "script"],
    ["back", "f.aec", "range.out", "--range", "5:3"],
    ["view", "f.aec", "o.pgm", "--width", "10"],
    ["export", "f.aec", "export.out"],
    ["keep", "f", "-n", "16", "-j", "16", "-r", "4", "--jobs", "1"],
    ["diff", "f.aec", "sound.aec"],
    ["check", "f.aec", "--json", "--jobs", "1"],
    ["forget", "f.aec", "--keep", "1"],
]


def places_of(it: Any, path: tuple[Any, ...] = ()) -> list[tuple[Any, ...]]:
    """Returns the paths of all values within JSON."""
    found = [path] if path else []
    if isinstance(it, dict):
        for key in it:
            found += places_of(it[key], (*path, key))
    elif isinstance(it, list):
        for number in range(len(it)):
            found += places_of(it[number], (*path, number))
    return found


def mutated(it: Any, chance: random.Random) -> Any:
    """Changes one value within JSON: another value, a field less or one more."""
    path = chance.choice(places_of(it))
    owner = it
    for key in path[:-1]:
        owner = owner[key]
    what = chance.random()
    if what < 0.1 and isinstance(owner, dict):
        del owner[path[-1]]
    elif what < 0.15 and isinstance(owner, dict):
        owner[chance.choice(["more", "\x1b", "count", ""])] = chance.choice(VALUES)
    elif what < 0.3 and type(owner[path[-1]]) is int:
        owner[path[-1]] += chance.choice([-1, 1, 7, 1000, -1000])
    else:
        owner[path[-1]] = chance.choice(VALUES)
    return it


def crafted(sound: bytes, number: int) -> bytes:
    """Returns the crafted file with a number."""
    import plain_form as form

    chance = random.Random(number)
    kind = number % 10
    if kind == 0:
        return sound[: chance.randrange(len(sound))]
    if kind == 1:
        data = bytearray(sound)
        for _ in range(chance.choice([1, 1, 2, 9])):
            data[chance.randrange(len(data))] ^= 1 << chance.randrange(8)
        return bytes(data)
    if kind == 2:
        return crafted_foot(sound, chance)
    parts = form.parts_of(sound)
    if kind == 3:
        for _ in range(chance.choice([1, 2, 5])):
            at = chance.randrange(len(parts.groups))
            changed = parts.groups[at]._asdict()
            changed[chance.choice(["bit", "interval", "crc"])] = chance.choice([0, 1, 7, 2**31, 2**32 - 1, chance.getrandbits(20)])
            parts.groups[at] = form.Group(**changed)
        if chance.random() < 0.3:
            parts.groups = parts.groups * chance.choice([0, 2, 500])
        return parts.sealed()
    if kind == 4:
        data = bytearray(parts.stream)
        for _ in range(chance.choice([1, 50])):
            data[chance.randrange(len(data))] = chance.getrandbits(8)
        parts.stream = bytes(data)
        parts.fields["stream"]["sha256"] = form.sha256(parts.stream)
        fixed_groups(parts, form)
        return parts.sealed()
    if kind in (5, 6):
        for _ in range(chance.choice([1, 1, 3])):
            mutated(parts.history, chance)
            if not parts.history:
                break
        return sealed(parts)
    for _ in range(chance.choice([1, 1, 1, 2, 4])):
        mutated(parts.fields, chance)
    return sealed(parts, with_sums=number % 2 == 0)


def sealed(parts: Any, with_sums: bool = True) -> bytes:
    try:
        return parts.sealed(with_sums)
    except (TypeError, AttributeError, KeyError):
        return parts.sealed(False)


def fixed_groups(parts: Any, form: Any) -> None:
    """Gives the groups the CRC of their bytes."""
    parts.groups = [it._replace(crc=zlib.crc32(form.group_bytes(parts, i))) for i, it in enumerate(parts.groups)]


def crafted_foot(sound: bytes, chance: random.Random) -> bytes:
    """Returns a file with another foot or another trailer: bombs, lengths past the end, no JSON."""
    import plain_form as form

    front = sound[:2000]
    texts = [
        b"", b"{}", b"[]", b"7", b"null", b"{" * 5000, b"[" * 100000, b'"' + b"x" * 10**6 + b'"', b"\xff" * 99, b" " * (30 << 20),
        b'{"format":2}', b'{"format":2,"format":2}', b"[" + b"1," * 3_000_000 + b"1]", b"1" * 5000,
    ]  # fmt: skip
    trailer = zlib.compress(chance.choice(texts))
    more: dict[str, Any] = chance.choice([
        {}, {"length": 2**64 - 1}, {"length": 0}, {"length": len(trailer) + 1}, {"version": 3}, {"version": 1}, {"flags": 1}, {"crc": 1},
        {"foot_crc": 1}, {"magic": b"AECP\r\n\x1a\n"}, {"length": 2**63},
    ])  # fmt: skip
    if chance.random() < 0.2:
        trailer = chance.choice([b"", b"x" * 50, zlib.compress(b"{}")[:-3], zlib.compress(b"{}") + b"more"])
    return front + form.ended(trailer, **more)


def run_verb(folder: str, words: list[str]) -> tuple[int, str]:
    """Runs a verb in a child. Returns its status (less than 0 for a signal) and what it prints."""
    path = os.path.join(os.path.dirname(folder), f"said{os.getpid()}")
    child = os.fork()
    if child == 0:
        said = os.open(path, os.O_RDWR | os.O_CREAT | os.O_TRUNC)
        status = 71
        try:
            os.dup2(os.open(os.devnull, os.O_RDONLY), 0)
            os.dup2(said, 1)
            os.dup2(said, 2)
            os.chdir(folder)
            resource.setrlimit(resource.RLIMIT_AS, (MOST, MOST))
            resource.setrlimit(resource.RLIMIT_CPU, (SECONDS, SECONDS))
            signal.alarm(SECONDS)
            sys.stdout = open(1, "w", encoding="utf-8", errors="surrogateescape", closefd=False)
            sys.stderr = open(2, "w", encoding="utf-8", errors="backslashreplace", closefd=False)
            sys.argv = ["aecp", *words]
            try:
                from aecp import cli

                cli.main(words)
                status = 0
            except SystemExit as end:
                status = end.code if isinstance(end.code, int) else 0 if end.code is None else 1
            except BaseException:  # noqa: BLE001
                import traceback

                traceback.print_exc()
            sys.stdout.flush()
            sys.stderr.flush()
        finally:
            os._exit(status)
    _, status = os.waitpid(child, 0)
    with open(path, "rb") as file:
        return os.waitstatus_to_exitcode(status), file.read().decode(errors="replace")


def try_one(folder: str, sound: bytes, number: int, report: Callable[..., None]) -> None:
    """Runs some verbs on one crafted file."""
    from making import tree

    data = crafted(sound, number)
    path = os.path.join(folder, "f.aec")
    chance = random.Random(number)
    for words in [VERBS[0], *chance.sample(VERBS[1:], 3)]:
        with open(path, "wb") as file:
            file.write(data)
        before = tree(os.path.dirname(folder))
        status, said = run_verb(folder, words)
        after = tree(os.path.dirname(folder))
        for name in list(after):
            if name.startswith("said"):
                after.pop(name)
                before.pop(name, None)
        changed = sorted(name for name in {*before, *after} if before.get(name) != after.get(name))
        ours = {"place/f.aec"} if words[0] in ("undo", "edit", "forget", "keep") and status == 0 else set()
        ours |= {f"place/{it}" for it in words if it.endswith((".out", ".pgm"))} if status in (0, 1) else set()
        bad = [it for it in said if ord(it) < 32 and it not in "\n\t" or ord(it) == 127]
        # What a crafted script says is printed as it is.
        if words[:1] == ["log"] and "--script" in words and status == 0:
            bad = []
        if status not in (0, 1) or "Traceback" in said or "Exception ignored" in said or bad or set(changed) - ours or len(said) > 50000:
            report(number=number, words=words, status=status, said=said[-600:], changed=changed, bad=len(bad))
        for name in os.listdir(folder):
            if name.endswith((".out", ".pgm")):
                os.unlink(os.path.join(folder, name))


def main() -> None:
    folder, first, count = sys.argv[1], int(sys.argv[2]), int(sys.argv[3])
    here = os.path.dirname(os.path.abspath(__file__))
    sys.path[:0] = [here, os.path.dirname(here)]
    import aecp.archive._verbs  # noqa: F401 - so that children needn't
    import aecp.cli  # noqa: F401
    from aecp.library import LIBRARY

    LIBRARY.load_now()

    with open(os.path.join(folder, "sound.aec"), "rb") as file:
        sound = file.read()
    for number in range(first, first + count):
        try_one(folder, sound, number, lambda **it: print(json.dumps(it), flush=True))
    print(json.dumps({"done": count}), flush=True)


if __name__ == "__main__":
    main()
