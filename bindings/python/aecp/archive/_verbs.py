"""The verbs of the command. `run` calls the function of a verb, which returns the status."""

from __future__ import annotations

import argparse
import os
import sys
from functools import partial
from typing import Any, Callable

from aecp._console import Console, shown
from aecp.archive import _editing, _keeping, _looking, _restoring, _showing
from aecp.archive._asked import (
    Counts,
    Wrong,
    dealt,
    given_in,
    guarded,
    input_of,
    judge_numbers,
    one_kept,
    options_of,
    part_of,
    say_passed,
    shape_of,
)
from aecp.archive._checking import check
from aecp.archive._file import opened
from aecp.archive._form import Refused
from aecp.archive._headers import layout_of
from aecp.archive._headers import options_of as dtype_options
from aecp.archive._originals import original
from aecp.archive._outcomes import Outcome, Unchanged
from aecp.archive._paths import (
    STREAM,
    Found,
    Passed,
    kept_files,
    names_apart,
    originals,
    target_path,
)
from aecp.archive._pool import Failed

Verb = Callable[[argparse.Namespace, Console], int]
TABLES = (".csv", ".tsv")


def run(asked: argparse.Namespace, console: Console) -> int:
    """Does what the arguments ask for. Returns the status."""
    try:
        judge_numbers(asked)
        return DO[asked.verb](asked, console)
    except Wrong as error:
        sys.stderr.write(asked.usage)
        return console.complain(f"{error}", 2)
    except Failed as error:
        return console.complain(str(error))


def keeping_of(asked: argparse.Namespace) -> _keeping.Keeping:
    """Returns how files are kept."""
    options = options_of(asked)
    if asked.skip and asked.raw:
        raise Wrong("--skip and --raw exclude each other: --skip already ignores headers")
    if asked.dtype is not None:
        try:
            dtype_options(asked.dtype, options, asked.bits)
        except Refused as error:
            raise Wrong(f"--dtype: {error}") from None
    if asked.repair and asked.remove:
        raise Wrong("--repair and --remove exclude each other")
    return _keeping.Keeping(
        options,
        given_in(asked),
        to=asked.to and os.path.abspath(asked.to),
        skip=asked.skip or 0,
        shape=shape_of(asked),
        dtype=asked.dtype,
        is_raw=asked.raw,
        rehash=asked.rehash,
        anyway=asked.anyway,
        repair=asked.repair,
        remove=asked.remove,
        limit=asked.limit,
    )


def lacks_bits(how: _keeping.Keeping, found: Found) -> bool:
    """Returns whether the bits of a file that isn't kept yet are neither given nor in a header."""
    if "bits" in how.given or how.dtype is not None or how.repair:
        return False
    if os.path.lexists(target_path(found, how.to)):
        return False
    try:
        with original(found.path) as file:
            return how.is_raw or how.skip > 0 or layout_of(file) is None
    except (OSError, Refused):
        return False


def say_outcome(console: Console, found: Found, outcome: Outcome) -> None:
    """Prints what there is to say of a file that was to be kept."""
    text = f"{shown(found.name)}: {outcome.said}"
    if outcome.kind in ("changed", "refused"):
        console.complain(text)
    else:
        console.notice(text)


KEPT = {
    "kept": "kept", "repaired": "repaired", "skipped": "kept already", "passed": "passed over",
    "changed": "changed", "refused": "refused",
}  # fmt: skip


def do_keep(asked: argparse.Namespace, console: Console) -> int:
    how = keeping_of(asked)
    passed: list[Passed] = []
    found = list(originals(asked.paths, asked.include, asked.exclude, passed))
    if found and lacks_bits(how, found[0]):
        text = f"-n N is needed: {shown(found[0].name)} has no header that says its bits"
        raise Wrong(f"{text} (.npy and FITS files have)")
    if how.to is not None:
        found = names_apart(found, passed)
    status = say_passed(console, passed)
    counts, hints = Counts(), []
    counts.add_passed(passed)
    for it, outcome in dealt(asked, console, partial(_keeping.keep, how), found):
        counts.add(it, outcome)
        if outcome.said:
            say_outcome(console, it, outcome)
        if outcome.hint:
            hints.append(f"{shown(it.name)}: {outcome.hint}")
    for text in hints[:1]:
        more = f" ({len(hints)} files have such a hint: `aecp fit` says more)" if hints[1:] else ""
        console.notice(f"{text}{more}")
    if asked.json:
        console.say_json(counts.json())
    else:
        sizes = f"; {counts.bytes} bytes became {counts.coded}" if counts.bytes else ""
        console.say(f"{counts.text(KEPT)}{sizes}")
    return status or int("refused" in counts.kinds or "changed" in counts.kinds)


def do_check(asked: argparse.Namespace, console: Console) -> int:
    passed: list[Passed] = []
    found = list(kept_files(asked.paths, passed))
    status, counts = say_passed(console, passed), Counts()
    for it, outcome in dealt(asked, console, partial(check, asked.limit), found):
        counts.add(it, outcome)
        if outcome.kind != "sound" and not asked.json:
            console.say(f"{shown(it.name)}: {outcome.kind}: {outcome.said}")
    sound = counts.kinds.get("sound", 0)
    if asked.json:
        faults = [it for it in counts.files if it["kind"] != "sound"]
        console.say_json({"checked": len(found), "sound": sound, "faults": faults})
    else:
        console.say(f"{len(found)} checked, {sound} sound, {len(found) - sound} damaged")
    return status or int(sound < len(found))


def take_out(asked: argparse.Namespace) -> None:
    """Takes the second of two paths as OUT if the first is named FILE.aec and the second isn't."""
    if len(asked.paths) == 2 and asked.out is None and asked.to is None:
        first, second = asked.paths
        if first.endswith(STREAM) and not second.endswith(STREAM) and not os.path.isdir(second):
            asked.paths, asked.out = [first], second


def do_back(asked: argparse.Namespace, console: Console) -> int:
    part = part_of(asked)
    if asked.out is not None and asked.to is not None:
        raise Wrong("-o and --to exclude each other")
    take_out(asked)
    if asked.out is not None and asked.dask is not None:
        raise Wrong("OUT and --dask exclude each other: the workers write below --to DIR")
    passed: list[Passed] = []
    found = list(kept_files(asked.paths, passed))
    if asked.out is not None and len(found) > 1:
        raise Wrong("OUT needs a single FILE.aec: use --to for several")
    out = asked.out if asked.out in (None, "-") else os.path.abspath(asked.out)
    to = asked.to and os.path.abspath(asked.to)
    how = _restoring.Restoring(to, out, part, asked.limit)
    found = [it._replace(is_new=_restoring.is_free(how, it)) for it in found]
    status, counts = say_passed(console, passed), Counts()
    for it, outcome in dealt(asked, console, partial(_restoring.back, how), found):
        counts.add(it, outcome)
        if outcome.said:
            console.complain(f"{shown(it.name)}: {outcome.said}")
    if out != "-":
        text = counts.text({"restored": "restored", "refused": "refused"})
        if asked.json:
            console.say_json(counts.json())
        else:
            console.say(f"{text}; {counts.bytes} bytes" if counts.bytes else text)
    return status or int("refused" in counts.kinds)


def do_info(asked: argparse.Namespace, console: Console) -> int:
    passed: list[Passed] = []
    said: list[dict[str, Any]] = []
    found = list(kept_files(asked.paths, passed))
    status = say_passed(console, passed)
    for it in found:

        def work() -> int:
            with opened(it.path, asked.limit) as kept:
                if asked.json:
                    said.append(_showing.info_json(it.name, kept))
                else:
                    console.say("\n  ".join([shown(it.name), *_showing.info_lines(kept)]))
            return 0

        status |= guarded(console, it.name, work)
    if asked.json:
        console.say_json(said)
    return status


def do_export(asked: argparse.Namespace, console: Console) -> int:
    def work() -> int:
        _restoring.export(one_kept(asked.file), asked.out, asked.limit)
        return 0

    return guarded(console, asked.file, work)


def changed(
    asked: argparse.Namespace, console: Console, paths: list[str], work: Callable[[Found], Outcome]
) -> int:
    """Changes kept files, and prints what was done to each."""
    passed: list[Passed] = []
    found = list(kept_files(paths, passed))
    status = say_passed(console, passed)
    for it, outcome in dealt(asked, console, work, found, Unchanged(work)):
        if outcome.kind == "refused":
            status = console.complain(f"{shown(it.name)}: {outcome.said}")
        else:
            console.say(f"{shown(it.name)}: {outcome.said}")
    return status


def do_edit(asked: argparse.Namespace, console: Console) -> int:
    scripts = [word for word in asked.words if not word.endswith(STREAM)]
    files = [word for word in asked.words if word.endswith(STREAM)]
    if len(scripts) != 1 or not files:
        raise Wrong("name one script or table, and one or more files whose names end in .aec")
    name = scripts[0]
    is_table = asked.table or name.lower().endswith(TABLES)
    shape = shape_of(asked)

    def work() -> int:
        how = _editing.Editing(
            input_of(name), is_table, shape, asked.frame, asked.allow_empty, asked.limit
        )
        return changed(asked, console, files, partial(_editing.edit, how))

    return guarded(console, name, work)


def do_undo(asked: argparse.Namespace, console: Console) -> int:
    return changed(asked, console, asked.paths, partial(_editing.undo, asked.all, asked.limit))


def do_forget(asked: argparse.Namespace, console: Console) -> int:
    return changed(asked, console, asked.paths, partial(_editing.forget, asked.keep, asked.limit))


def do_log(asked: argparse.Namespace, console: Console) -> int:
    def work() -> int:
        with opened(one_kept(asked.file), asked.limit) as kept:
            history, options = kept.history(), kept.facts.options
        if asked.script is not None:
            console.write(_showing.script_in(history, asked.script, options))
        elif asked.json:
            console.say_json(_showing.log_json(history))
        else:
            console.say("\n".join(_showing.log_lines(history) or ["no history"]))
        return 0

    return guarded(console, asked.file, work)


DO: dict[str, Verb] = {
    "keep": do_keep,
    "back": do_back,
    "check": do_check,
    "info": do_info,
    "export": do_export,
    "edit": do_edit,
    "undo": do_undo,
    "log": do_log,
    "forget": do_forget,
    "diff": _looking.do_diff,
    "pixels": _looking.do_pixels,
    "fit": _looking.do_fit,
    "view": _looking.do_view,
    "rescue": _looking.do_rescue,
}
