"""Lists of edits, written as a script for the library."""

from __future__ import annotations

from collections.abc import Iterable
from typing import Any, Union

from aecp.buffers import Readable, Source
from aecp.calls import place
from aecp.samples import TEXTS, Numbers

Edit = tuple[Any, ...]
Edits = Union[str, Readable, Iterable[Edit]]
FORMS = {
    "overwrite": ("first", "samples"),
    "append": ("samples",),
    "truncate": ("count",),
    "insert": ("first", "samples"),
    "remove": ("first", "length"),
}  # the arguments of each edit


def is_script(edits: Any) -> bool:
    """Returns whether edits are given as a script, not as a list."""
    return isinstance(edits, TEXTS)


def script_of(edits: Any) -> Source:
    """Returns edits as a script: a script unchanged, a list as one line for each edit. Raises TypeError, ValueError or OverflowError,
    with the index of the edit in its text, for an edit that is none."""
    if isinstance(edits, str):
        edits = edits.encode()
    elif not is_script(edits):
        if not hasattr(edits, "__iter__"):
            raise TypeError(f"edits must be a list of tuples, text or bytes, not {type(edits).__name__}")
        edits = "".join(numbered_line(index, edit) for index, edit in enumerate(edits)).encode()
    return Source(edits, "edits")


def numbered_line(index: int, edit: Any) -> str:
    """Returns the line of an edit as line_of. The exceptions name its index."""
    try:
        return line_of(edit)
    except TypeError as error:
        raise TypeError(f"edits[{index}]: {error}") from error
    except OverflowError as error:
        raise OverflowError(f"edits[{index}]: {error}") from error
    except ValueError as error:
        raise ValueError(f"edits[{index}]: {error}") from error


def line_of(edit: Any) -> str:
    """Returns the line of an edit. Raises TypeError if it is no tuple, or if an argument has a wrong type; ValueError if no edit has its
    name, or if a place doesn't fit 64 bits; OverflowError if a sample doesn't."""
    if not isinstance(edit, tuple) or not edit:
        raise TypeError(f"an edit must be a tuple such as ('insert', first, samples), not {edit if edit == () else type(edit).__name__}")
    name, *given = edit
    if not isinstance(name, str):
        raise TypeError(f"the name of an edit must be text, not {type(name).__name__}")
    if name not in FORMS:
        raise ValueError(f"no edit has the name {name!r}: it must be one of {', '.join(FORMS)}")
    form = FORMS[name]
    if len(given) != len(form):
        raise TypeError(f"{name!r} takes {len(form)} arguments ({', '.join(form)}), not {len(given)}")
    return " ".join([name, *(word_of(argument, value) for argument, value in zip(form, given))]) + "\n"


def word_of(argument: str, value: Any) -> str:
    """Returns an argument as a script has it: a number, or the numbers of samples."""
    if argument != "samples":
        return str(place(value, argument))
    return " ".join(map(str, Numbers(value).samples.tolist()))
