"""The verb check: reads every kept file whole. Writes nothing."""

from __future__ import annotations

from typing import Optional

from aecp._console import reason
from aecp.archive._file import Progress, opened
from aecp.archive._form import Damaged
from aecp.archive._outcomes import Outcome, ranges_json, ranges_text
from aecp.archive._paths import Found
from aecp.archive._whole import judge


def check(limit: Optional[int], found: Found, progress: Progress = None) -> Outcome:
    """Returns whether a kept file is sound."""
    try:
        with opened(found.path, limit) as kept:
            try:
                judge(kept, progress)
            except Damaged as error:
                return damaged(error, kept.facts.count)
            return Outcome("sound", bytes=kept.facts.samples.bytes, coded=found.size)
    except Damaged as error:
        return damaged(error, 0)
    except OSError as error:
        return Outcome("unreadable", reason(error, found.path))
    except MemoryError:
        return Outcome("no memory", "there is too little memory to decode it")


def damaged(error: Damaged, count: int) -> Outcome:
    """Returns the outcome for a damaged file."""
    text = ranges_text(error.ranges, count) if error.ranges else reason(error, "")
    more = {"damage": error.kind, "ranges": ranges_json(error.ranges)}
    return Outcome("damaged", text, more=more)
