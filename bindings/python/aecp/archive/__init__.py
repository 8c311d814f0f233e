"""Archives of one file each: FILE.aec, a coded stream with an index, its options, sums and history.

aecp.open, aecp.create, aecp.pack and aecp.unpack are those of this package. docs/ARCHIVE.md
describes the form, so that other programs can read it too.
"""

from aecp.archive._file import ArchiveFile, opened
from aecp.archive._form import Damaged, Exists, Facts, Range, Refused, Source, State, Sum
from aecp.archive._history import Entry
from aecp.archive._index import Group, Index
from aecp.archive._samples import Samples, open
from aecp.archive._saving import Busy
from aecp.archive._stored import Difference, Inverse, Pixels, Script, Values
from aecp.archive._writer import Creation, Writer, create, pack, unpack

__all__ = [
    "ArchiveFile",
    "Busy",
    "Creation",
    "Damaged",
    "Difference",
    "Entry",
    "Exists",
    "Facts",
    "Group",
    "Index",
    "Inverse",
    "Pixels",
    "Range",
    "Refused",
    "Samples",
    "Script",
    "Source",
    "State",
    "Sum",
    "Values",
    "Writer",
    "create",
    "open",
    "opened",
    "pack",
    "unpack",
]
