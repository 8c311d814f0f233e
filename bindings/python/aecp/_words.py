"""The arguments of the command aecp, and its help."""

from __future__ import annotations

import argparse
from typing import Any, Callable

from aecp import __version__
from aecp._console import Parser

ABOUT = """Keeps files of samples: each becomes one file, FILE.aec, that can be checked, edited,
and restored to every earlier state bit for bit. FILE.aec begins with a coded stream (CCSDS
121.0-B-3)."""
END = """`aecp help VERB` has a page for each verb. The status is 0 if all is done, 1 if something
is refused or damaged, 2 if the arguments are wrong."""
Group = Any  # a parser, or a group of its options
# For each verb: what it does, and examples.
VERBS = {
    "keep": (
        "codes files and folders",
        "Codes each file to FILE.aec. Decodes and compares before FILE.aec gets its name.\n"
        "Replaces nothing.",
        "aecp keep data -n 16                      every file in the folder data\n"
        "aecp keep data -n 16 --to /mnt/disk       the same, as /mnt/disk/data/..\n"
        "aecp keep scan.fits cube.npy              bits, sign, byte order, shape from headers\n"
        "aecp keep scan.raw --repair               scan.raw.aec is damaged: writes it anew\n"
        "aecp keep data --to /mnt/disk --repair    kept with --to: give the same PATH and DIR",
    ),
    "back": (
        "restores files",
        "Writes the samples of each kept file again, with its edits, and compares their checksum.\n"
        "For the original, run `aecp undo --all` first. Never writes over a file. After FILE.aec,\n"
        "OUT may name the new file.",
        "aecp back scan.raw.aec                    writes scan.raw\n"
        "aecp back data --to restored              writes restored/data/..\n"
        "aecp back scan.raw.aec -o -               to standard output\n"
        "aecp back scan.raw.aec -o part --range 100:50",
    ),
    "check": (
        "finds damage",
        "Reads each kept file whole, and names every damaged one with its damaged samples.\n"
        "Writes nothing.",
        "aecp check data",
    ),
    "info": ("prints options, count, shape, checksums", "", "aecp info scan.raw.aec"),
    "export": (
        "writes the plain coded stream",
        "Writes the coded stream alone. `aecp info` prints the options and count that decode it.",
        "aecp export scan.raw.aec scan.stream",
    ),
    "edit": (
        "applies a script or a table of pixels",
        "Applies SCRIPT to each kept file. All lines apply, or none. SCRIPT is the argument that\n"
        "doesn't end in .aec. A table has a name ending in .csv or .tsv, and columns such as row,\n"
        "column, value. Frames, rows, columns and places count from 0: subtract 1 from those of\n"
        "ds9 and FITS. A column named x means column, y means row. For a file of several frames,\n"
        "a table of rows and columns needs a column frame, or --frame K.",
        "echo 'overwrite 20 1 2 3' | aecp edit scan.raw.aec -\n"
        "aecp edit data/*.aec bad_pixels.csv",
    ),
    "undo": (
        "undoes the last edit",
        "Undoes the last edit of each kept file, bit for bit. Fails for a file without an edit to\n"
        "undo, except with --all.",
        "aecp undo scan.raw.aec\n"
        "aecp undo data --all                      all edits of every file in the folder data",
    ),
    "log": ("lists what was done", "", "aecp log scan.raw.aec\naecp log scan.raw.aec --script 3"),
    "forget": (
        "drops old history",
        "Drops the history except its last N entries. Dropped edits can't be undone any more.",
        "aecp forget scan.raw.aec --keep 10",
    ),
    "diff": (
        "prints which samples differ",
        "Prints the samples that differ: a table of rows and columns if both files have the same\n"
        "shape, else a script that turns A into B. `aecp edit A.aec` applies both.",
        "aecp diff old.raw.aec new.raw.aec > changes.csv",
    ),
    "pixels": (
        "turns a table into a script",
        "Prints the script that a table of pixels means, sorted by place.",
        "aecp pixels bad_pixels.csv --shape 512x512 > script",
    ),
    "fit": (
        "finds suitable options",
        "Prints the sizes with each block size and interval, and how many samples an edit codes\n"
        "again.",
        "aecp fit scan.raw -n 16\naecp fit data -n 16                       all files of a folder\n"
        "aecp fit --stream 4096 unknown.aec        which options decode a plain stream?",
    ),
    "view": (
        "draws samples in grey",
        "Draws samples in grey. Black is the 0.5th percentile, white the 99.5th.",
        "aecp view scan.raw.aec out.png            rows as the file's shape says\n"
        "aecp view scan.raw.aec out.pgm --width 512 --min 0 --max 4095",
    ),
    "rescue": (
        "writes what damage has left",
        "Writes all sound samples in their places, and V in the places of the others. Reads files\n"
        "that `back` refuses, and plain streams.",
        "aecp rescue scan.raw.aec out.raw --ranges lost.json\n"
        "aecp rescue stream out.raw -n 16 --count 4096",
    ),
}  # fmt: skip
FLAGS = {
    "-s": ("signed", "samples are signed"),
    "-m": ("msb_first", "a sample has its most significant byte first"),
    "-3": ("three_byte", "samples of 17 to 24 bits have three bytes"),
    "-t": ("restricted", "the restricted set of code options, for at most 4 bits"),
    "-p": ("pad", "fill each interval up to a byte boundary"),
    "--even-blocks": ("even_blocks", "J may be any even number from 8 to 64"),
}


def add_options(parser: Parser) -> None:
    """Adds the options of coding, which are those of `aec`."""
    group = parser.add_argument_group("options of coding")
    group.add_argument("-n", dest="bits", type=int, metavar="N", help="bits of a sample, 1 to 32")
    group.add_argument(
        "-j", dest="block_size", type=int, metavar="J",
        help="samples in a block: 8, 16, 32 or 64 (16)",
    )
    group.add_argument(
        "-r", dest="interval", type=int, metavar="R",
        help="blocks in an interval, 1 to 4096 (128)",
    )
    for word, (name, text) in FLAGS.items():
        group.add_argument(word, dest=name, action="store_true", help=text)
    group.add_argument("-N", dest="preprocess", action="store_false", help="predict nothing")


def add_shape(group: Group) -> None:
    """Adds the option --shape."""
    group.add_argument("--shape", metavar="512x512", help="sizes; the last one is that of a row")


def add_range(group: Group) -> None:
    """Adds the option --range."""
    group.add_argument(
        "--range", metavar="FIRST:LEN",
        help="LEN samples from place FIRST on, counted from 0",
    )


def add_running(parser: Parser, words: str) -> None:
    """Adds the options that several verbs share, as far as a verb has them."""
    group = parser.add_argument_group("running")
    if "jobs" in words:
        group.add_argument("--jobs", type=int, metavar="N", help="processes at once (one a core)")
    if "dask" in words:
        text = "deal the files to the workers of this dask scheduler"
        group.add_argument("--dask", metavar="ADDRESS", help=text)
    if "limit" in words:
        text = "refuse files of more than COUNT samples"
        group.add_argument("--limit", type=int, metavar="COUNT", help=text)
    if "json" in words:
        group.add_argument("--json", action="store_true", help="print the result as JSON")
    text = "print no progress and no notices"
    group.add_argument("-q", "--quiet", action="store_true", help=text)


def add_kept(parser: Parser, many: bool = True) -> None:
    """Adds the argument for kept files."""
    if many:
        parser.add_argument(
            "paths", nargs="+", metavar="PATH",
            help="a kept file, or a folder with all kept files below it",
        )
    else:
        parser.add_argument("file", metavar="FILE.aec", help="a kept file")


def add_keep(keep: Parser) -> None:
    keep.add_argument(
        "paths", nargs="+", metavar="PATH",
        help="a file, or a folder with all files below it",
    )
    where = keep.add_argument_group("which files, and where to")
    where.add_argument("--to", metavar="DIR", help="write below DIR, instead of beside each file")
    where.add_argument(
        "--include", action="append", default=[], metavar="PATTERN",
        help="in folders only files with such names, as '*.raw'; text files too",
    )
    where.add_argument(
        "--exclude", action="append", default=[], metavar="PATTERN",
        help="in folders no files with such names",
    )
    how = keep.add_argument_group("what is kept")
    how.add_argument(
        "--skip", type=int, metavar="BYTES",
        help="the samples begin after so many bytes, which are kept too",
    )
    add_shape(how)
    how.add_argument(
        "--dtype", metavar="TYPE",
        help="such as '<i2': sets -n, -s and -m, and is recorded",
    )
    how.add_argument("--raw", action="store_true", help="ignore the headers of .npy and FITS files")
    how.add_argument(
        "--anyway", action="store_true",
        help="keep a stream that is larger than its file",
    )
    after = keep.add_argument_group("files that are kept already")
    after.add_argument(
        "--rehash", action="store_true",
        help="compare contents, even if size and time are the same",
    )
    after.add_argument(
        "--repair", action="store_true",
        help="write a damaged FILE.aec anew, if the file's checksum is recorded in it; "
        "keep no file that has no FILE.aec",
    )
    after.add_argument(
        "--remove", action="store_true",
        help="remove each original that FILE.aec restores, if it hasn't changed meanwhile",
    )
    add_options(keep)


def add_back(back: Parser) -> None:
    add_kept(back)
    back.add_argument(
        "--to", metavar="DIR",
        help="write below DIR, instead of beside each kept file",
    )
    back.add_argument(
        "-o", dest="out", metavar="OUT",
        help="the name of the new file, for one FILE.aec; - is standard output",
    )
    add_range(back)


def add_export(export: Parser) -> None:
    add_kept(export, many=False)
    export.add_argument(
        "out", metavar="OUT", nargs="?", default="-",
        help="a new file; standard output without it",
    )


def add_edit(edit: Parser) -> None:
    edit.add_argument(
        "words", nargs="+", metavar="FILE.aec .. SCRIPT",
        help="kept files, and a script or a table; - is standard input",
    )
    edit.add_argument("--allow-empty", action="store_true", help="accept lines without values")
    edit.add_argument("--table", action="store_true", help="SCRIPT is a table, whatever its name")
    add_shape(edit)
    edit.add_argument(
        "--frame", type=int, metavar="K",
        help="the frame of a table without such a column, counted from 0",
    )


def add_undo(undo: Parser) -> None:
    add_kept(undo)
    undo.add_argument(
        "--all", action="store_true",
        help="undo all edits in the history of each file; a file without edits is no error",
    )


def add_log(log: Parser) -> None:
    add_kept(log, many=False)
    log.add_argument(
        "--script", type=int, metavar="K",
        help="print the script of the edit with this number",
    )


def add_forget(forget: Parser) -> None:
    add_kept(forget)
    forget.add_argument(
        "--keep", type=int, required=True, metavar="N",
        help="how many entries stay, 0 or more",
    )


def add_diff(diff: Parser) -> None:
    diff.add_argument("first", metavar="A.aec")
    diff.add_argument("second", metavar="B.aec")
    diff.add_argument(
        "--script", action="store_true",
        help="print a script, even if both files have a shape",
    )
    add_shape(diff)


def add_pixels(pixels: Parser) -> None:
    pixels.add_argument(
        "table", metavar="TABLE",
        help="CSV or TSV, rows and columns counted from 0; - is standard input",
    )
    add_shape(pixels)
    pixels.add_argument("--frame", type=int, metavar="K", help="the frame, counted from 0")


def add_fit(fit: Parser) -> None:
    fit.add_argument(
        "paths", nargs="+", metavar="PATH",
        help="a file, or a folder with all files below it",
    )
    fit.add_argument(
        "--all", action="store_true",
        help="try whole files, not only the first 4 MiB of each",
    )
    fit.add_argument(
        "--stream", type=int, metavar="COUNT",
        help="PATH is a plain stream of COUNT samples: print the options that decode it",
    )
    add_options(fit)


def add_view(view: Parser) -> None:
    add_kept(view, many=False)
    view.add_argument("out", metavar="OUT", help="a new file, named .png or .pgm")
    view.add_argument(
        "--width", type=int, metavar="W",
        help="samples of a row (else as the shape says)",
    )
    view.add_argument("--frame", type=int, metavar="K", help="the frame, counted from 0")
    view.add_argument("--min", type=int, metavar="V", help="the sample that is black")
    view.add_argument("--max", type=int, metavar="V", help="the sample that is white")
    add_range(view)
    view.add_argument(
        "--count", type=int, metavar="N",
        help="the number of samples of a plain stream; needs -n",
    )
    add_options(view)


def add_rescue(rescue: Parser) -> None:
    add_kept(rescue, many=False)
    rescue.add_argument(
        "out", metavar="OUT", nargs="?",
        help="a new file; without it, only the report",
    )
    rescue.add_argument(
        "--fill", type=int, default=0, metavar="V",
        help="the sample for lost places (0)",
    )
    rescue.add_argument(
        "--ranges", metavar="LIST.json",
        help="a new file for the list of lost ranges; - is standard output",
    )
    rescue.add_argument("--count", type=int, metavar="N", help="the number of samples; needs -n")
    add_range(rescue)
    add_options(rescue)


# The options of `add_running` that each verb has.
RUNNING = {
    "keep": "jobs dask limit json", "back": "jobs dask limit json", "check": "jobs dask limit json",
    "info": "limit json", "export": "limit", "edit": "limit", "undo": "limit", "log": "limit json",
    "forget": "limit", "diff": "limit json", "pixels": "", "fit": "jobs json", "view": "limit",
    "rescue": "limit json",
}  # fmt: skip
ADD: dict[str, Callable[[Parser], None]] = {
    "keep": add_keep, "back": add_back, "check": add_kept, "info": add_kept, "export": add_export,
    "edit": add_edit, "undo": add_undo, "log": add_log, "forget": add_forget, "diff": add_diff,
    "pixels": add_pixels, "fit": add_fit, "view": add_view, "rescue": add_rescue,
}  # fmt: skip


def parsers() -> tuple[Parser, dict[str, Parser]]:
    """Returns the parser of the command, and that of each verb."""
    top = Parser("aecp", description=ABOUT, epilog=END, allow_abbrev=False)
    top.add_argument("-V", "--version", action="version", version=f"aecp {__version__}")
    verbs = top.add_subparsers(dest="verb", metavar="VERB", required=True, title="verbs")
    made = {}
    for name, (short, long, examples) in VERBS.items():
        usual = argparse.RawDescriptionHelpFormatter
        text = long or f"{short[0].upper()}{short[1:]}."
        epilog = "\n  ".join(["examples:", *examples.split("\n")])
        verb = verbs.add_parser(
            name,
            help=short,
            description=text,
            epilog=epilog,
            formatter_class=usual,
            allow_abbrev=False,
        )
        ADD[name](verb)
        add_running(verb, RUNNING[name])
        verb.set_defaults(verb=name)
        made[name] = verb
    shown = verbs.add_parser("help", help="prints the page of a verb", allow_abbrev=False)
    shown.add_argument("of", nargs="?", metavar="VERB", choices=[*VERBS, "help"])
    made["help"] = shown
    return top, made
