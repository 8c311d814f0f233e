"""Edits by scripts, worked out by hand: streams, scripts, and results or refusals. And lines that are no edit."""

from typing import NamedTuple, Optional


class Example(NamedTuple):
    """A run with --edit. A file that is None isn't there."""

    what: str
    script: Optional[bytes]
    source: Optional[bytes]
    dest: Optional[bytes]
    refusal: Optional[str] = None
    count: Optional[int] = None


ZEROS = bytes.fromhex("00 04 00 10 00 40")  # 48 zeros
ONE_CHANGED = bytes.fromhex("00 04 40 30 C2 00 08")  # 48 zeros, but a 1 at place 20
MORE_ZEROS = bytes.fromhex("00 04 00 10 00 40 01")  # 64 zeros
SEVENS = bytes.fromhex("00 78")  # five sevens
FOREIGN = bytes.fromhex("40 15 55 80")  # 0 to 7, coded otherwise than by this program
RAMP = bytes.fromhex("20 09 24 92")
FIVE_LINES = b"append 1\n\nappend 2 256\nappend 3\nappend 4\n"
SIXTEEN = b" 0" * 16

EXAMPLES = [
    Example("one sample of three intervals", b"overwrite 20 1", ZEROS, ONE_CHANGED),
    Example("an empty script", b"", FOREIGN, RAMP),
    Example("a script of comments", b"# nothing\r\n\n \t\n\t#\0\xff", FOREIGN, RAMP),
    Example("an append", b"append 7 7 7 8\n", SEVENS, bytes.fromhex("00 78 8F"), count=5),
    Example("a cut", b"truncate 5\r\n", bytes.fromhex("00 78 8F"), SEVENS, count=9),
    Example("a cut to nothing", b"truncate 0", SEVENS, b""),
    Example("edits of no samples", b"append\noverwrite 0\ntruncate 0", b"", b""),
    Example("samples from nothing", b"append 0 1 2 3 4 5\nappend 6 007", b"", RAMP),
    Example("a value out of range", b"overwrite 0 256", b"\0\x08", None, "line 1: sample 0 is out of range"),
    Example("a refused line of five", FIVE_LINES, ZEROS, None, "line 3: sample 1 is out of range"),
    Example("a place before a value", b"overwrite 47 1 256", ZEROS, None, "line 1: position outside the 48 samples"),
    Example("a place past the end", b"overwrite 49", ZEROS, None, "line 1: position outside the 48 samples"),
    Example("no values at the end", b"overwrite 48", ZEROS, ZEROS),
    Example("the filler counts", b"truncate 9", SEVENS, None, "line 1: position outside the 8 samples"),
    Example("the count counts", b"truncate 6", SEVENS, None, "line 1: position outside the 5 samples", count=5),
    Example("a bad line", b"append 1\n\ntruncate x", ZEROS, None, "script line 3 is not an edit"),
    Example("a bad line and no SOURCE", b"append x", None, None, "script line 1 is not an edit"),
    Example("a bad line after a refused edit", b"truncate 99\nx", ZEROS, None, "script line 2 is not an edit"),
    Example("no SCRIPT", None, ZEROS, None, "read failed"),
    Example("no SCRIPT and a cut SOURCE", None, b"\x20", None, "read failed"),
    Example("no SOURCE", b"append 1", None, None, "read failed"),
    Example("a cut SOURCE", b"truncate 99", b"\x20\x09\x24", None, "coded data is cut short at bit 0"),
    Example("a count too great", b"", SEVENS, None, "coded data is cut short at bit 13", count=9),
    Example("too many samples", b"", SEVENS, None, "more than 4294967296 samples", count=2**32 + 1),
    Example("a great place", b"overwrite 18446744073709551615 1", ZEROS, None, "line 1: position outside the 48 samples"),
    Example("a great count", b"truncate 18446744073709551615", ZEROS, None, "line 1: position outside the 48 samples"),
    Example("a great value", b"append 9223372036854775807", ZEROS, None, "line 1: sample 0 is out of range"),
    Example("the least value", b"append 0 -9223372036854775808", ZEROS, None, "line 1: sample 1 is out of range"),
    # Insertions of whole intervals and of a part, at the front, within, and at the end, where they are appends.
    Example("an interval between two", b"insert 16" + SIXTEEN, ZEROS, MORE_ZEROS),
    Example("an interval within one", b"insert 8" + SIXTEEN, ZEROS, MORE_ZEROS),
    Example("one after an interval", b"insert 16" + SIXTEEN + b"\ninsert 20 0", ZEROS, bytes.fromhex("00 04 00 10 00 40 01 00 08")),
    Example("a 1 between zeros", b"insert 20 1", ZEROS, bytes.fromhex("00 04 40 30 C2 00 08 00 40")),
    Example("values within others", b"truncate 0\nappend 0 1 2 5 6 7\ninsert 3 3 4", SEVENS, RAMP),
    Example("values at the front", b"insert 0 0 1 2 3\n", bytes.fromhex("20 84 9F"), RAMP, count=4),
    Example("values at the end", b"insert 5 7 7 7 8", SEVENS, bytes.fromhex("00 78 8F"), count=5),
    Example("values into nothing", b"insert 0 0 1 2 3 4 5 6 7", b"", RAMP),
    Example("insertions of nothing", b"insert 0\ninsert 20\ninsert 48", ZEROS, ZEROS),
    Example("an insertion past the end", b"insert 49", ZEROS, None, "line 1: position outside the 48 samples"),
    Example("its place before its values", b"insert 49 256", ZEROS, None, "line 1: position outside the 48 samples"),
    Example("its value out of range", b"insert 48 0 256", ZEROS, None, "line 1: sample 1 is out of range"),
    Example("its line", b"remove 0 8\n#\ninsert 40\ninsert 0 256", ZEROS, None, "line 4: sample 0 is out of range"),
    Example("its great place", b"insert 18446744073709551615 1", ZEROS, None, "line 1: position outside the 48 samples"),
    # Removals of whole intervals and of a part, at the front, within, and up to the end, where they are cuts.
    Example("an interval taken out", b"remove 0 16", ONE_CHANGED, bytes.fromhex("10 0C 30 80 02")),
    Example("two halves taken out", b"remove 8 16", MORE_ZEROS, ZEROS),
    Example("a removal after an insertion", b"insert 20 1\nremove 20 1", ZEROS, ZEROS),
    Example("samples between others", b"truncate 0\nappend 0 1 9 9 2 3 4 5 6 7\nremove 2 2", SEVENS, RAMP),
    Example("a removal up to the end", b"remove 5 4", bytes.fromhex("00 78 8F"), SEVENS, count=9),
    Example("all taken out", b"remove 0 48", ZEROS, b""),
    Example("removals of nothing", b"remove 0 0\nremove 20 0\nremove 48 0", ZEROS, ZEROS),
    Example("one past the end", b"remove 48 1", ZEROS, None, "line 1: position outside the 48 samples"),
    Example("none past the end", b"remove 49 0", ZEROS, None, "line 1: position outside the 48 samples"),
    Example("a great length", b"remove 0 18446744073709551615", ZEROS, None, "line 1: position outside the 48 samples"),
    Example("a sum past all numbers", b"remove 2 18446744073709551615", ZEROS, None, "line 1: position outside the 48 samples"),
    Example("the count after a removal", b"remove 0 1\nremove 40 8", ZEROS, None, "line 2: position outside the 47 samples"),
]

# Lines that are no edit, each for a reason of its own.
BAD_LINES = [
    b"overwrite",
    b"truncate",
    b"truncate 1 2",
    b"truncate x",
    b"truncate -0",
    b"truncate +0",
    b"truncate 18446744073709551616",
    b"overwrite 18446744073709551616",
    b"overwrite x 1",
    b"overwrite -0 1",
    b"overwrite +0 1",
    b"overwrite 0 x",
    b"overwrite 0,1",
    b"overwrite 0 1 # why",
    b"append +1",
    b"append - 1",
    b"append -",
    b"append --1",
    b"append 1-",
    b"append 9223372036854775808",
    b"append -9223372036854775809",
    b"append 99999999999999999999999999999999",
    b"append 0x1",
    b"append 1.0",
    b"append 1e1",
    b"append 1_0",
    b"insert",
    b"insert x 1",
    b"insert -0 1",
    b"insert +0",
    b"insert 18446744073709551616",
    b"insert 0 x",
    b"insert 0 +1",
    b"insert 0 9223372036854775808",
    b"insert 0 -9223372036854775809",
    b"insert 0 1 # why",
    b"Insert 0 1",
    b"inserts 0",
    b"insert0 1",
    b"remove",
    b"remove 1",
    b"remove x 1",
    b"remove 1 x",
    b"remove 1 2 3",
    b"remove 1 -0",
    b"remove -0 1",
    b"remove 1 +0",
    b"remove 1:2",
    b"remove 18446744073709551616 0",
    b"remove 0 18446744073709551616",
    b"remove 1 1 # why",
    b"REMOVE 0 0",
    b"removes 0 0",
    b"append 0 1, 2",
    b"append 0\r 1",
    b"append 0\r\r",
    b"\r\r",
    b"append 0\x0b1",
    b"append 0 \x0c",
    b"append 0\0",
    b"append \xff",
    b"append \xd9\xa1",
    b"\xc2\xa0append 0",
    b"\xef\xbb\xbfappend 0",
    b"\0",
    b"Append 1",
    b"APPEND",
    b"appends 1",
    b"append1",
    b"append#",
    b"delete 0",
    b"-",
    b"0",
]
# Lines that do nothing.
SKIPPED_LINES = [b"", b" ", b"\t \t", b"#", b"# append 1", b"\t#x \0\x80\xff", b"#overwrite", b"##\r#"]
