"""Streams spelled by hand, by the rules of docs/FORMAT.md: samples of many widths, blocks of every option, runs and padding.

A row: the settings that aren't the program's default; the stream's bytes in base 16, or after `bits` its bits, with zeros added
up to a whole byte; a count, or `-`; and the samples that are read, or the fault. `0*8` is eight zeros.
"""

from lib.settings import Settings
from lib.spelling import bytes_of_bits
from lib.worked_streams import Worked

# Ten samples of each width.
WIDTHS = """\
n1 | FA 62 F0 | 10 | 1 0 0 1 1 1 0 1 0 0
n1 signed | EA 62 F0 | 10 | 0 -1 -1 0 0 0 -1 0 -1 -1
n3 | FF 96 72 04 04 FE | 10 | 7 0 1 3 2 6 7 7 0 2
n3 signed | EF 96 72 04 04 FE | 10 | 3 -4 -3 -1 -2 2 3 3 -4 -2
n9 signed | 87 F8 F1 FF 81 06 07 F0 20 0C 00 03 FF E2 00*4 | 10 | 255 -256 -255 -253 -254 254 255 255 -256 -254
n17 | 87 FF FC 78 FF FF C0 00 80 03 00 03 FF F8 00 10 00 07 00 00 FF FF F8 00 80 00*9 | 10 | 131071 0 1 3 2 131070 \
131071 131071 0 2
n24 signed | BB FF FF F8 F1 FF*3 00*2 04 00*2 30 00*2 7F FF FE 00*2 08 00*2 0A 80 00 FF*3 F0 00 02 00*15 | 10 | 8388607 \
-8388608 -8388607 -8388605 -8388606 8388606 8388607 8388607 -8388608 -8388606
n32 | FF*8 F8 00*3 08 00*3 18 00*3 0F FF*3 F0 00*3 10 00*3 07 40 00 7F FF*3 F8 00*2 01 00*22 | 10 | 4294967295 0 1 3 2 \
4294967294 4294967295 4294967295 0 2
"""

# Blocks of every option.
OPTIONS = """\
n1 r1 | bits 111 1 0110100  001 0 1 01 1 1 01 1 1  110 1 1*7 00001 00000*6  0001 0 001 1 1 01  0000 1 1 | 40 | 1 1 0 1 \
1 0 0 0  0 0 1 1 1 0 0 0  1 0 0 0 0 0 0 0  0 1 1 1 1 1 0 0  1*8
n1 r3 restricted signed | bits 1 1 0110100  01 01 001 00001 1  00 1  00 0 00001 | 48 | -1 -1 0 -1 -1 0 0 0  -1 -1 -1 0 \
-1 0 0 0  0*8  0*24
n2 J16 restricted signed unmapped | bits 1 00011011*4  01 1*7 0*24 1  00 1 | 48 | 0 1 -2 -1 0 1 -2 -1 0 1 -2 -1 0 1 -2 \
-1  0*14 -1 -1  0*16
n4 restricted | bits 01 0111 01 001 0001 1 1 0*14 1 1  10 1 1 01 01 001 001 00000001 1 0 1 0 1 0 1 1 1 11 1010 1111 \
1110 1101 1100 1011 0000 0001  001 0*7 1 0*9 1 1 01 | 32 | 7 6 7 5 5 5 14 14  14 13 14 12 14 10 0 1  10 0 14 2 12 4 4 3 \
 4 3 3 1 1 1 0 0
r1 | bits 111 00000011 00001010 11111010 00001111 00010100 00001010 11111100 00000011 | 8 | 3 10 250 240 250 255 3 1
r3 signed unmapped | bits 110 00000001 1 01 1 00001 0001 001 0000001 11111 00000 00000 00001 00000 11111 00000 01000 \
100 01 1 1 01 001 1 1 1 000 111 000 111 000 001 010 011  0000 1  0000 01  101 1*7 01 0000*8 | 48 | -1 0 32 1 -128 127 \
64 -56  8 7 0 15 16 1 2 3  0*8  0*16  0*7 16
n12 J16 signed | bits 1110 100000000000 1*15 0111111111111*15  00000 1  0101 000000000000 1*14 001 0000*14 0001 | 48 | \
-2048 2047 -2048 2047 -2048 2047 -2048 2047 -2048 2047 -2048 2047 -2048 2047 -2048 2047  2047*16  0*15 -17
n16 J32 r1 signed | bits 0001 0111111111111110 1*30 0*9 1 | 32 | 32766*31 32758
n20 r1 signed unmapped | bits 11110 1*8 0*9 1 0*19 0*203 | 8 | -524288 0*7
n32 r1 | bits 11110 0*32 00000001 1*5 01 1*29 0*145 0*29 | 8 | 0 4294967295*6 3758096383
n4 J64 r1 | bits 111 0101 0000*20 0001*3 0000*40 | 64 | 5*21 4 3 2*41
n1 r1 | bits 0001 0 0*22 1 1 1 1 | 8 | 0 1*7
n1 r1 | bits 0001 0 000001 1 1 1 | 8 | value too large at bit 0
 | bits 0001 00000000 1 1 00001 1 | - | 0*4 1 0*3
 | bits 001 00000000 1 1 1 01 01 1 1 | - | 0*4 1 0*3
 | 00 78 8F | 9 | 7*8 8
"""

# Blocks that aren't whole eights.
EVEN = """\
J10 r1 unmapped | bits 011 1 01 001 0001 01 001 0001 1 1 01  00 01 10 11 00 01 10 11 01 10 | 10 | 0 5 10 15 4 9 14 3 1 6
J10 r1 unmapped | bits 0001 1 01 001 0001 00001 | 10 | 0 0 1 0 0 1 2 0 1 1
J12 r1 | bits 0001 00000111 1 01 001 00001 1 000001 | 12 | 7 7 6 6 6 5 4 3 3 3 3 4
n12 J14 r1 signed unmapped | bits 1111 100000000000 011111111111*12 111111111111 | 14 | -2048 2047*12 -1
n1 J14 r1 unmapped | bits 110 1*14 00001*14 | 14 | 1*14
n1 J14 r1 unmapped | bits 110 1*14 00001*13 00010 | 14 | value too large at bit 0
n1 J10 r1 unmapped | bits 001 1*9 001 | 10 | value too large at bit 0
n2 J30 r1 restricted unmapped | bits 1 00011011*7 0010 | 30 | 0 1 2 3 0 1 2 3 0 1 2 3 0 1 2 3 0 1 2 3 0 1 2 3 0 1 2 3 0 2
J62 r2 | bits 0000 00000101 1  001 1*60 01 001 | 124 | 5*122 4 5
J10 r130 unmapped | bits 0000 00001 | - | 0*640
J10 r1 padded | bits 0000 00000111 1 111  001 00000001 1*8 01 | 20 | 7*10 1*9 0
"""

# Runs of zero blocks, where segments and intervals end, and intervals that are padded.
RUNS = """\
n1 r130 unmapped | bits 0000 0*62 1  111 10000000  0000 1  0000 00001  111 00000001  0000 00001  0000 1 | 1048 | 0*496 \
1 0*534 1 0*16
r64 unmapped | bits 0000 0*63 1  0000 1 | 512 | 0*512
r64 unmapped | bits 0000 0*64 1 | 512 | 0*512
r64 unmapped | bits 0000 0*65 1 | 512 | zero run too long at bit 0
r65 | bits 0000 00000111 0001  0000 00001  0000 00001  0000 00001000 00001 | 1032 | 7*520 8*512
r5 | bits 0000 00000111 000001  0000 00001000 00001 | 80 | 7*40 8*40
r5 | bits 0000 00000111 01  0000 00001  0000 00001000 0000001 | 48 | zero run too long at bit 23
r4096 | bits 0000 00000000 00001  000000001*2  001 1*7 0*9 1  0000 00001 | 1600 | 0*1543 9*57
n1 J16 r4096 | bits 0000 1 00001  0000 00001 | 2048 | 1*2048
n2 J64 r3 signed | bits 0000 10 000000001 | - | zero run too long at bit 0
n2 J64 r3 signed | bits 0000 10 00001 | - | -2*192
r1 padded | bits 0000 00000111 1 111  0000 00001000 1 010  001 00000001 1*7 000001 | - | 7*8 8*8 1*8
n3 J16 restricted padded | bits 000 101 1  11 000*15 111 1010101  000 011 01 | 64 | 5*31 0 3*32
r1 unmapped padded | bits 111 00000001*8 11111  0000 1 111  111 11111111*8 00000 | 24 | 1*8 0*8 255*8
 |  | - |
 |  | 8 | coded data is cut short at bit 0
"""

NUMBERS = {"n": "bits", "J": "block_size", "r": "interval"}
SWITCHES = {
    "signed": ("signed", True),
    "restricted": ("restricted", True),
    "padded": ("pad", True),
    "unmapped": ("preprocess", False),
}


def settings_of(cell):
    asked = dict(SWITCHES[word] if word in SWITCHES else (NUMBERS[word[0]], int(word[1:])) for word in cell.split())
    return Settings.of_blocks(**asked)


def repeated(cell):
    """Yields the words of a cell, each as often as it says."""
    for word in cell.split():
        text, _, times = word.partition("*")
        yield from [text] * int(times or 1)


def stream_of(cell):
    is_bits = cell.startswith("bits")
    text = "".join(repeated(cell.removeprefix("bits")))
    return bytes_of_bits(text) if is_bits else bytes.fromhex(text)


def worked(row):
    settings, stream, count, answer = (cell.strip() for cell in row.split("|"))
    is_fault = " at bit " in answer
    samples = None if is_fault else [int(word) for word in repeated(answer)]
    return Worked(
        stream_of(stream), settings_of(settings), None if count == "-" else int(count), samples, answer if is_fault else None
    )


SPELLED = [worked(row) for row in (WIDTHS + OPTIONS + EVEN + RUNS).splitlines()]
