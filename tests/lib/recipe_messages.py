"""GRIB2 messages that the tests make themselves, from the format's rules, so that grib_ccsds.py is
tested where eccodes isn't there."""

import os
import struct

from lib.recipe_calls import EXAMPLES, called
from lib.settings import Settings

import grib_ccsds

PACKS = "packs it by CCSDS; then compare all values"
PACK_ANEW = f"`grib_set -r -s packingType=grid_ccsds FILE message.grib` {PACKS}"
WITHOUT_D = f"`grib_set -r -s packingType=grid_ccsds,decimalScaleFactor=0 FILE message.grib` {PACKS}"
CONVERT = "the message has edition 1, not 2: `grib_set -s edition=2 FILE two.grib` converts it, and"
SPECTRAL = "spectral coefficients: transform them to a grid first (cdo sp2gp)"
SIGN = 1 << 15  # of the two bytes of a scale factor
SCALE = 250.0, SIGN | 9, 0  # R, E = -9 and D
HEAD = 16  # bytes of section 0
GRIB = os.path.join(EXAMPLES, "grib_ccsds.py")


def section(number, body):
    return struct.pack(">IB", len(body) + 5, number) + body


def message(stream, count, settings, flags, template=42, bits=None, edition=2, more=b"", scale=SCALE):
    """Returns a message with this stream. `more` follows section 7. The scale is R, E and D."""
    bits = settings.bits if bits is None else bits
    packing = struct.pack(">fHHBBB", *scale, bits, 0, flags)
    packing += struct.pack(">BH", settings.block_size, settings.interval)
    body = section(1, bytes(16)) + section(3, bytes(67)) + section(4, bytes(29))
    body += section(5, struct.pack(">IH", count, template) + packing)
    body += section(6, b"\xff") + section(7, stream) + more + b"7777"
    return b"GRIB\0\0\0" + bytes([edition]) + struct.pack(">Q", len(body) + 16) + body


def drawn_settings(chance, bits):
    """Returns random settings that a message may have, and its flags."""
    settings = Settings.by_chance(chance, [bits], [8, 16, 32, 64], [1, 2, 64, 128, 4096], 0)
    restricted = bits <= 4 and chance.random() < 0.3
    settings = settings._replace(bits=bits, pad=False, restricted=restricted)
    places = [
        settings.signed,
        settings.three_byte,
        settings.msb_first,
        settings.preprocess,
        settings.restricted,
        False,
        settings.even_blocks,
    ]
    return settings, sum(1 << place for place, is_set in enumerate(places) if is_set)


def drawn_samples(chance, settings, count):
    x, samples = settings.least(), []
    for _ in range(count):
        x = min(max(x + chance.randint(-9, 10), settings.least()), settings.most())
        samples.append(x)
    return samples


def try_message(number, chance, aec, tally):
    """Tests a message with samples of so many bits: its options, its stream, an edit, and values.
    Another message after it must stay."""
    settings, flags = drawn_settings(chance, 1 + number % 32)
    samples = drawn_samples(chance, settings, chance.randint(1, 700))
    stream = aec.answer(settings.options(), settings.stored(samples))
    data, tail = message(stream, len(samples), settings, flags), b"GRIB what stands behind"
    what, source, taken, out = f"own message {number}", *map(aec.file, "mso")
    aec.write("m", data + tail)
    wanted = " ".join(["--count", str(len(samples)), *settings.options()])
    status, said = called(grib_ccsds.options, source)
    tally.check(f"{what}: options", (status, sorted(said.split())), (0, sorted(wanted.split())))
    answer = called(grib_ccsds.take, source, taken)
    tally.check(f"{what}: take", (answer, aec.read("s")), ((0, ""), stream))

    place, x = chance.randrange(len(samples)), chance.randint(settings.least(), settings.most())
    aec.write("script", b"insert %d %d\nremove %d 1\n" % (place, x, place + 1))
    samples[place] = x
    stream = aec.answer(settings.options(), settings.stored(samples))
    edited = message(stream, len(samples), settings, flags) + tail
    answer = called(grib_ccsds.edit, aec.path, aec.file("script"), source, out)
    tally.check(f"{what}: edit", (answer, aec.read("o")), ((0, ""), edited))
    aec.write("s", stream)
    answer = called(grib_ccsds.put, aec.path, source, taken, out)
    tally.check(f"{what}: put", (answer, aec.read("o")), ((0, ""), edited))
    first, length = place, chance.randint(0, len(samples) - place)
    numbers = [x % (1 << settings.bits) for x in samples[first : first + length]]
    answer = called(grib_ccsds.values, aec.path, out, f"{first}:{length}")
    lines = "".join(f"{it} {250 + x * 2.0 ** -9}\n" for it, x in enumerate(numbers, first))
    tally.check(f"{what}: values", answer, (0, f"place value\n{lines}"))
    try_fit(what, stream, (source, taken, out), aec, tally)


def try_fit(what, stream, paths, aec, tally):
    """Tries to store streams that don't fit a message: cut ones, and one with a byte more."""
    aec.write("o", b"old")
    for name, other in (("cut", stream[:-1]), ("none", b""), ("longer", stream + b"\0")):
        aec.write("s", other)
        status, said = called(grib_ccsds.put, aec.path, *paths)
        is_so = status == 1 and said.startswith("the stream doesn't fit the message: ")
        tally.holds(is_so and aec.read("o") == b"old", f"{what}: put {name}: {said}")


def made_1(decimal, grid=0):
    """Returns a message of edition 1 with this decimal scale factor and representation of data."""
    first = (28).to_bytes(3, "big") + bytes(4) + b"\x80" + bytes(18) + struct.pack(">H", decimal)
    second = (32).to_bytes(3, "big") + bytes([0, 255, grid]) + bytes(26)
    body = first + second + (12).to_bytes(3, "big") + bytes(9) + b"7777"
    return b"GRIB" + (len(body) + 8).to_bytes(3, "big") + b"\1" + body


def spectral(data):
    """Returns the message with grid template 3.50."""
    return data.replace(section(3, bytes(67)), section(3, bytes(7) + b"\0\x32" + bytes(58)))


def bad_messages(good, settings):
    def made(stream=b"", flags=8, **more):
        return message(stream, 8, settings, flags, **more)

    size = len(good)
    other = "the field has data representation template 5.{}, not 5.42"
    repeated = "the message repeats sections: split it into one message a field"
    return [
        (b"BUFR" + good[4:], "{m} contains no GRIB message"),
        (b"", "{m} contains no GRIB message"),
        (good[:10], "the message is cut: only 10 bytes are there"),
        (good[:-1], f"the message is cut: {size - 1} of its {size} bytes are there"),
        (good[:-4] + b"7778", f"the message is cut or damaged: at byte {size - 4} no section fits"),
        (good[:8] + bytes(8), "the message is cut or damaged: at byte 16 no section fits"),
        (made(edition=3), "the message has edition 3, not 2"),
        (made_1(0), f"{CONVERT} {PACK_ANEW.replace('FILE', 'two.grib')}"),
        (made_1(2), f"{CONVERT} {WITHOUT_D.replace('FILE', 'two.grib')}"),
        (made_1(SIGN | 1), f"{CONVERT} {WITHOUT_D.replace('FILE', 'two.grib')}"),
        (made_1(0, 50), f"the message has edition 1, not 2: {SPECTRAL}"),
        (made(template=40), f"{other.format(40)}: {PACK_ANEW}"),
        (made(template=0, scale=(250.0, 9, 2)), f"{other.format(0)}: {WITHOUT_D}"),
        (made(template=3, scale=(250.0, 2, SIGN | 1)), f"{other.format(3)}: {WITHOUT_D}"),
        (made(template=3, scale=(250.0, 0, SIGN | 1)), f"{other.format(3)}: {PACK_ANEW}"),
        (made(template=0, scale=(250.0, 9, 0)), f"{other.format(0)}: {PACK_ANEW}"),
        (made(template=4), f"{other.format(4)}: {WITHOUT_D}"),  # IEEE: no D at these octets
        (made(template=50), f"{other.format(50)}: {SPECTRAL}"),
        (made(template=51), f"{other.format(51)}: {SPECTRAL}"),
        (spectral(made(template=4)), f"{other.format(4)}: {SPECTRAL}"),
        (spectral(good), f"the field has {SPECTRAL}"),
        (made(bits=0), "the field is constant: it has no stream. eccodes' Python can pack it anew with other values"),
        (made(bits=33), "a value has 33 bits, more than 32"),
        (made(b"\0\x78", 40), "intervals are padded (flag 32): -p of aec has another rule"),
        (made(more=section(7, b"")), repeated),
        (made(more=section(4, b"")), repeated),
        (good[:8] + struct.pack(">Q", 20) + b"7777", "the message has no section 5"),
    ]


def try_bad_messages(aec, script, tally):
    settings = Settings(bits=8, block_size=8, interval=2)
    good = message(bytes.fromhex("20 09 24 92"), 8, settings, 8)
    source, out = aec.file("m"), aec.file("out")
    for data, text in bad_messages(good, settings):
        for action, *words in (
            (grib_ccsds.options, source),
            (grib_ccsds.take, source, out),
            (grib_ccsds.put, aec.path, source, source, out),
            (grib_ccsds.values, aec.path, source, "0:1"),
            (grib_ccsds.put_values, aec.path, source, "0", "250", out),
            (grib_ccsds.edit, aec.path, source, source, out),
        ):
            aec.write("m", data)
            aec.write("out", b"old")
            answer = called(action, *words), aec.read("out")
            wanted = (1, text.format(m=source)), b"old"
            tally.check(f"{action.__name__}: {text}", answer, wanted)
    aec.write("m", good)
    for lines, text in (
        (b"append 1", "the script leaves 9 values, not the 8 of the message"),
        (b"truncate 7", "the script leaves 7 values, not the 8 of the message"),
        (b"remove 0 2\ninsert 0 1", "the script leaves 7 values, not the 8 of the message"),
        (b"overwrite 0 256", "aec: line 1: sample 0 is out of range"),
        (b"overwrite", "aec: script line 1 is not an edit"),
    ):
        aec.write("script", lines)
        answer = script.run(GRIB, "edit", aec.path, "script", "m", "out")
        tally.check(f"script {lines}", answer, (1, f"grib_ccsds.py: {text}\n"))
        tally.check(f"script {lines}: OUT", aec.read("out"), b"old")
    answer = called(grib_ccsds.count_after, b"overwrite 0 1\n#swap 1\n\r\nswap 0 1", 8)
    tally.check("an unknown kind", answer, (1, "what swap does to the count isn't known"))
    aec.write("script", b"overwrite 0 1")
    try_words(aec, script, tally)
    tally.check("FILE stays", aec.read("m"), good)
    try_scales(settings, aec, tally)
    try_several(aec, script, tally)


def try_words(aec, script, tally):
    """Tries words that the script refuses, missing files, and an OUT that is also read."""
    no_program = "is no program: the words begin with AEC, the program's name or path; see --help"
    aec.write("notes", b"no program")
    aec.write("program", aec.read("m"))
    os.chmod(aec.file("program"), 0o755)
    for words, wanted, text in (
        (["edit", aec.path, "script", "m", "m"], 1, "m is read, so it can't be written too"),
        (["edit", aec.path, "m", "m"], 2, "edit takes the words AEC SCRIPT FILE OUT [--message N]; see --help"),
        (["options"], 2, "options takes the words FILE [--message N]; see --help"),
        (["values"], 2, "values takes the words AEC FILE [FIRST:LEN], or AEC FILE TABLE [--message N] [--at LAT,LON] [--within D"),
        ([], 2, "the first word must be one of options, values, set, take, put, edit"),
        (["change", "m"], 2, "the first word must be one of options, values, set, take, put, edit"),
        (["options", "none"], 1, "none: No such file or directory"),
        (["take", "m", "none/out"], 1, "No such file or directory"),
        (["options", "m", "--message", "2"], 1, "m has 1 message, none with the number 2"),
        (["options", "m", "--message", "0"], 2, "0 is no number of a message"),
        (["options", "m", "--message"], 2, " is no number of a message"),
        (["options", "m", "--message=1", "--message=1"], 2, "--message is given twice"),
        (["values", aec.path, "m", "3"], 2, "3 is no FIRST:LEN, and no file"),
        (["values", aec.path, "m", "3:-1"], 2, "-1 is no number of values"),
        (["values", aec.path, "m", "7:2"], 1, ".py: there is no place 8: the last one is 7\n"),
        (["values", aec.path, "m", "9:0"], 1, ".py: there is no place 9: the last one is 7\n"),
        (["values", aec.path, "m", "16.4", "--at", "48.2"], 2, "48.2 is no LAT,LON"),
        (["values", "m", "0:3"], 2, f"m {no_program}"),
        (["values", "notes", "m"], 2, f"notes {no_program}"),
        (["set", "m", "0", "250", "o"], 2, f"m {no_program}"),
        (["set", "m", "t", "o"], 2, f"m {no_program}"),
        (["put", "m", "m", "m", "o"], 2, f"m {no_program}"),
        (["edit", "m", "script", "m", "o"], 2, f"m {no_program}"),
        (["values", "./program", "0:3"], 2, f"./program {no_program}"),
        (["set", aec.path, "m", "100", "280"], 2, "100 is no file. As a PLACE it needs a VALUE and OUT after it; see"),
        (["values", aec.path, "m", "0:1", "--at", "48.2,16.4"], 2, "FIRST:LEN or a TABLE, and --at, exclude each other"),
        (["values", aec.path, "m", "--at", "48.2"], 2, "48.2 is no LAT,LON"),
        (["values", aec.path, "none", "--at=48.2,x"], 2, "x is no value"),
        (["values", aec.path, "none", "--at=x,16.4"], 2, "x is no value"),
        (["values", aec.path, "none", "--at=48.2,361"], 2, "48.2 361 is no place of the earth: latitudes are -90"),
        (["values", aec.path, "none", "--at=-91,16.4"], 2, "the earth: latitudes are -90 to 90, longitudes -360 to 360"),
        (["values", aec.path, "none", "--at=48.2,1e400"], 2, "1e400 is too large"),
        (["values", aec.path, "none", "--at=nan,1"], 2, "nan is no value"),
        (["values", aec.path, "none", "--at=48.2,16.4", "--within", "1e400"], 2, "1e400 is too large"),
        (["values", aec.path, "none", "--at=48.2,16.4", "--within", "nan"], 2, "nan is no value"),
        (["values", aec.path, "none", "--within", "1"], 2, "--within needs --at"),
        (["values", aec.path, "none", "0:1", "--within=1"], 2, "--within needs --at, or a TABLE"),
        (["values", aec.path, "none", "none"], 2, "none is no FIRST:LEN, and no file"),
        (["values", aec.path, "m", "--message", "1" * 5000], 2, "111 is no number of a message"),
        (["values", aec.path, "m", "--at", "-48.2,16.4"], 1, "where the points lie isn't known: the grid has 0 points"),
        (["set", aec.path, "m", "o"], 2, "set takes the words AEC FILE TABLE OUT, or AEC FILE PLACE VALUE OUT [--"),
        (["set", aec.path, "m", "o"], 2, "OUT [--message N] [--within DEGREES]; see --help"),
        (["set", aec.path, "m", "t", "o", "--within", "x"], 2, "x is no value"),
        (["set", aec.path, "m", "t", "o", "--within", "-1"], 2, "-1 is no distance in degrees"),
        (["set", aec.path, "none", "0", "250", "o", "--within", "1"], 2, "--within needs a TABLE"),
        (["set", aec.path, "m", "none", "o"], 1, "none: No such file or directory"),
        (["set", aec.path, "m", "-1", "1", "o"], 2, "-1 is no place"),
        (["set", aec.path, "m", "0", "x", "o"], 2, "x is no value"),
        (["set", aec.path, "m", "0", "1e400", "o"], 2, "1e400 is too large"),
        (["set", aec.path, "m", "0", "280,5", "o"], 2, "280,5 has a comma: write decimals with a point"),
        (["set", aec.path, "m", "0", "250", "o", "--message="], 2, " is no number of a message"),
        (["set", aec.path, "m", "0", "250", "-"], 2, "- is no name of a file to write"),
        (["take", "m", "-"], 2, "- is no name of a file to write"),
        (["set", aec.path, "m", "8", "250", "o"], 1, "there is no place 8: the last one is 7"),
        (["set", aec.path, "m", "0", "249.99", "o"], 1, "249.99 doesn't fit the packing: 250.0 to"),
        (["set", aec.path, "m", "0", "250.5", "o"], 1, "250.5 doesn't fit the packing: 250.0 to"),
    ):
        status, said = script.run(GRIB, *words)
        is_so = status == wanted and said.count("\n") == 1 and text in said
        tally.holds(is_so, f"grib_ccsds.py {words}: {status}, {said}")
    for words, begin, parts, others in (
        (["--help"], "The coded stream", ["set AEC FILE TABLE OUT", "AEC is this project's", "--within DEGREES"], []),
        (["edit", "--help"], "usage: grib_ccsds.py edit AEC SCRIPT", ["the count", "AEC is this", "SCRIPT has"], ["TABLE", "--within"]),
        (["set", "-h"], "usage: grib_ccsds.py set AEC", ["PLACE VALUE", "TABLE names", "`--within", "OUT is the"], ["SCRIPT", " put "]),
        (["options", "--help"], "usage: grib_ccsds.py options FILE [--message N]\n", ["`--message"], ["AEC", "--within"]),
        (
            ["values", "--help"],
            "usage: grib_ccsds.py values AEC FILE [FIRST:LEN] [--message N] [--at LAT,LON] [--within DEGREES]\n"
            "usage: grib_ccsds.py values AEC FILE TABLE [--message N] [--at LAT,LON] [--within DEGREES]\n",
            ["    grib_ccsds.py values AEC FILE TABLE", "`--at", "TABLE names", "`--within"],
            ["SCRIPT", " put "],
        ),
    ):
        status, said = script.run(GRIB, *words)
        is_so = status == 0 and said.startswith(begin) and all(it in said for it in parts)
        tally.holds(is_so and not any(it in said for it in others), f"help {words}: {said}")


def try_scales(settings, aec, tally):
    """Tests reference values that are no numbers, and scale factors that make the values too large.
    A message without section 3 has values, but no points."""
    stream, infinite = bytes.fromhex("20 09 24 92"), float("inf")
    damaged = "the reference value is {}: the message is damaged"
    for scale, text in (
        ((float("nan"), SIGN | 9, 0), damaged.format("nan")),
        ((infinite, SIGN | 9, 0), damaged.format("inf")),
        ((-infinite, SIGN | 9, 0), damaged.format("-inf")),
        ((250.0, 1100, 0), "the values are too large for floats: binary scale factor 1100, decimal scale factor 0"),
        ((250.0, 0, SIGN | 400), "the values are too large for floats: binary scale factor 0, decimal scale factor -400"),
    ):
        aec.write("m", message(stream, 8, settings, 8, scale=scale))
        aec.write("t", b"place value\n0 250\n")
        tally.check(f"values: {text}", called(grib_ccsds.values, aec.path, aec.file("m")), (1, text))
        answer = called(grib_ccsds.put_values, aec.path, *map(aec.file, "mto"))
        tally.check(f"set: {text}", answer, (1, text))
    aec.write("m", message(stream, 8, settings, 8))
    # A value halfway between two numbers becomes the even one. The first number that is stored is 0.
    for half, wanted in ((0.5, 0), (1.5, 2), (2.5, 2), (254.5, 254)):
        value = repr(250 + half * 2.0**-9)
        answer = called(grib_ccsds.put_values, aec.path, aec.file("m"), "0", value, aec.file("o"))
        tally.check(f"halfway: {half}", answer, (0, f"place 0: 250.0 becomes {250 + wanted * 2.0**-9}\n"))
    good, third = message(stream, 8, settings, 8), section(3, bytes(67))
    short = good.replace(third, b"")
    aec.write("m", short[:8] + struct.pack(">Q", len(good) - len(third)) + short[HEAD:])
    said = called(grib_ccsds.values, aec.path, aec.file("m"), "0:1")
    tally.check("no section 3: values", said, (0, "place value\n0 250.0\n"))
    said = called(grib_ccsds.values, aec.path, aec.file("m"), at="48,16")
    tally.check("no section 3: --at", said, (1, "where the points lie isn't known: the message has no section 3. Give places"))


def try_several(aec, script, tally):
    """Tests a file of three messages, one of them of edition 1, with bytes before and between them:
    each is found, and the others stay."""
    settings, stream = Settings(bits=8, block_size=8, interval=2), bytes.fromhex("20 09 24 92")
    one, two = message(stream, 8, settings, 8), message(b"\0\x78", 5, settings, 8)
    old = b"GRIB\0\0\x20\1" + b"GRIB" * 6
    parts = [b"\1\r\r\n001\r\r\nHHXA01 KWBC 300000\r\r\n", one, b"between", old, b"\r\n", two, b"after\3"]
    aec.write("m", b"".join(parts))
    for number, wanted in (
        ("1", (0, "--count 8 -n 8 -j 8 -r 2\n")),
        ("2", (1, f"grib_ccsds.py: {CONVERT} {WITHOUT_D.replace('FILE', 'two.grib')}\n")),
        ("3", (0, "--count 5 -n 8 -j 8 -r 2\n")),
        ("4", (1, "grib_ccsds.py: m has 3 messages, none with the number 4\n")),
    ):
        answer = script.run(GRIB, "options", "m", "--message", number)
        tally.check(f"message {number}", answer, wanted)
    answer = script.run(GRIB, "set", aec.path, "m", "4", "250.0156", "out", "--message=3")
    said = "place 4: 250.013671875 becomes 250.015625\n"
    tally.check("message 3: set", answer, (0, said))
    samples = bytes([7, 7, 7, 7, 8])
    parts[5] = message(aec.answer(settings.options(), samples), 5, settings, 8)
    tally.check("message 3: the file", aec.read("out"), b"".join(parts))
    answer = script.run(GRIB, "values", aec.path, "/dev/stdin", "4:1", "--message", "3", input=b"".join(parts))
    tally.holds(answer[0] == 0 and "4 250.015625" in answer[1], f"a file that is a pipe: {answer}")
    for gap in (1 << 16, (1 << 16) - 2, (1 << 16) + 3):  # around the pieces that are read at a time
        aec.write("m", one + bytes(gap) + two)
        answer = script.run(GRIB, "options", "m", "--message", "2")
        tally.check(f"message 2 after {gap} bytes", answer, (0, "--count 5 -n 8 -j 8 -r 2\n"))
