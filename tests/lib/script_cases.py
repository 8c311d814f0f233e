"""Random settings, samples and scripts, for streams that scripts edit."""

from lib.script_examples import BAD_LINES, SKIPPED_LINES
from lib.script_model import decoded_without_count
from lib.settings import Settings

WIDTHS = [1, 5, 8, 12, 16, 24, 32]
BLOCK_SIZES = [8, 16, 64]
INTERVALS = [1, 2, 128]
MOST_SAMPLES = 5000


def some_settings(chance):
    return Settings.by_chance(chance, WIDTHS, BLOCK_SIZES, INTERVALS, restricted=0.15)


def some_samples(settings, chance):
    """Returns samples of one of five kinds; their number is often at an edge of blocks or intervals."""
    size, whole = settings.block_size, settings.interval_len()
    edges = [0, 1, size - 1, size, 5 * size, 7 * size + 1, 70 * size + 5, whole - 1, whole, whole + 1, 2 * whole + 3]
    count = chance.choice(edges)
    count = min(count if chance.random() < 0.7 else chance.randint(0, 3 * whole), MOST_SAMPLES)
    least, most = settings.least(), settings.most()
    nature = chance.randrange(5)
    if nature == 0:
        return [chance.randint(least, most) for _ in range(count)]
    if nature == 1:
        return [chance.choice([0, least, most])] * count
    if nature == 2:
        return [chance.choice([least, most]) for _ in range(count)]
    samples, x = [], chance.randint(least, most)
    for _ in range(count):
        if chance.random() < (0.5 if nature == 3 else 0.02):
            x = min(max(x + chance.choice([-1, 1]), least), most)
        samples.append(x)
    return samples


def some_values(settings, chance, most_of_them):
    size, whole = settings.block_size, settings.interval_len()
    count = min(chance.choice([0, 1, 1, 2, 3, size + 1, whole, whole + 1]), most_of_them, 300)
    first = chance.randint(settings.least(), settings.most())
    if chance.random() < 0.3:
        return [first] * count
    return [chance.randint(settings.least(), settings.most()) for _ in range(count)]


def written(x, chance):
    """Returns a number as a script may write it."""
    digits = "0" * chance.choice([0, 0, 0, 0, 1, 30]) + str(abs(x))
    return ("-" if x < 0 else "") + digits


def value_written(x, chance):
    return "-" + written(x, chance) if x == 0 and chance.random() < 0.2 else written(x, chance)


def line_of(name, numbers, chance):
    blank = lambda least: "".join(chance.choice(" \t") for _ in range(chance.choice([least, 1, 1, 2])))
    return "".join([blank(0), name] + [blank(1) + number for number in numbers] + [blank(0)]).encode()


def some_place(settings, most, chance):
    """Returns a place up to `most`: the first, the last, the start of an interval, or any."""
    whole = settings.interval_len()
    inside = chance.randint(0, most)
    return chance.choice([0, most, most // whole * whole, inside // whole * whole, inside, inside])


def fitting_line(settings, count, chance):
    """Returns a line whose edit fits so many samples, and their number after it."""
    kind = chance.choice(["overwrite", "append", "truncate", "insert", "insert", "remove"])
    if kind == "remove":
        whole = settings.interval_len()
        gone = min(chance.choice([0, 1, whole, 2 * whole, count, chance.randint(0, count)]), count)
        first = some_place(settings, count - gone, chance)
        return line_of(kind, [written(first, chance), written(gone, chance)], chance), count - gone
    if kind == "truncate":
        whole = count // settings.interval_len() * settings.interval_len()
        left = chance.choice([count, whole, chance.randint(count // 2, count), max(count - 1, 0)])
        return line_of(kind, [written(left, chance)], chance), left
    values = some_values(settings, chance, count if kind == "overwrite" else MOST_SAMPLES)
    numbers = [value_written(x, chance) for x in values]
    if kind == "append":
        return line_of(kind, numbers, chance), count + len(values)
    room = count - len(values) if kind == "overwrite" else count
    first = written(some_place(settings, room, chance), chance)
    return line_of(kind, [first, *numbers], chance), count + (len(values) if kind == "insert" else 0)


def misfit_line(settings, count, chance):
    wrong = chance.choice([settings.least() - 1, settings.most() + 1, 2**63 - 1, -(2**63)])
    values = [chance.randint(settings.least(), settings.most()) for _ in range(chance.randrange(4))]
    mixed = values + [wrong] + values
    past = chance.choice([count + 1, count + 1000, 2**63, 2**64 - 1])
    name, numbers = chance.choice(
        [
            ("truncate", [past]),
            ("overwrite", [past]),
            ("overwrite", [past] + mixed),
            ("overwrite", [count] + mixed),
            ("overwrite", [max(count - len(values), 0)] + values + [settings.least()]),
            ("overwrite", [0] + (mixed if len(mixed) <= count else [wrong] * max(count, 1))),
            ("append", mixed),
            ("append", [wrong]),
            ("insert", [past]),
            ("insert", [past] + mixed),
            ("insert", [count] + mixed),
            ("insert", [chance.randint(0, count)] + mixed),
            ("remove", [past, chance.choice([0, 1, past])]),
            ("remove", [0, past]),
            ("remove", [count, chance.choice([1, 2**64 - 1])]),
        ]
    )
    return line_of(name, [written(x, chance) for x in numbers], chance)


def some_script(settings, count, chance, number):
    """Returns a script for so many samples: sound, or with a line that is no edit, or with an edit that doesn't fit."""
    lines = []
    for _ in range(chance.choice([0, 0, 3, 20]) if count else 0):
        values = some_values(settings, chance, count if chance.random() < 0.2 else 1)
        place = some_place(settings, count - len(values), chance)
        lines.append(line_of("overwrite", [written(place, chance), *(value_written(x, chance) for x in values)], chance))
    for _ in range(chance.choice([0, 1, 2, 5, 9, 40])):
        line, count = fitting_line(settings, count, chance)
        lines += [chance.choice(SKIPPED_LINES) for _ in range(chance.choice([0, 0, 1, 2]))] + [line]
    if number % 4 == 1:
        lines.insert(chance.randint(0, len(lines)), BAD_LINES[number // 4 % len(BAD_LINES)])
    elif number % 4 == 2:
        lines.append(misfit_line(settings, count, chance))
        lines += [b"append"] * chance.randrange(3)
    end = chance.choice([b"\n", b"\r\n"])
    return end.join(lines) + chance.choice([b"", end])


def some_count(settings, samples, chance):
    """Returns a count to edit with, or None, and the samples that are then read from the stream."""
    filled = decoded_without_count(settings, samples)
    kind = chance.choice(["none", "none", "true", "true", "true", "less", "filler"])
    if kind == "none":
        return None, filled
    ends = {"true": (len(samples),) * 2, "less": (0, len(samples)), "filler": (len(samples), len(filled))}
    count = chance.randint(*ends[kind])
    return count, filled[:count]
