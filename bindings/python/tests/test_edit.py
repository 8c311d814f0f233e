"""Workspace.edit, which applies a list of edits as one: streams worked by hand, random lists of edits against a plain list, refused
edits, and arguments that are no edits."""

import pickle
import random
import re
from array import array

import aecp
import pytest

OPTIONS = aecp.Options(8, block_size=8, interval=2)
SEVEN = list(range(7))
NAMES = "overwrite, append, truncate, insert, remove"
SETTINGS = [
    OPTIONS,
    aecp.Options(8, block_size=8, interval=1, signed=True),
    aecp.Options(16),
    aecp.Options(12, block_size=16, interval=2, preprocess=False),
    aecp.Options(32, block_size=64, interval=1, pad=True),
]


class Misfit(Exception):
    """An edit doesn't fit: the kind of exception that aecp raises, and the place that it names."""


def after(samples, edit, options):
    """Returns the samples after an edit, as a new list. Raises Misfit if it doesn't fit."""
    name, *given = edit
    count = len(samples)
    values = list(given[-1]) if name in ("overwrite", "append", "insert") else []
    first = count if name == "append" else given[0]
    stop = {"overwrite": first + len(values), "truncate": max(first, count), "remove": first + given[-1] if name == "remove" else 0}
    end = stop.get(name, first)
    if end > count:
        raise Misfit(aecp.RangeRefused, count)
    for index, value in enumerate(values):
        if not options.least <= value <= options.most:
            raise Misfit(aecp.SampleRefused, index)
    return samples[:first] + values + samples[end:]


def some_values(chance, options, count):
    return [chance.randint(options.least, options.most) for _ in range(count)]


def some_edit(chance, options, count):
    """Returns a random edit that fits `count` samples."""
    first = chance.randint(0, count)
    whole = options.block_size * options.interval
    length = chance.choice([0, 1, 2, min(whole, count - first), count - first])
    values = some_values(chance, options, chance.choice([0, 1, 3, whole, whole + 1]))
    return chance.choice(
        [
            ("overwrite", first, some_values(chance, options, min(length, count - first))),
            ("append", values),
            ("truncate", max(first, count - 3)),
            ("insert", first, values),
            ("remove", first, min(length, count - first)),
        ]
    )


def some_edits(chance, options, samples, number):
    """Returns random edits that fit, one after the other, and the samples after them."""
    edits = []
    for _ in range(number):
        edits.append(some_edit(chance, options, len(samples)))
        samples = after(samples, edits[-1], options)
    return edits, samples


@pytest.mark.parametrize(
    ("edits", "count", "stream"),
    [
        ([("overwrite", 20, [1])], 48, "00044030C20008"),
        ([("overwrite", 20, [1]), ("remove", 0, 16)], 32, "100C308002"),
        ([("insert", 16, [0] * 4 + [1] + [0] * 11), ("truncate", 32)], 32, "00044030C2"),
        ([], 48, "000400100040"),
        ([("truncate", 0)], 0, ""),
    ],
)
def test_streams_worked_by_hand(edits, count, stream):
    """Of 48 zeros each interval of 16 has the 14 bits 0000 00000000 01. With a 1 at its place 4 it has 0001 00000000 1 1 00001 1 for its
    first block, by the second extension, and 0000 1 for the second."""
    work = aecp.Workspace(OPTIONS, [0] * 48)
    coded = work.edit(edits)
    assert (work.tobytes(), len(work)) == (bytes.fromhex(stream), count)
    assert coded == (1 if len(edits) and count else 0)


@pytest.mark.parametrize("number", range(60))
def test_random_edits_are_those_of_a_list(number):
    chance = random.Random(f"edits {number}")
    options = SETTINGS[number % len(SETTINGS)]
    samples = some_values(chance, options, chance.randint(0, 3 * options.block_size * options.interval))
    work = aecp.Workspace(options, samples)
    edits, left = some_edits(chance, options, samples, chance.choice([1, 2, 10, 40]))
    calls = work.calls()
    coded = work.edit(edits)
    assert list(work) == left
    assert work.calls() == calls + coded
    assert work.tobytes() == aecp.Workspace(options, left).tobytes()


@pytest.mark.parametrize("number", range(20))
def test_the_same_by_one_call_each(number):
    """The edits code no more intervals together than one after the other, and leave the same stream."""
    chance = random.Random(f"calls {number}")
    options = SETTINGS[number % len(SETTINGS)]
    samples = some_values(chance, options, 200)
    together, single = aecp.Workspace(options, samples), aecp.Workspace(options, samples)
    edits, _ = some_edits(chance, options, samples, 10)
    assert together.edit(edits) <= sum(getattr(single, name)(*given) for name, *given in edits)
    assert together.tobytes() == single.tobytes()


@pytest.mark.parametrize("number", range(40))
def test_a_refused_edit_is_named_and_nothing_changes(number):
    chance = random.Random(f"refused {number}")
    options = SETTINGS[number % len(SETTINGS)]
    samples = some_values(chance, options, 50)
    edits, left = some_edits(chance, options, samples, chance.randint(0, 9))
    wrong, count = some_values(chance, options, 3) + [options.most + 1], len(left)
    misfit = chance.choice(
        [("append", wrong), ("insert", count, wrong), ("insert", count + 1, []), ("truncate", count + 1), ("remove", count, 1),
         ("overwrite", count, [0]), ("overwrite", 2**64 - 1, []), ("remove", 2**64 - 1, 2**64 - 1)]
    )  # fmt: skip
    with pytest.raises(Misfit) as model:
        after(left, misfit, options)
    kind, place = model.value.args
    work = aecp.Workspace(options, samples)
    before = work.tobytes(), work.calls()
    with pytest.raises(kind) as caught:
        work.edit([*edits, misfit, ("truncate", 2**64 - 1), ("append", [2**40])])
    assert (caught.value.place, caught.value.edit, caught.value.line) == (place, len(edits), 0)
    assert str(caught.value).startswith(f"edits[{len(edits)}]: ")
    assert (work.tobytes(), work.calls(), list(work)) == (*before, samples)


@pytest.mark.parametrize(
    ("given", "text"),
    [
        (("truncate", 8), "edits[1]: position outside the 7 samples"),
        (("append", [1, 256]), "edits[1]: sample 1 is out of range"),
    ],
)
def test_a_refusal_has_its_text_also_from_a_pickle(given, text):
    work = aecp.Workspace(OPTIONS, SEVEN)
    with pytest.raises(aecp.Fault, match=f"^{re.escape(text)}$") as caught:
        work.edit([("append", []), given])
    copy = pickle.loads(pickle.dumps(caught.value))
    assert (type(copy), str(copy), copy.edit, copy.number) == (type(caught.value), text, 1, caught.value.number)


@pytest.mark.parametrize("kind", [str, str.encode, lambda it: bytearray(it.encode()), lambda it: memoryview(it.encode())])
def test_scripts(kind):
    """A script has its lines, of which each is counted, and a fault names the line."""
    work = aecp.Workspace(OPTIONS, SEVEN)
    assert work.edit(kind("# two edits\n\ninsert 0 9 9\nremove 2 7\n")) == 1
    assert list(work) == [9, 9]
    with pytest.raises(aecp.RangeRefused, match="^line 2: position outside the 3 samples$") as caught:
        work.edit(kind("append 1\ntruncate 4\n"))
    assert (caught.value.line, caught.value.edit, caught.value.count) == (2, None, 3)
    with pytest.raises(aecp.ScriptRefused) as refused:
        work.edit(kind("append 1\nappend 256\nturn 7\n"))
    assert (refused.value.line, refused.value.edit) == (3, None)
    assert list(work) == [9, 9]


@pytest.mark.parametrize("samples", [[4, 5], (4, 5), array("h", [4, 5]), range(4, 6), iter([4, 5])])
def test_samples_are_those_of_the_other_calls(samples):
    work = aecp.Workspace(OPTIONS, SEVEN)
    work.edit(iter([("insert", 1, samples), ("overwrite", 0, 8), ("append", 9)]))
    assert list(work) == [8, 4, 5, 1, 2, 3, 4, 5, 6, 9]


def test_samples_of_numpy():
    numpy = pytest.importorskip("numpy")
    work = aecp.Workspace(OPTIONS, SEVEN)
    work.edit([("append", numpy.arange(3, dtype=">u2")), ("insert", numpy.int64(0), numpy.uint8(200))])
    assert list(work) == [200, *SEVEN, 0, 1, 2]
    with pytest.raises(TypeError, match=r"^edits\[1\]: samples are whole numbers, not an array of float64$"):
        work.edit([("truncate", 0), ("append", numpy.zeros(3))])
    assert len(work) == 11


def test_the_least_and_the_greatest_numbers():
    """Numbers of 64 bits are passed as they are, also those that no sample can be."""
    work = aecp.Workspace(OPTIONS, SEVEN)
    for value in (-(2**63), 2**63 - 1):
        with pytest.raises(aecp.SampleRefused):
            work.edit([("append", value)])
    wide = aecp.Workspace(aecp.Options(32, signed=True))
    wide.edit([("append", [-(2**31), 2**31 - 1])])
    assert list(wide) == [-(2**31), 2**31 - 1]


@pytest.mark.parametrize(
    ("edits", "kind", "text"),
    [
        (7, TypeError, "edits must be a list of tuples, text or bytes, not int"),
        (None, TypeError, "edits must be a list of tuples, text or bytes, not NoneType"),
        ([7], TypeError, "edits[0]: an edit must be a tuple such as ('insert', first, samples), not int"),
        (["append 1"], TypeError, "edits[0]: an edit must be a tuple such as ('insert', first, samples), not str"),
        ([["append", 1]], TypeError, "edits[0]: an edit must be a tuple such as ('insert', first, samples), not list"),
        ([()], TypeError, "edits[0]: an edit must be a tuple such as ('insert', first, samples), not ()"),
        ([("truncate", 0), (1, 2)], TypeError, "edits[1]: the name of an edit must be text, not int"),
        ([("Append", 1)], ValueError, f"edits[0]: no edit has the name 'Append': it must be one of {NAMES}"),
        ([("append",)], TypeError, "edits[0]: 'append' takes 1 arguments (samples), not 0"),
        ([("remove", 1)], TypeError, "edits[0]: 'remove' takes 2 arguments (first, length), not 1"),
        ([("truncate", 1, 2)], TypeError, "edits[0]: 'truncate' takes 1 arguments (count), not 2"),
        ([("insert", "1", 2)], TypeError, "edits[0]: first must be a whole number, not '1'"),
        ([("remove", 0, 1.5)], TypeError, "edits[0]: length must be a whole number, not 1.5"),
        ([("truncate", True)], TypeError, "edits[0]: count must be a whole number, not True"),
        ([("insert", -1, 2)], ValueError, "edits[0]: first must be 0 to 2^64 - 1"),
        ([("truncate", 2**64)], ValueError, "edits[0]: count must be 0 to 2^64 - 1"),
        ([("append", b"12")], TypeError, "edits[0]: bytes can't be taken as samples: pass numbers, for example list(data)"),
        ([("append", [1, "2"])], TypeError, "edits[0]: a sample must be a whole number, not '2'"),
        ([("append", None)], TypeError, "edits[0]: a sample must be a whole number, not None"),
    ],
)
def test_what_is_no_edit_is_refused_before_anything_changes(edits, kind, text):
    work = aecp.Workspace(OPTIONS, SEVEN)
    if isinstance(edits, list):
        edits = [*edits, ("append", 1)]
    with pytest.raises(kind, match=f"^{re.escape(text)}$"):
        work.edit(edits)
    assert (list(work), work.calls()) == (SEVEN, 1)


def test_a_sample_of_more_than_64_bits():
    work = aecp.Workspace(OPTIONS, SEVEN)
    with pytest.raises(OverflowError, match=r"^edits\[1\]: "):
        work.edit([("append", 1), ("overwrite", 0, [1, 2**63])])
    assert list(work) == SEVEN


def test_a_failing_iterator_changes_nothing():
    def edits():
        yield ("truncate", 1)
        raise LookupError("no more")

    work = aecp.Workspace(OPTIONS, SEVEN)
    with pytest.raises(LookupError, match="^no more$"):
        work.edit(edits())
    assert list(work) == SEVEN


def test_a_closed_workspace():
    work = aecp.Workspace(OPTIONS, SEVEN)
    work.close()
    with pytest.raises(aecp.NotOpen):
        work.edit([("append", 1)])
    with pytest.raises(aecp.NotOpen):
        work.edit("turn 7")


def test_thousands_of_edits():
    """Thousands of insertions at random places, each in the result of those before."""
    chance, samples, edits = random.Random(3), list(range(256)) * 64, []
    wanted = list(samples)
    for _ in range(5000):
        place, value = chance.randint(0, len(wanted)), chance.randrange(256)
        edits.append(("insert", place, value))
        wanted.insert(place, value)
    work = aecp.Workspace(aecp.Options(8), samples)
    calls, coded = work.calls(), work.edit(edits)
    assert list(work) == wanted
    # Each interval has 2048 samples, and is coded once.
    assert coded == work.calls() - calls <= -(-len(wanted) // 2048)
