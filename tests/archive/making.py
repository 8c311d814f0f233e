"""What the tests of the archive share: options, samples, files, and damage."""

from __future__ import annotations

import json
import os
import random
import stat
from array import array
from typing import Any, Optional, Union

import aecp
from aecp import Options
from hypothesis import strategies as st
from plain_form import Parts, demand_sound, parts_of
from running import command, done
from lib.settings import Settings

SIGNS = {"signed": "-s", "msb_first": "-m", "three_byte": "-3", "pad": "-p", "restricted": "-t", "even_blocks": "--even-blocks"}
USUAL = Settings(bits=16, block_size=16, interval=4)
FAST = Settings(bits=16, block_size=16, interval=128)


def options_of(settings: Settings) -> Options:
    return Options(**settings._asdict())


def words_of(settings: Settings) -> list[str]:
    """Returns the options as words of the command."""
    return settings.options()


def walk(seed: Any, count: int, most: int = 4095, step: int = 9) -> list[int]:
    """Returns samples that move in small steps."""
    chance = random.Random(str(seed))
    x, out = most // 2, []
    for _ in range(count):
        x = min(max(x + chance.randint(-step, step), 0), most)
        out.append(x)
    return out


def noise(seed: Any, count: int, bits: int = 16) -> list[int]:
    """Returns samples by chance: no option codes them, so 8,192 samples of 16 bits make a group."""
    chance = random.Random(str(seed))
    return [chance.getrandbits(bits) for _ in range(count)]


def numbers_of(data: Any, settings: Settings) -> list[int]:
    """Returns the samples of stored bytes."""
    size, data = settings.storage(), bytes(data)
    order = "big" if settings.msb_first else "little"
    return [
        int.from_bytes(data[at : at + size], order, signed=settings.signed) for at in range(0, len(data), size)
    ]


def write(folder: Any, name: Any, data: bytes) -> str:
    path = os.path.join(os.fspath(folder), name)
    with open(path, "wb") as file:
        file.write(data)
    return path


def read(*names: Any) -> bytes:
    with open(os.path.join(*names), "rb") as file:
        return file.read()


def keep(folder: Any, name: str, samples: list[int], settings: Settings = USUAL, *more: str) -> str:
    """Writes a file of samples and keeps it. Returns the path of the archive."""
    path = write(folder, name, settings.stored(samples))
    done(folder, "keep", name, *words_of(settings), "--anyway", *more)
    return path + ".aec"


def made(path: str, samples: list[int], settings: Settings = USUAL, **more: Any) -> str:
    """Makes an archive by the library, faster than by the command. Returns its path."""
    with aecp.create(path, options_of(settings), **more) as file:
        file.write(settings.stored(samples))
    return path


def parts_at(path: str) -> Parts:
    return parts_of(read(path))


def sound_parts(path: str) -> Parts:
    """Returns the parts of an archive, and fails the test if anything is wrong in it."""
    data = read(path)
    options = Options(**parts_of(data).fields["options"])
    return demand_sound(data, lambda coded, count: aecp.decode_bytes(coded, count, options))


def samples_at(path: str) -> list[int]:
    """Returns the samples of an archive, which must be sound."""
    parts = sound_parts(path)
    settings = Settings(**parts.fields["options"])
    return numbers_of(aecp.decode_bytes(parts.stream, parts.fields["samples"]["count"], options_of(settings)), settings)


def flip(path: str, bit: int) -> None:
    with open(path, "r+b") as file:
        file.seek(bit // 8)
        byte = file.read(1)[0]
        file.seek(bit // 8)
        file.write(bytes([byte ^ 128 >> bit % 8]))


def tree(folder: Any) -> dict[str, Any]:
    """Returns everything below a folder: bytes of files, targets of links, and the kind of the rest."""
    found: dict[str, Any] = {}
    for place, folders, names in os.walk(os.fspath(folder)):
        for name in folders + names:
            path = os.path.join(place, name)
            mode = os.lstat(path).st_mode
            short = os.path.relpath(path, folder)
            if stat.S_ISLNK(mode):
                found[short] = ("link", os.readlink(path))
            elif stat.S_ISREG(mode):
                found[short] = read(path)
            else:
                found[short] = stat.S_IFMT(mode)
    return found


def leftovers(folder: Any) -> list[str]:
    """Returns the names in a folder that begin with a dot."""
    return [name for name in os.listdir(folder) if name.startswith(".")]


def check_json(folder: Any, *paths: str) -> tuple[int, Any]:
    """Returns the status of `check --json` and what it prints."""
    ran = command(folder, "check", *(paths or (".",)), "--json")
    return ran.status, json.loads(ran.out)


def damaged_names(found: Any) -> set[str]:
    """Returns the names of the files that `check --json` calls damaged."""
    return {os.path.basename(it["file"]) for it in found["faults"]}


@st.composite
def settings_by_chance(draw: Any, bits: Any = None) -> Settings:
    """Draws settings of every kind."""
    restricted = draw(st.integers(0, 9)) == 0
    width = draw(st.integers(1, 4) if restricted else bits or st.sampled_from([1, 2, 7, 8, 9, 12, 16, 17, 24, 25, 32]))
    even = draw(st.integers(0, 3)) == 0
    return Settings(
        bits=width,
        block_size=draw(st.sampled_from(range(8, 65, 2)) if even else st.sampled_from([8, 16, 32, 64])),
        interval=draw(st.sampled_from([1, 2, 4, 64, 128, 4096])),
        signed=draw(st.booleans()),
        preprocess=draw(st.integers(0, 3)) != 0,
        msb_first=draw(st.booleans()),
        three_byte=draw(st.booleans()),
        pad=draw(st.integers(0, 2)) == 0,
        restricted=restricted,
        even_blocks=even,
    )


def samples_for(settings: Settings, most: int = 400) -> Any:
    """Draws lists of samples: by chance, steps, and runs of equal ones."""
    one = st.integers(settings.least(), settings.most())
    runs = st.lists(st.tuples(one, st.integers(1, 90)), max_size=8).map(lambda it: [x for x, many in it for _ in range(many)])
    return st.one_of(st.lists(one, max_size=60), runs, st.integers(0, most).flatmap(lambda n: walks_for(settings, n)))


def walks_for(settings: Settings, count: int) -> Any:
    def walked(seed: int) -> list[int]:
        chance, x, out = random.Random(seed), (settings.least() + settings.most()) // 2, []
        for _ in range(count):
            x = min(max(x + chance.randint(-9, 9), settings.least()), settings.most())
            out.append(x)
        return out

    return st.integers(0, 2**32).map(walked)


def old_pair(
    folder: Any,
    name: str,
    samples: list[int],
    settings: Settings = USUAL,
    history: Optional[list[Any]] = None,
    coded: Optional[bytes] = None,
) -> str:
    """Writes a pair of the earlier form: NAME.aec, the bare stream, and NAME.aec.json. Returns the path of the stream."""
    stored, options = settings.stored(samples), options_of(settings)
    coded = bytes(aecp.encode(stored, options)) if coded is None else coded
    when = "2026-11-01T01:02:03Z"
    state = {"samples": {"count": len(samples), **old_sum(stored)}, "stream": old_sum(coded)}
    fields: dict[str, Any] = {
        "format": 1,
        "written_by": "aecp 1.0.0",
        "written": when,
        "options": settings._asdict(),
        "samples": state["samples"],
        "stream": state["stream"],
        "source": {**old_sum(stored), "mtime_ns": 1},
        "history": history or [{"what": "keep", "when": when, "by": "aecp 1.0.0", "after": state}],
    }
    path = write(folder, name + ".aec", coded)
    write(folder, name + ".aec.json", old_note(fields))
    return path


def old_note(fields: dict[str, Any]) -> bytes:
    """Returns the bytes of a note of the earlier form, with its own sum."""
    from plain_form import sha256

    own = sha256(json.dumps(fields, sort_keys=True, separators=(",", ":")).encode("ascii"))
    return json.dumps({**fields, "note_sha256": own}, indent=1).encode("ascii")


def old_sum(data: bytes) -> dict[str, Union[int, str]]:
    from plain_form import sha256

    return {"bytes": len(data), "sha256": sha256(data)}


def as_array(samples: list[int], code: str = "H") -> array:  # type: ignore[type-arg]
    return array(code, samples)
