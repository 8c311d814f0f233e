"""Strict reading of what a file says: each value is checked for its type and its range.

No text of these exceptions contains texts from the file, so none can carry control characters to
a terminal.
"""

from __future__ import annotations

import base64
import binascii
import json
import re
import zlib
from typing import Any, NoReturn

MOST_TEXT = 200  # characters of a text
MOST_DIGITS = 20  # of a number
SHA256 = re.compile(r"[0-9a-f]{64}")
TIME = re.compile(r"[0-9]{4}-[0-9]{2}-[0-9]{2}T[0-9]{2}:[0-9]{2}:[0-9]{2}Z")
PRINTABLE = re.compile(r"[ -~]*")


class Wrong(Exception):
    """A value isn't what it must be. The text names the value."""


def unpack(data: bytes, most: int) -> bytes:
    """Unpacks zlib. Raises Wrong if it isn't one whole zlib stream, or unpacks to more than `most`
    bytes."""
    unpacking = zlib.decompressobj()
    try:
        unpacked = unpacking.decompress(data, most + 1)
    except zlib.error:
        raise Wrong("it doesn't unpack") from None
    if len(unpacked) > most:
        raise Wrong(f"it unpacks to more than {most} bytes")
    if not unpacking.eof or unpacking.unused_data:
        raise Wrong("it doesn't unpack")
    return unpacked


def parse(data: bytes, most: int) -> Any:
    """Parses JSON in ASCII, with at most `most` containers, and eight times as many values. So the
    result needs a bounded amount of memory. Raises Wrong for anything else, also for numbers with a
    point, long numbers and names that occur twice."""
    return parse_text(in_ascii(data), most)


def unpack_json(data: bytes, most_bytes: int, most: int) -> Any:
    """Unpacks and parses JSON. Raises Wrong as `unpack` and `parse`. Never holds the JSON twice."""
    return parse_text(in_ascii(unpack(data, most_bytes)), most)


def in_ascii(data: bytes) -> str:
    """Returns a text. Raises Wrong if it isn't in ASCII."""
    try:
        return data.decode("ascii")
    except UnicodeDecodeError:
        raise Wrong("it isn't in ASCII") from None


def parse_text(given: str, most: int) -> Any:
    """Parses JSON as `parse`."""
    if given.count("[") + given.count("{") > most or given.count(",") > 8 * most:
        raise Wrong("it has too many values")
    try:
        return json.loads(
            given,
            object_pairs_hook=once,
            parse_int=short_number,
            parse_float=no_number,
            parse_constant=no_number,
        )
    except (ValueError, RecursionError):
        raise Wrong("it isn't the JSON that it must be") from None


def once(pairs: list[tuple[str, Any]]) -> dict[str, Any]:
    """Returns the members of an object. Raises ValueError if a name occurs twice."""
    made = dict(pairs)
    if len(made) != len(pairs):
        raise ValueError("a name occurs twice")
    return made


def short_number(text: str) -> int:
    """Returns a whole number. Raises ValueError for a long one, which takes long to read."""
    if len(text) > MOST_DIGITS:
        raise ValueError("a number is too long")
    return int(text)


def no_number(text: str) -> NoReturn:
    """Raises ValueError: no value is such a number."""
    raise ValueError("a number isn't whole")


def members(value: Any, names: frozenset[str], what: str) -> dict[str, Any]:
    """Returns an object with exactly these names. Raises Wrong for anything else."""
    if type(value) is not dict or value.keys() != names:
        raise Wrong(f"{what} has other fields than it must have")
    return value


def number(value: Any, least: int, most: int, what: str) -> int:
    """Returns a whole number in a range. Raises Wrong for anything else."""
    if type(value) is not int or not least <= value <= most:
        raise Wrong(f"{what} isn't a whole number from {least} to {most}")
    return value


def flag(value: Any, what: str) -> bool:
    """Returns a bool. Raises Wrong for anything else."""
    if type(value) is not bool:
        raise Wrong(f"{what} is neither true nor false")
    return value


def text(value: Any, what: str) -> str:
    """Returns a short text of printable ASCII. Raises Wrong for anything else."""
    if type(value) is not str or len(value) > MOST_TEXT or not PRINTABLE.fullmatch(value):
        raise Wrong(f"{what} isn't a text of at most {MOST_TEXT} printable ASCII characters")
    return value


def digits(value: Any, what: str) -> str:
    """Returns an SHA-256 in 64 hexadecimal digits. Raises Wrong for anything else."""
    if type(value) is not str or not SHA256.fullmatch(value):
        raise Wrong(f"{what} isn't an SHA-256 in 64 lower-case hexadecimal digits")
    return value


def time_of(value: Any, what: str) -> str:
    """Returns a time such as 2026-11-30T01:02:03Z. Raises Wrong for anything else."""
    if type(value) is not str or not TIME.fullmatch(value):
        raise Wrong(f"{what} isn't a time in UTC")
    return value


def base64_of(value: Any, what: str) -> bytes:
    """Returns the bytes of a text in base64. Raises Wrong for anything else."""
    if type(value) is not str:
        raise Wrong(f"{what} isn't a text in base64")
    try:
        return base64.b64decode(value, validate=True)
    except (binascii.Error, ValueError):
        raise Wrong(f"{what} isn't a text in base64") from None
