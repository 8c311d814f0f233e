"""libaecp.so by ctypes: its structures, its calls, and where it is searched for."""

from __future__ import annotations

import ctypes
import functools
import os
import threading
from typing import Any, Optional

from aecp.levels import judge_processor, names_of
from aecp.options import FLAGS, NUMBERS, Options

HERE = os.path.dirname(os.path.abspath(__file__))
NAME = "libaecp.so"
SONAME = "libaecp.so.1"  # what a program is linked to; a distribution has NAME in its package for developers
TEXT_BYTES = 200
VERSION = 10100  # 1.1.0, as AECP_VERSION of aecp.h


class COptions(ctypes.Structure):
    """aecp_options."""

    _fields_ = [*((name, ctypes.c_uint32) for name in NUMBERS), *((name, ctypes.c_bool) for name in FLAGS)]


class Reply(ctypes.Structure):
    """aecp_reply."""

    place: int
    len: int
    _fields_ = [("fault", ctypes.c_uint32), ("place", ctypes.c_uint64), ("len", ctypes.c_uint64)]


class EditReply(ctypes.Structure):
    """aecp_edit_reply."""

    reply: Reply
    line: int
    samples: int
    _fields_ = [("reply", Reply), ("line", ctypes.c_uint64), ("samples", ctypes.c_uint64)]


class Handle(ctypes.Structure):
    """aecp_handle."""

    _fields_ = [("at", ctypes.c_void_p), ("full", ctypes.c_bool)]


class Coder(ctypes.Structure):
    """aecp_coder."""

    _fields_ = [("at", ctypes.c_void_p), ("full", ctypes.c_bool)]


class Reader(ctypes.Structure):
    """aecp_reader."""

    _fields_ = [("at", ctypes.c_void_p), ("full", ctypes.c_bool)]


def place_of_library() -> str:
    """Returns the path of the library: AECP_LIBRARY, else beside this module, else in a checkout's bin/, else where the loader
    looks for SONAME. Beside this module and in bin/, the library for the processor's level comes first."""
    named = os.environ.get("AECP_LIBRARY")
    if named:
        return named
    folders = (HERE, os.path.normpath(os.path.join(HERE, "..", "..", "..", "bin")))
    places = (os.path.join(folder, name) for folder in folders for name in names_of(NAME))
    return next(filter(os.path.exists, places), SONAME)


def call_types() -> dict[str, tuple[Any, list[Any]]]:
    """Returns the types of the result and of the arguments of each call."""
    number, size, at = ctypes.c_uint64, ctypes.c_size_t, ctypes.c_void_p
    options, reply, handle = ctypes.POINTER(COptions), ctypes.POINTER(Reply), ctypes.POINTER(Handle)
    coder, reader = ctypes.POINTER(Coder), ctypes.POINTER(Reader)
    ends = [at, size, at, size, reply]
    edits: dict[str, list[Any]] = {
        "aecp_append": [handle, at, size, reply],
        "aecp_apply": [handle, at, size, ctypes.POINTER(EditReply)],
        "aecp_coder_feed": [coder, at, size, reply],
        "aecp_coder_finish": [coder, reply],
        "aecp_coder_open": [options, coder, reply],
        "aecp_coder_take": [coder, at, size, reply],
        "aecp_decode": [options, number, *ends],
        "aecp_decode_at": [options, number, number, *ends],
        "aecp_edit": [options, number, at, size, at, size, at, size, ctypes.POINTER(EditReply)],
        "aecp_encode": [options, *ends],
        "aecp_insert": [handle, number, at, size, reply],
        "aecp_load": [options, number, at, size, handle, reply],
        "aecp_offsets": [options, number, *ends],
        "aecp_open": [options, handle, reply],
        "aecp_overwrite": [handle, number, at, size, reply],
        "aecp_range": [options, number, number, number, *ends],
        "aecp_reader_go_to": [reader, number, reply],
        "aecp_reader_next": [reader, at, size, reply],
        "aecp_reader_open": [options, number, at, size, reader, reply],
        "aecp_read": [handle, number, number, at, size, reply],
        "aecp_remove": [handle, number, number, reply],
        "aecp_truncate": [handle, number, reply],
        "aecp_write": [handle, at, size, reply],
    }
    return {
        "aecp_bound": (number, [options, number]),
        "aecp_calls": (number, [handle]),
        "aecp_close": (None, [handle]),
        "aecp_coder_close": (None, [coder]),
        "aecp_reader_close": (None, [reader]),
        "aecp_size": (number, [handle]),
        "aecp_text": (size, [reply, at, size]),
        **{name: (ctypes.c_uint32, takes) for name, takes in edits.items()},
    }


def load() -> ctypes.CDLL:
    """Returns the library. Raises ImportError, with a text of one line, if the processor is too old, if there is no library, if it lacks a
    call, or if judge_version refuses it."""
    judge_processor()
    path = place_of_library()
    try:
        library = ctypes.CDLL(path)
        for name, (result, arguments) in call_types().items():
            call = getattr(library, name)
            call.restype, call.argtypes = result, arguments
        judge_version(library)
    except (OSError, AttributeError) as error:
        why = " ".join(str(error).split())
        hint = "`make library` builds it, AECP_LIBRARY names another"
        raise ImportError(f"aecp can't use the library {path}: {why} ({hint})") from None
    return library


def judge_version(library: ctypes.CDLL) -> None:
    """Raises OSError if the library's major version isn't the module's, or if its minor version is older. A library without
    aecp_version passes."""
    call = getattr(library, "aecp_version", None)
    if call is not None:
        call.restype = ctypes.c_uint32
        number = int(call())
        if number // 10000 != VERSION // 10000 or number // 100 < VERSION // 100:
            needed = f"{VERSION // 10000}.{VERSION // 100 % 100}"
            raise OSError(f"it has version {number // 10000}.{number // 100 % 100}.{number % 100}, and the module needs {needed}")


class Library:
    """The calls of libaecp.so, as attributes. The library is loaded when the first one is asked for, or by `load_now`."""

    def __init__(self) -> None:
        self._lock = threading.Lock()
        self._loaded: Optional[ctypes.CDLL] = None

    def __getattr__(self, name: str) -> Any:
        """Returns a call. Raises ImportError as `load`."""
        if name.startswith("__"):
            raise AttributeError(name)
        library = self.load_now()
        call = getattr(library, name)
        self.__dict__[name] = call  # from now on it is found there, without this method
        return call

    def load_now(self) -> ctypes.CDLL:
        """Loads the library, if it isn't loaded yet. Raises ImportError as `load`."""
        with self._lock:
            if self._loaded is None:
                self._loaded = load()
            return self._loaded

    @property
    def is_loaded(self) -> bool:
        return self._loaded is not None


LIBRARY = Library()


def c_options(options: Options) -> COptions:
    """Returns options for C. They are shared, so nothing may change them. Raises TypeError for anything but Options; ValueError as
    made_options."""
    if not isinstance(options, Options):
        raise TypeError(f"options must be aecp.Options, not {type(options).__name__}")
    return made_options(options)


@functools.lru_cache(maxsize=256)
def made_options(options: Options) -> COptions:
    """Returns the structure of options; equal options have the same one. Raises ValueError if a number doesn't fit 32 bits, since
    ctypes would cut it."""
    for name in NUMBERS:
        if not 0 <= getattr(options, name) < 2**32:
            raise ValueError(f"{name} must be 0 to 2^32 - 1")
    return COptions(**{name: getattr(options, name) for name in NUMBERS + FLAGS})


def text_of(reply: Reply) -> str:
    """Returns the text of a reply."""
    out = ctypes.create_string_buffer(TEXT_BYTES)
    LIBRARY.aecp_text(reply, out, TEXT_BYTES)
    return out.value.decode()
