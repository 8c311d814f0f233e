"""Memory that C reads and writes."""

from __future__ import annotations

import ctypes
import mmap
import sys
from typing import TYPE_CHECKING, Any, Optional, Union

if TYPE_CHECKING:
    from _typeshed import ReadableBuffer, WriteableBuffer
    from numpy import integer
    from numpy.typing import NDArray

    Array = NDArray[integer[Any]]  # a numpy array of whole numbers
    Readable = Union[ReadableBuffer, NDArray[Any]]  # memory that a call can read
    Writable = Union[WriteableBuffer, NDArray[Any]]  # memory that a call can fill
else:
    Array = Readable = Writable = Any

SMALL = 1 << 20  # bytes; to clear fewer takes no time
ORDERS = "@=<>!"  # the byte orders with which the format of a buffer may begin
BYTES = frozenset(order + code for order in ("", *ORDERS) for code in "Bbc")  # formats of buffers of bytes
KINDS = {**dict.fromkeys("bhilqn", "int"), **dict.fromkeys("BHILQN", "uint"), **dict.fromkeys("efdg", "float")}


def numpy_if_there() -> Any:
    """Returns numpy, or None if it isn't installed. Loading it takes longer than most calls, so it is loaded only when it is
    needed."""
    try:
        import numpy
    except ImportError:
        return None
    return numpy


def numpy_type(name: str) -> Any:
    """Returns a type of numpy, for isinstance. Before numpy is loaded, returns (), since no object has such a type then."""
    return getattr(sys.modules.get("numpy"), name, ())


def view_of(data: Any, name: str, taken: str) -> memoryview:
    """Returns the memory of an argument. Raises TypeError, with its name and what it must be, if the argument has no buffer."""
    try:
        return memoryview(data)
    except TypeError:
        raise TypeError(f"{name} must be {taken}, not {type(data).__name__}") from None


def item_type(view: memoryview) -> str:
    """Returns the type of a buffer's items as numpy names it, such as uint16, or the buffer's format if they aren't numbers."""
    kind = KINDS.get(view.format.lstrip(ORDERS))
    return f"format {view.format!r}" if kind is None else f"{kind}{8 * view.itemsize}"


def is_big_endian(view: memoryview) -> bool:
    """Returns whether a buffer's items have their most significant byte first."""
    return view.format[0] in ">!" or view.format[0] != "<" and sys.byteorder == "big"


class Source:
    """The address and the size of an argument's bytes. It keeps these bytes alive."""

    def __init__(self, data: Any, name: str, taken: str = "bytes") -> None:
        self.held: Any
        self.at: Any
        if type(data) is bytes:
            self.held = self.at = data
            self.size = len(data)
            return
        view = view_of(data, name, taken)
        if not view.c_contiguous:
            raise TypeError(f"the bytes of {name} must lie one after the other")
        self.size = view.nbytes
        self.held = view
        if self.size == 0:
            self.at = b"\0"
        elif not view.readonly:
            self.at = ctypes.addressof(ctypes.c_char.from_buffer(view.cast("B")))
        else:
            numpy = numpy_if_there()
            if numpy is None:
                self.at = bytes(view)
            else:
                self.held = numpy.frombuffer(view.cast("B"), numpy.uint8)
                self.at = self.held.ctypes.data


class Target:
    """The address and the size of memory that a call fills. It keeps this memory alive."""

    def __init__(self, data: Any) -> None:
        with view_of(data, "out", "memory that can be written") as view:
            if view.readonly or not view.c_contiguous:
                raise TypeError("out must be memory that can be written and lies in one piece")
            self.view = view.cast("B") if view.nbytes else memoryview(bytearray())
        self.size = self.view.nbytes
        self.at: Any = ctypes.addressof(ctypes.c_char.from_buffer(self.view)) if self.size else None


def uncleared() -> Optional[Any]:
    """Returns CPython's call for a bytearray that isn't cleared, or None in other interpreters."""
    python = getattr(ctypes, "pythonapi", None)
    call = getattr(python, "PyByteArray_FromStringAndSize", None)
    if call is not None:
        call.restype, call.argtypes = ctypes.py_object, [ctypes.c_void_p, ctypes.c_ssize_t]
    return call


NEW_BYTES = uncleared()


def room_for(size: int) -> bytearray:
    """Returns a bytearray of so many bytes. Raises MemoryError if they can't be allocated. Memory is used only when a byte is
    written, so a count that is too great costs none."""
    if NEW_BYTES is None or size < SMALL:
        return bytearray(size)
    try:
        mmap.mmap(-1, size).close()  # fails if so much can't be allocated: the call itself would print an error
    except (OSError, OverflowError, ValueError):
        raise MemoryError(f"{size} bytes can't be allocated") from None
    made = NEW_BYTES(None, size)
    assert isinstance(made, bytearray)
    return made
