"""The library for C: where it is found, and its calls with what Python asks for around them.

ctypes looks at little: it cuts numbers that are too great for their type, and takes the interpreter's lock away from a call. So all
that reaches the library goes through `exact`, `lent` and `number`, or is made here.
"""
from __future__ import annotations

import contextlib
import ctypes
import operator
import os
from ctypes import POINTER, byref, c_char_p, c_ssize_t, c_void_p, py_object
from types import SimpleNamespace
from typing import TYPE_CHECKING, Any, Iterator

from ._answers import Answer, Error
from ._calls import CALLS

if TYPE_CHECKING:
    from _typeshed import ReadableBuffer, WriteableBuffer

# Libraries of one interface have the same calls, so that a later one may stand in.
INTERFACE = "0.1"
NAME = f"libreamertan.so.{INTERFACE}"


def found() -> str:
    """The path of the library, or its name where the system's loader is to look for it."""
    named = os.environ.get("REAMERTAN_LIB")
    if not named:
        beside = os.path.join(os.path.dirname(os.path.abspath(__file__)), NAME)
        return beside if os.path.exists(beside) else NAME
    for folder in (named, os.path.join(named, "lib")):
        path = os.path.join(os.path.abspath(folder), NAME)
        if os.path.exists(path):
            return path
    raise ImportError(f"REAMERTAN_LIB is {named}, where there is neither {NAME} nor lib/{NAME}")


def loaded(path: str) -> SimpleNamespace:
    """The calls of the library there, which has to be of this interface."""
    try:
        library = ctypes.CDLL(path)
        calls = SimpleNamespace(**{name: getattr(library, f"reamertan_{name}") for name in CALLS})
    except (OSError, AttributeError) as error:
        raise ImportError(f"Reamertan's library for C can't be loaded: {error}") from error
    for name, (result, *parameters) in CALLS.items():
        call = getattr(calls, name)
        call.restype, call.argtypes = result, parameters
    if not spelled(calls.version()).startswith(f"{INTERFACE}."):
        raise ImportError(f"{path} has version {spelled(calls.version())}, and this module is for {INTERFACE}")
    return calls


def spelled(version: int) -> str:
    """A version, as in `0.1.0`."""
    return f"{version // 1000000}.{version // 1000 % 1000}.{version % 1000}"


calls = loaded(found())

# New bytes, which a call fills before anybody else sees them. So an object isn't copied once more.
_new_bytes = ctypes.PYFUNCTYPE(py_object, c_void_p, c_ssize_t)(("PyBytes_FromStringAndSize", ctypes.pythonapi))


def fresh(length: int) -> bytes:
    """New bytes of any content, to be filled by a call."""
    made: bytes = _new_bytes(None, length)
    return made


def must(answer: int) -> None:
    """Raises what an answer means, unless it is 0."""
    if answer == Answer.OUT_OF_MEMORY:
        raise MemoryError
    if answer:
        raise Error(answer, calls.answer_text(answer).decode())


def number(value: int, bits: int, what: str) -> int:
    """A number that fits so many bits."""
    value = int(operator.index(value))
    if not 0 <= value < 1 << bits:
        raise OverflowError(f"{what} has to be from 0 to {(1 << bits) - 1}")
    return value


class View(ctypes.Structure):
    """What Python tells of an object's bytes (`Py_buffer`)."""

    _fields_ = [
        ("at", c_void_p),
        ("owner", c_void_p),
        ("length", c_ssize_t),
        ("item_size", c_ssize_t),
        ("is_read_only", ctypes.c_int),
        ("dimensions", ctypes.c_int),
        ("format", c_void_p),
        ("shape", c_void_p),
        ("strides", c_void_p),
        ("suboffsets", c_void_p),
        ("internal", c_void_p),
    ]


# Raises where an object has no bytes, or not one behind another.
_get_view = ctypes.PYFUNCTYPE(ctypes.c_int, py_object, POINTER(View), ctypes.c_int)(("PyObject_GetBuffer", ctypes.pythonapi))
_release_view = ctypes.PYFUNCTYPE(None, POINTER(View))(("PyBuffer_Release", ctypes.pythonapi))
WRITABLE = 1


@contextlib.contextmanager
def lent(value: ReadableBuffer | WriteableBuffer, flags: int = 0) -> Iterator[tuple[Any, int]]:
    """Where the bytes of an object stand and how many there are, as a call takes both. They aren't copied, and stay there."""
    view = View()
    _get_view(value, byref(view), flags)
    try:
        yield c_char_p(view.at), view.length
    finally:
        _release_view(byref(view))


def exact(value: ReadableBuffer) -> bytes:
    """Bytes, and nothing that could change, or say another length than it has, while a call reads it. Of others it has a copy."""
    return value if type(value) is bytes else memoryview(value).tobytes()
