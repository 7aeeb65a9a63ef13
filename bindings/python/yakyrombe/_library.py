"""The shared library: its types and functions, as yakyrombe.h declares them."""
from __future__ import annotations

import ctypes
import os
from ctypes import POINTER, c_bool, c_int64, c_size_t, c_uint8, c_uint32, c_uint64, c_void_p
from pathlib import Path

NAME = "libyakyrombe.so.0"

# Answers, as yakyrombe.h has them.
DONE, WAITS, SHORT, NO_NOTICE, NO_ENTRY = 0, 17, 21, 23, 25


class Handle(ctypes.Structure):
    """A process, or an empty handle."""

    _fields_ = [("at", c_void_p), ("full", c_bool), ("answered", c_uint32), ("number", c_uint32),
                ("futex_words", c_void_p), ("apart", c_uint64 * 12)]


class Opening(ctypes.Structure):
    """What an open asks for."""

    _fields_ = [("maxmsg", c_int64), ("msgsize", c_int64), ("access", c_uint32),
                ("create", c_bool), ("exclusive", c_bool), ("nonblock", c_bool),
                ("limited", c_bool)]


class Attributes(ctypes.Structure):
    """The attributes of a queue and a descriptor."""

    _fields_ = [("maxmsg", c_int64), ("msgsize", c_int64), ("curmsgs", c_int64),
                ("nonblock", c_bool)]


class Received(ctypes.Structure):
    """A received message: its length in the buffer, and its priority."""

    _fields_ = [("len", c_size_t), ("prio", c_uint32)]


class Moment(ctypes.Structure):
    """A moment of a clock."""

    _fields_ = [("sec", c_int64), ("nsec", c_int64)]


_HANDLE, _BYTES = POINTER(Handle), ctypes.c_char_p
_FUNCTIONS = {
    "new": (_HANDLE, c_size_t),
    "unstored": (_HANDLE, c_size_t),
    "prepaid": (_HANDLE, c_size_t),
    "bounded": (_HANDLE, c_size_t, c_uint64, c_uint64),
    "resume": (_HANDLE, c_size_t, _BYTES, c_size_t, POINTER(c_uint64)),
    "finish": (_HANDLE, c_size_t),
    "open": (_HANDLE, _BYTES, c_size_t, POINTER(Opening), POINTER(c_uint32)),
    "close": (_HANDLE, c_uint32),
    "unlink": (_HANDLE, _BYTES, c_size_t),
    "start_send": (_HANDLE, c_uint32, _BYTES, c_size_t, c_uint32),
    "start_receive": (_HANDLE, c_uint32, POINTER(c_uint8), c_size_t, POINTER(Received)),
    "start_timed_send": (_HANDLE, c_uint32, _BYTES, c_size_t, c_uint32, POINTER(Moment),
                         POINTER(Moment)),
    "start_timed_receive": (_HANDLE, c_uint32, POINTER(c_uint8), c_size_t, POINTER(Received),
                            POINTER(Moment), POINTER(Moment)),
    "answered": (_HANDLE,),
    "await_answered": (_HANDLE, c_int64),
    "collect": (_HANDLE, POINTER(c_uint8), c_size_t, POINTER(Received)),
    "end_wait": (_HANDLE, POINTER(c_uint8), c_size_t, POINTER(Received), POINTER(Moment)),
    "notify": (_HANDLE, c_uint32, c_bool, c_uint64),
    "next_notice": (_HANDLE, POINTER(c_uint64)),
    "getattr": (_HANDLE, c_uint32, POINTER(Attributes)),
    "setattr": (_HANDLE, c_uint32, c_bool, POINTER(Attributes)),
    "exit": (_HANDLE,),
    "check": (_HANDLE,),
    "entry": (_HANDLE, c_uint64, POINTER(c_uint8), c_size_t, POINTER(c_size_t)),
}


def _found() -> ctypes.CDLL:
    """The library that YAKYROMBE_LIBRARY names, that of the repository or archive around this
    package, or that of the system."""
    named = os.environ.get("YAKYROMBE_LIBRARY")
    own = Path(__file__).resolve().parents[3] / "lib" / NAME
    for path in [named] if named else [str(own), NAME]:
        try:
            return ctypes.CDLL(path)
        except OSError as error:
            why = error
    raise ImportError(
        f"{NAME} was not loaded: {why}. Install Yakyrombe, or name the file in YAKYROMBE_LIBRARY."
    )


library = _found()
for _name, _arguments in _FUNCTIONS.items():
    _function = getattr(library, f"yak_{_name}")
    _function.argtypes, _function.restype = _arguments, c_uint32
library.yak_errno.argtypes, library.yak_errno.restype = (c_uint32,), ctypes.c_int
