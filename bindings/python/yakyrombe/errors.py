"""The errors of calls."""
from __future__ import annotations

import os

from ._library import library


class Error(OSError):
    """A call failed. `errno` is the number of POSIX, or that which is closest to the reason."""


class WouldWait(Error, BlockingIOError):
    """The call would have to wait, and the descriptor is nonblocking (EAGAIN)."""


class TimedOut(Error, TimeoutError):
    """The deadline has passed (ETIMEDOUT)."""


class NotOpen(Error):
    """The descriptor is closed, or not open for this (EBADF)."""


class QueueExists(Error, FileExistsError):
    """The name has a queue already (EEXIST)."""


class NoQueue(Error, FileNotFoundError):
    """No queue has the name (ENOENT)."""


class JournalFull(Error):
    """A bounded journal has no room for the call."""


class Waiting(Error):
    """The process has an open wait, so it can't make this call."""


class NotWaiting(Error):
    """The process has no open wait."""


class NotStored(Error):
    """The journal is not stored, so it can't be read."""


class BadJournal(Error):
    """A system can't continue from the text: a line is malformed or not legal, or is of a process
    that the system lacks. `line` is its number, from 1."""

    line = 0


_CLASSES = {1: WouldWait, 2: NotOpen, 4: QueueExists, 9: NoQueue, 12: TimedOut, 13: JournalFull,
            19: Waiting, 20: NotWaiting, 27: NotStored, 29: BadJournal,
            30: BadJournal, 31: BadJournal}
_TEXTS = {3: "a process is registered already", 5: "an argument is not valid",
          6: "the process has 16 descriptors", 7: "the message does not fit the queue",
          8: "the name is longer than 255 bytes", 10: "64 queues exist", 11: "no memory",
          13: "the journal is full", 18: "the system is closed",
          19: "the process has an open wait", 20: "the process has no open wait",
          27: "the journal is not stored", 29: "the line is malformed",
          30: "the entry is not legal", 31: "the entry is of a process that the system lacks"}


def error_of(answer: int) -> Error:
    """The error that an answer of the library stands for."""
    number = library.yak_errno(answer)
    text = _TEXTS.get(answer) or os.strerror(number)
    return _CLASSES.get(answer, Error)(number, text)


def want(answer: int) -> None:
    """Raises the error of an answer other than YAK_DONE."""
    if answer != 0:
        raise error_of(answer)
