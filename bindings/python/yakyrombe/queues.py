"""Systems, their processes, and queues."""
from __future__ import annotations

import ctypes
import threading
from collections.abc import Iterator
from contextlib import contextmanager
from types import TracebackType
from typing import NamedTuple

from . import _library as raw
from .clock import Clock, RealClock
from .errors import BadJournal, error_of, want

_SECOND = 1_000_000_000
# A wait without a deadline has the last moment there is, so that it can be withdrawn.
_NEVER = raw.Moment(2**63 - 1, _SECOND - 1)
# How long a call sleeps before Python looks for signals, in nanoseconds.
_SLICE = 50_000_000
_ACCESS = {"r": 0, "w": 1, "rw": 2}


class Message(NamedTuple):
    """A received message."""

    data: bytes
    priority: int


class Attributes(NamedTuple):
    """The limits and messages of a queue, and the flag of the descriptor."""

    max_messages: int
    message_size: int
    messages: int
    nonblocking: bool


class System:
    """Queues that 1 to 32 processes share. Only `processes` can open them.

    By default no journal is stored, and memory stays flat. With `journal` every call is listed
    (`entries`). With `bounds`, a number of entries and of bytes, the journal is stored within these,
    and no call allocates. With `prepaid` only an open that creates a queue allocates. `clock` is that
    of time-outs.
    """

    def __init__(self, processes: int = 1, *, journal: bool = False,
                 bounds: tuple[int, int] | None = None, prepaid: bool = False,
                 clock: Clock | None = None) -> None:
        if (journal or bounds is not None) + prepaid > 1:
            raise ValueError("a prepaid system stores no journal")
        handles = _handles(processes)
        if bounds is not None:
            want(raw.library.yak_bounded(handles, processes, *bounds))
        else:
            make = "new" if journal else "prepaid" if prepaid else "unstored"
            want(getattr(raw.library, f"yak_{make}")(handles, processes))
        self._begin(handles, clock)

    @classmethod
    def resume(cls, journal: str, processes: int, *, clock: Clock | None = None) -> System:
        """A system that continues from a journal, given as text. Its open waits stay open."""
        handles, line = _handles(processes), ctypes.c_uint64()
        text = journal.encode("ascii")
        answer = raw.library.yak_resume(handles, processes, text, len(text), ctypes.byref(line))
        if answer != raw.DONE:
            error = error_of(answer)
            if isinstance(error, BadJournal):
                error.line = line.value
                error.strerror = f"line {line.value}: {error.strerror}"
            raise error
        system = cls.__new__(cls)
        system._begin(handles, clock)
        return system

    def _begin(self, handles: ctypes.Array[raw.Handle], clock: Clock | None) -> None:
        self._handles = handles
        self.clock: Clock = clock or RealClock()
        self.processes = tuple(Process(self, handle) for handle in handles)

    def __enter__(self) -> System:
        return self

    def __exit__(self, kind: type[BaseException] | None, error: BaseException | None,
                 trace: TracebackType | None) -> None:
        self.close()

    def __del__(self) -> None:
        if hasattr(self, "_handles") and all(it.at for it in self._handles):
            raw.library.yak_finish(self._handles, len(self._handles))

    def close(self) -> None:
        """Ends the system. No process may be in a call. Later calls fail."""
        if all(it.at for it in self._handles):
            want(raw.library.yak_finish(self._handles, len(self._handles)))

    def entries(self) -> Iterator[str]:
        """The lines of the journal, which must be stored, as `mqlog` reads them."""
        place, size = 0, 4096
        text, length = (ctypes.c_uint8 * size)(), ctypes.c_size_t()
        while True:
            answer = raw.library.yak_entry(self._handles, place, text, size, ctypes.byref(length))
            if answer == raw.NO_ENTRY:
                return
            if answer == raw.SHORT:
                size *= 8
                text = (ctypes.c_uint8 * size)()
                continue
            want(answer)
            yield bytes(text[:length.value]).decode("ascii")
            place += 1

    def check(self) -> None:
        """Checks the journal, which must be stored, from its first entry on."""
        want(raw.library.yak_check(self._handles))


def _handles(count: int) -> ctypes.Array[raw.Handle]:
    if not 1 <= count <= 32:
        raise ValueError("a system has 1 to 32 processes")
    return (raw.Handle * count)()


class Process:
    """A process of a system: the right to make its calls. One thread at a time may use it; a call
    while another thread is in one raises RuntimeError."""

    def __init__(self, system: System, handle: raw.Handle) -> None:
        self.system = system
        self.number = int(handle.number)
        self._handle = ctypes.pointer(handle)
        self._lock = threading.Lock()
        self._buffer = (ctypes.c_uint8 * 0)()

    def __repr__(self) -> str:
        return f"<Process {self.number} of {len(self.system.processes)}>"

    @contextmanager
    def _used(self) -> Iterator[None]:
        """Keeps other threads from using the process meanwhile."""
        if not self._lock.acquire(blocking=False):
            raise RuntimeError(f"another thread is in a call of process {self.number}")
        try:
            yield
        finally:
            self._lock.release()

    def _call(self, name: str, *arguments: object) -> int:
        with self._used():
            return int(getattr(raw.library, f"yak_{name}")(self._handle, *arguments))

    def open(self, name: str, mode: str = "rw", *, create: bool = False, exclusive: bool = False,
             nonblocking: bool = False, max_messages: int = 10,
             message_size: int = 8192) -> Queue:
        """Opens the queue of a name, which begins with a slash (`mq_open`). `mode` is `r`, `w` or
        `rw`. With `create` it is created with these limits if there is none."""
        if mode not in _ACCESS:
            raise ValueError(f"mode {mode!r} is not r, w or rw")
        opening = raw.Opening(max_messages, message_size, _ACCESS[mode], create, exclusive,
                              nonblocking, create)
        text, d = name.encode(), ctypes.c_uint32()
        want(self._call("open", text, len(text), ctypes.byref(opening), ctypes.byref(d)))
        return Queue(self, d.value)

    def unlink(self, name: str) -> None:
        """Removes the name of a queue (`mq_unlink`)."""
        text = name.encode()
        want(self._call("unlink", text, len(text)))

    def next_notice(self) -> int | None:
        """The value of the oldest notice that the process has not taken, or None."""
        value = ctypes.c_uint64()
        answer = self._call("next_notice", ctypes.byref(value))
        if answer == raw.NO_NOTICE:
            return None
        want(answer)
        return value.value

    def exit(self) -> None:
        """Closes all descriptors of the process."""
        want(self._call("exit"))


class Queue:
    """An open queue of a process. `with` closes it."""

    def __init__(self, process: Process, descriptor: int) -> None:
        self.process = process
        self.descriptor = descriptor
        self._size: int | None = None

    def __repr__(self) -> str:
        return f"<Queue {self.descriptor} of process {self.process.number}>"

    def __enter__(self) -> Queue:
        return self

    def __exit__(self, kind: type[BaseException] | None, error: BaseException | None,
                 trace: TracebackType | None) -> None:
        self.close()

    def close(self) -> None:
        """Closes the descriptor (`mq_close`)."""
        want(self.process._call("close", self.descriptor))

    def send(self, data: bytes, priority: int = 0, timeout: float | None = None) -> None:
        """Sends a message (`mq_send`). If the queue is full, it waits, at most `timeout` seconds."""
        with self.process._used():
            wait = self._start_send(data, priority, timeout)
            if wait:
                wait._await()

    def receive(self, timeout: float | None = None) -> Message:
        """Receives the oldest message of the highest priority (`mq_receive`). If there is none, it
        waits, at most `timeout` seconds."""
        with self.process._used():
            found = self._start_receive(timeout)
            return found._await() if isinstance(found, Wait) else found

    def start_send(self, data: bytes, priority: int = 0, timeout: float | None = None) -> Wait | None:
        """Sends a message, or begins to wait for room: then it returns the wait. Until that ends, the
        process can make no other call on queues."""
        with self.process._used():
            return self._start_send(data, priority, timeout)

    def start_receive(self, timeout: float | None = None) -> Message | Wait:
        """Receives a message, or begins to wait for one: then it returns the wait."""
        with self.process._used():
            return self._start_receive(timeout)

    def _start_send(self, data: bytes, priority: int, timeout: float | None) -> Wait | None:
        until, now = self._deadline(timeout)
        answer = raw.library.yak_start_timed_send(
            self.process._handle, self.descriptor, data, len(data), priority, until, now)
        if answer == raw.WAITS:
            return Wait(self.process, until, b"")
        want(answer)
        return None

    def _start_receive(self, timeout: float | None) -> Message | Wait:
        until, now = self._deadline(timeout)
        buffer, received = self._room(), raw.Received()
        answer = raw.library.yak_start_timed_receive(
            self.process._handle, self.descriptor, buffer, len(buffer), ctypes.byref(received),
            until, now)
        if answer == raw.WAITS:
            return Wait(self.process, until, buffer)
        want(answer)
        return Message(bytes(memoryview(buffer)[:received.len]), received.prio)

    def _room(self) -> ctypes.Array[ctypes.c_uint8]:
        """A buffer that is long enough for each message of the queue, whose attributes the first
        receive asks for."""
        process = self.process
        if self._size is None:
            found = raw.Attributes()
            answer = raw.library.yak_getattr(process._handle, self.descriptor, ctypes.byref(found))
            self._size = found.msgsize if answer == raw.DONE else 0
        if len(process._buffer) < self._size:
            process._buffer = (ctypes.c_uint8 * self._size)()
        return process._buffer

    def _deadline(self, timeout: float | None) -> tuple[raw.Moment, raw.Moment]:
        now = self.process.system.clock.now()
        until = _NEVER if timeout is None else _moment(now + round(timeout * _SECOND))
        return until, _moment(now)

    @property
    def attributes(self) -> Attributes:
        """The attributes (`mq_getattr`)."""
        found = raw.Attributes()
        want(self.process._call("getattr", self.descriptor, ctypes.byref(found)))
        return Attributes(found.maxmsg, found.msgsize, found.curmsgs, found.nonblock)

    def set_nonblocking(self, nonblocking: bool) -> Attributes:
        """Sets the flag of the descriptor, and returns the attributes from before (`mq_setattr`)."""
        found = raw.Attributes()
        want(self.process._call("setattr", self.descriptor, nonblocking, ctypes.byref(found)))
        return Attributes(found.maxmsg, found.msgsize, found.curmsgs, found.nonblock)

    def notify(self, value: int) -> None:
        """Registers the process (`mq_notify`): a message to the empty queue brings a notice."""
        want(self.process._call("notify", self.descriptor, True, value))

    def unnotify(self) -> None:
        """Removes the registration."""
        want(self.process._call("notify", self.descriptor, False, 0))


def _moment(nanoseconds: int) -> raw.Moment:
    return raw.Moment(nanoseconds // _SECOND, nanoseconds % _SECOND)


class Wait:
    """An open wait of a process, which another process answers. It ends by `result` or `cancel`."""

    def __init__(self, process: Process, until: raw.Moment,
                 buffer: bytes | ctypes.Array[ctypes.c_uint8]) -> None:
        self._process = process
        self._until = until
        self._buffer = buffer

    @property
    def is_answered(self) -> bool:
        """Whether `result` returns at once."""
        return self._process._call("answered") == raw.DONE

    def result(self) -> Message | None:
        """Waits for the end: the message of a receive, or None for a send."""
        with self._process._used():
            return self._await()

    def cancel(self) -> Message | None:
        """Ends the wait now. If it was answered already, returns what `result` would have."""
        with self._process._used():
            received = raw.Received()
            answer = self._end("end_wait", received, self._until)
            return None if answer == raw.WAITS else self._ended(answer, received, cancels=True)

    def _end(self, name: str, received: raw.Received, *more: object) -> int:
        into = self._buffer if self._buffer else (ctypes.c_uint8 * 1)()
        return int(getattr(raw.library, f"yak_{name}")(
            self._process._handle, into, len(self._buffer), ctypes.byref(received), *more))

    def _ended(self, answer: int, received: raw.Received, cancels: bool) -> Message | None:
        if cancels and answer == 12:
            return None
        want(answer)
        if not self._buffer:
            return None
        return Message(bytes(memoryview(self._buffer)[:received.len]), received.prio)

    def _await(self) -> Message | None:
        """Sleeps until the wait is answered or its deadline has passed. An exception, as that of an
        interrupt, withdraws the wait; a message that had come by then is lost."""
        clock, received = self._process.system.clock, raw.Received()
        until = self._until.sec * _SECOND + self._until.nsec
        try:
            while True:
                answer = self._end("collect", received)
                if answer != raw.WAITS:
                    return self._ended(answer, received, cancels=False)
                if until <= clock.now():
                    return self._ended(self._end("end_wait", received, _moment(clock.now())),
                                       received, cancels=False)
                left = _SLICE if self._until is _NEVER else clock.wait_until(until)
                if left > 0:
                    raw.library.yak_await_answered(self._process._handle, min(left, _SLICE))
        except KeyboardInterrupt:
            self._end("end_wait", received, self._until)
            raise
