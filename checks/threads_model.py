"""Queues of processes of several threads, written from docs/semantics.md alone: what `mqlog check`
is compared with. It shares nothing with the library."""
from dataclasses import dataclass, field

CALLERS, PROCESSES, DESCRIPTORS, QUEUES = 2048, 32, 16, 64
NANOSECONDS = 1_000_000_000


def process_of(caller):
    """The process of a caller: caller o + 32 t is a thread of process o."""
    return (caller - 1) % PROCESSES + 1


def caller_text(caller):
    """A caller as a journal names it."""
    thread = (caller - 1) // PROCESSES + 1
    return str(caller) if thread == 1 else f"{process_of(caller)}.{thread}"


@dataclass
class Queue:
    name: bytes
    maxmsg: int
    msgsize: int
    named: bool = True
    messages: list = field(default_factory=list)  # (-priority, place)
    receives: list = field(default_factory=list)  # waits, the longest first
    sends: list = field(default_factory=list)
    registration: tuple = None  # place, process, descriptor, value


@dataclass
class Wait:
    place: int
    queue: Queue
    priority: int = None  # of a send
    until: tuple = None
    answered: int = None


@dataclass
class Process:
    held: dict = field(default_factory=dict)  # descriptor: [queue, access, nonblock]
    notices: list = field(default_factory=list)


class Queues:
    """The state after the calls made so far."""

    def __init__(self):
        self.place = 0
        self.names = {}
        self.alive = []
        self.processes = {p: Process() for p in range(1, PROCESSES + 1)}
        self.waits = {}

    def may_call(self, caller, call):
        """Whether a caller may make a call now. A call is a tuple that begins with its word."""
        wait = self.waits.get(caller)
        if call[0] == "collect":
            return wait is not None and wait.answered is not None
        if call[0] == "withdraw":
            return (wait is not None and wait.answered is None and wait.until is not None
                    and wait.until <= call[1])
        return wait is None

    def make(self, caller, call):
        """Makes a call that the caller may make, and returns its reply."""
        process = self.processes[process_of(caller)]
        reply = getattr(self, f"_{call[0]}")(caller, process, *call[1:])
        self.place += 1
        return reply

    def _open(self, caller, process, name, flags, limits):
        queue = self.names.get(name)
        if queue and "c" in flags and "x" in flags:
            return "EEXIST"
        if not queue and "c" not in flags:
            return "ENOENT"
        maxmsg, msgsize = limits or (10, 8192)
        if not queue and not (1 <= maxmsg <= 4096 and 1 <= msgsize <= 65536):
            return "EINVAL"
        free = next((d for d in range(DESCRIPTORS) if d not in process.held), None)
        if free is None:
            return "EMFILE"
        if not queue and len(self.alive) == QUEUES:
            return "ENOSPC"
        created = not queue
        if created:
            queue = Queue(name, maxmsg, msgsize)
            self.names[name] = queue
            self.alive.append(queue)
        process.held[free] = [queue, flags[0], "n" in flags]
        return f"fd {free} created" if created else f"fd {free}"

    def _drop(self, queue):
        is_held = any(h[0] is queue for p in self.processes.values() for h in p.held.values())
        if not queue.named and not is_held and queue in self.alive:
            self.alive = [q for q in self.alive if q is not queue]

    def _close(self, caller, process, d):
        if d not in process.held:
            return "EBADF"
        queue = process.held.pop(d)[0]
        found = queue.registration
        if found and found[1] == process_of(caller) and found[2] == d:
            queue.registration = None
        self._drop(queue)
        return "ok"

    def _unlink(self, caller, process, name):
        if name not in self.names:
            return "ENOENT"
        queue = self.names.pop(name)
        queue.named = False
        self._drop(queue)
        return "ok"

    def _notify_arrival(self, queue):
        """A message entered the empty queue: the words of the reply."""
        if queue.registration is None:
            return ""
        place, process, _, value = queue.registration
        queue.registration = None
        self.processes[process].notices.append(value)
        return f" notified {place}"

    def _send(self, caller, process, d, priority, length, until=None, now=None):
        if d not in process.held or process.held[d][1] == "r":
            return "EBADF"
        queue, _, nonblock = process.held[d]
        if priority > 32767:
            return "EINVAL"
        if length > queue.msgsize:
            return "EMSGSIZE"
        if queue.receives:
            wait = queue.receives.pop(0)
            wait.answered = self.place
            return f"handed {wait.place}"
        if len(queue.messages) < queue.maxmsg:
            queue.messages.append((-priority, self.place))
            return "queued" + (self._notify_arrival(queue) if len(queue.messages) == 1 else "")
        if nonblock:
            return "EAGAIN"
        return self._wait(caller, queue, queue.sends, priority, until, now)

    def _wait(self, caller, queue, line, priority, until, now):
        if until is not None:
            if not 0 <= until[1] < NANOSECONDS:
                return "EINVAL"
            if until <= now:
                return "ETIMEDOUT"
        wait = Wait(self.place, queue, priority, until)
        line.append(wait)
        self.waits[caller] = wait
        return "waits"

    def _receive(self, caller, process, d, room, until=None, now=None):
        if d not in process.held or process.held[d][1] == "w":
            return "EBADF"
        queue, _, nonblock = process.held[d]
        if room < queue.msgsize:
            return "EMSGSIZE"
        if not queue.messages:
            if nonblock:
                return "EAGAIN"
            return self._wait(caller, queue, queue.receives, None, until, now)
        best = min(queue.messages)
        queue.messages.remove(best)
        reply = f"got {best[1]}"
        if queue.sends:
            wait = queue.sends.pop(0)
            wait.answered = self.place
            queue.messages.append((-wait.priority, wait.place))
            reply += f" admitted {wait.place}"
            if len(queue.messages) == 1:
                reply += self._notify_arrival(queue)
        return reply

    def _attributes(self, process, d):
        queue, _, nonblock = process.held[d]
        return f"attr {int(nonblock)} {queue.maxmsg} {queue.msgsize} {len(queue.messages)}"

    def _getattr(self, caller, process, d):
        return self._attributes(process, d) if d in process.held else "EBADF"

    def _setattr(self, caller, process, d, nonblock):
        if d not in process.held:
            return "EBADF"
        reply = self._attributes(process, d)
        process.held[d][2] = nonblock
        return reply

    def _notify(self, caller, process, d, value):
        if d not in process.held:
            return "EBADF"
        queue = process.held[d][0]
        found = queue.registration
        if value is not None:
            if found:
                return "EBUSY"
            queue.registration = (self.place, process_of(caller), d, value)
            return "ok"
        if not found or found[1] != process_of(caller):
            return "EINVAL"
        queue.registration = None
        return "ok"

    def _notice(self, caller, process):
        return f"notice {process.notices.pop(0)}" if process.notices else "notice none"

    def _collect(self, caller, process):
        return f"collected {self.waits.pop(caller).answered}"

    def _withdraw(self, caller, process, now):
        wait = self.waits.pop(caller)
        line = wait.queue.receives if wait.priority is None else wait.queue.sends
        line[:] = [w for w in line if w is not wait]
        return f"withdrawn {wait.place}"
