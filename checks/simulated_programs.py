"""Simulates small programs of threads over queues and mutexes, and tries all their interleavings.

A program is a list of words, as random_programs.py makes them. A thread is parked before each of
its operations. A step is an operation, and the unlocks that follow it.
"""
import heapq
from dataclasses import dataclass
from typing import NamedTuple

OBJECTS = 2
# Whether a thread can do its operation; late means: only because its deadline may pass.
CANNOT, CAN, LATE = 0, 1, 2
# The flags of an operation with a deadline, and of one that does not block.
DEADLINE, TRY = 1, 2
# The kind, the flags and the priority of each operation.
OPERATIONS = {
    "s": ("send", 0, 0),
    "S": ("send", 0, 1),
    "N": ("send", TRY, 0),
    "T": ("send", DEADLINE, 0),
    "r": ("receive", 0, 0),
    "n": ("receive", TRY, 0),
    "t": ("receive", DEADLINE, 0),
    "g": ("getattr", 0, 0),
    "l": ("lock", 0, 0),
}
EAGAIN, ETIMEDOUT = 11, 110


class State(NamedTuple):
    """A state of a run. Queues have pairs of a priority and a name of a message."""

    at: tuple
    queues: tuple
    # The thread that holds each mutex, or 0.
    owners: tuple
    # What the operations of each thread returned.
    told: tuple

    def __str__(self):
        told = ", ".join("".join(f" {it}" for it in words).strip() for words in self.told)
        held = ", ".join(" ".join(name for _, name in queue) for queue in self.queues)
        return f"[{told} | {held}]"


class Parked(NamedTuple):
    """A thread that is parked before an operation. Threads are numbered from 1."""

    thread: int
    letter: str
    index: int
    able: int

    @property
    def object(self):
        return object_of(self.letter, self.index)

    def word(self):
        """This in a line of a trace, with one variant."""
        kind, flags, priority = OPERATIONS[self.letter]
        return f"{self.thread}:{kind}:{self.object}:{flags}:{self.able}:1:{priority}"


class Step(NamedTuple):
    """A step of a thread: the state after it, the objects that it accesses, and its lines in a
    trace."""

    after: State
    objects: tuple
    lines: str


@dataclass(frozen=True)
class Place:
    """The threads that are parked in a state, their words in a line of a trace, and the step of
    each thread that can go on."""

    parked: tuple
    words: str
    steps: dict

    def is_deadlock(self):
        return bool(self.parked) and not self.steps


def object_of(letter, index):
    """The number of a queue, or of a mutex."""
    return index + (11 if letter in "lu" else 1)


def replaced(items, place, item):
    return items[:place] + (item,) + items[place + 1 :]


def with_message(queue, message):
    """A queue with a message after those of its priority and of higher ones."""
    place = next((k for k, it in enumerate(queue) if it[0] < message[0]), len(queue))
    return queue[:place] + (message,) + queue[place:]


@dataclass(frozen=True)
class Program:
    """Threads, each with pairs of a letter and an index, and how many messages a queue can hold."""

    room: int
    threads: tuple

    def start(self):
        nothing = tuple(() for _ in self.threads)
        return State((0,) * len(self.threads), ((),) * OBJECTS, (0,) * OBJECTS, nothing)

    def is_ready(self, state, letter, index):
        """Whether an operation need not wait."""
        kind = OPERATIONS[letter][0]
        if kind == "send":
            return len(state.queues[index]) < self.room
        if kind == "receive":
            return len(state.queues[index]) != 0
        return kind == "getattr" or state.owners[index] == 0

    def able(self, state, letter, index):
        """Whether a thread can do an operation."""
        flags = OPERATIONS[letter][1]
        if flags & TRY or self.is_ready(state, letter, index):
            return CAN
        return LATE if flags & DEADLINE else CANNOT

    def parked(self, state):
        """The threads that have not finished."""
        nexts = ((k, self.threads[k][at : at + 1]) for k, at in enumerate(state.at))
        return tuple(
            Parked(k + 1, letter, index, self.able(state, letter, index))
            for k, operations in nexts
            for letter, index in operations
        )

    def made(self, state, parked):
        """The state after an operation, and its error."""
        thread, letter, index, _ = parked
        kind, flags, priority = OPERATIONS[letter]
        queues, owners, told, error = state.queues, state.owners, None, 0
        if not self.is_ready(state, letter, index):
            told, error = "-", EAGAIN if flags & TRY else ETIMEDOUT
        elif kind == "send":
            message = (priority, f"{thread}.{state.at[thread - 1]}")
            queues = replaced(queues, index, with_message(queues[index], message))
            told = "+"
        elif kind == "receive":
            told = queues[index][0][1]
            queues = replaced(queues, index, queues[index][1:])
        elif kind == "getattr":
            told = str(len(queues[index]))
        else:
            owners = replaced(owners, index, thread)
        return self.passed(State(state.at, queues, owners, state.told), thread, told), error

    def passed(self, state, thread, told=None):
        """The state in which a thread is before its next operation."""
        k = thread - 1
        says = state.told if told is None else replaced(state.told, k, (*state.told[k], told))
        return state._replace(at=replaced(state.at, k, state.at[k] + 1), told=says)

    def unlocked(self, state, thread):
        """The state after the unlocks that come next in a thread, and their objects."""
        objects = ()
        for letter, index in self.threads[thread - 1][state.at[thread - 1] :]:
            if letter != "u":
                break
            state = state._replace(owners=replaced(state.owners, index, 0))
            state = self.passed(state, thread)
            objects += (object_of(letter, index),)
        return state, objects

    def step(self, state, words, parked):
        """The step of a parked thread."""
        after, error = self.made(state, parked)
        after, objects = self.unlocked(after, parked.thread)
        lines = f"at{words}\nchose {parked.thread} 0\n"
        lines += "".join(f"also unlock {it}\n" for it in objects) + f"gave {error} 0\n"
        return Step(after, (parked.object, *objects), lines)

    def place(self, state):
        """What can come next in a state."""
        parked = self.parked(state)
        words = "".join(f" {it.word()}" for it in parked)
        able = (it for it in parked if it.able != CANNOT)
        return Place(parked, words, {it.thread: self.step(state, words, it) for it in able})


def operations_of(word):
    return tuple((word[k], int(word[k + 1])) for k in range(0, len(word), 2))


def program_of(words):
    """The program of these words."""
    room, *threads = words
    return Program(int(room), tuple(map(operations_of, threads)))


def cost(parked, last, it):
    """1 if a step preempts a thread that can go on, or a deadline passes although some can."""
    able = {other.thread for other in parked if other.able == CAN}
    return int(it.thread != last and last in able or it.able == LATE and bool(able))


def all_places(program, most):
    """The place of each state that some interleaving reaches, or None if there are more than
    `most`."""
    places, left = {}, [program.start()]
    while left:
        state = left.pop()
        if state in places:
            continue
        if len(places) == most:
            return None
        places[state] = program.place(state)
        left += [step.after for step in places[state].steps.values()]
    return places


def fewest_preemptions(places, start):
    """The fewest preemptions of a deadlock, or None if there is none. Thread 1 runs first."""
    seen, left = set(), [(0, 1, start)]
    while left:
        spent, last, state = heapq.heappop(left)
        place = places[state]
        if place.is_deadlock():
            return spent
        if (last, state) in seen:
            continue
        seen.add((last, state))
        for it in place.parked:
            if it.thread in place.steps:
                price = spent + cost(place.parked, last, it)
                heapq.heappush(left, (price, it.thread, place.steps[it.thread].after))
    return None
