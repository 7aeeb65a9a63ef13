"""Histories of simulated calls on queues, which overlap, and histories of a few calls with a result
changed, compared with all orders of their calls."""
import itertools
import random
from dataclasses import dataclass, replace

from cases import Case

PROCESSES = 8


@dataclass(frozen=True)
class Call:
    """A call of a process: a send of `message`, or a receive if it is None. It gave a message, that
    sent or received, or EAGAIN."""

    process: int
    begin: int
    end: int
    message: tuple
    gave: tuple

    def line(self, queue):
        """Its line in a history, of the process of this queue."""
        if self.message:
            priority, letter = self.message
            words = f'send 3 {priority} 1 "{letter}" -> {"ok" if self.gave else "EAGAIN"}'
        elif self.gave:
            words = 'recv 3 8 -> got {} "{}"'.format(*self.gave)
        else:
            words = "recv 3 8 -> EAGAIN"
        return f"{PROCESSES * queue + self.process + 1} {self.begin} {self.end} {words}\n"


def effect(held, room, message):
    """What a call on a queue gives. Changes what is held."""
    if message is None:
        return held.pop(0) if held else None
    if len(held) >= room:
        return None
    place = next((k for k, it in enumerate(held) if it[0] < message[0]), len(held))
    held.insert(place, message)
    return message


def simulated(dice, count, room, waits, processes=PROCESSES, letters="abcd"):
    """Calls that take effect one after another. Each begins after the effect of the call before it
    of its process, and ends before that of the next. If calls wait, none need wait."""
    held, calls, effects = [], [], {}
    for moment in range(1_000, 1_000 * (count + 1), 1_000):
        process = dice.randrange(processes)
        before, last = effects.get(process, (100, None))
        between = before + dice.randrange(moment - before - 1)
        if last is not None:
            calls[last] = replace(calls[last], end=between)
        sends = dice.random() < 0.5
        if waits and len(held) in (0, room):
            sends = not held
        message = (dice.randrange(len(letters)), dice.choice(letters)) if sends else None
        gave = effect(held, room, message)
        effects[process] = moment, len(calls)
        calls.append(Call(process, between + 1, 1_000 * (count + 2), message, gave))
    return calls


def text_of(calls, room, waits, queue=0):
    """The history of these calls, after an open of each process."""
    flags = "bc" if waits else "bcn"
    opens = (
        f'{PROCESSES * queue + k + 1} {2 * k} {2 * k + 1} open {flags} limits {room} 8 "/q{queue}"'
        for k in range(PROCESSES)
    )
    return "".join(f"{it} -> fd 3\n" for it in opens) + "".join(it.line(queue) for it in calls)


def explains(order, room):
    """Whether in this order each call gives what it gave, and none comes after one that began after
    its end."""
    held, latest = [], 0
    for call in order:
        if call.end < latest or effect(held, room, call.message) != call.gave:
            return False
        latest = max(latest, call.begin)
    return True


def turned(call):
    """The call with another result."""
    if call.message:
        return replace(call, gave=None if call.gave else call.message)
    if call.gave is None:
        return replace(call, gave=(0, "a"))
    return replace(call, gave=(call.gave[0], "b" if call.gave[1] == "a" else "a"))


def judged(name, history, budget, possible):
    """The case of a history that is possible or not."""
    words = ("mqlog", "judge", "--budget", str(budget))
    begin = "possible: ..." if possible else "impossible: ..."
    wanted = {"status": 0 if possible else 1, "out": (begin,)}
    return Case(f"simulated: {name}", words, history.encode(), **wanted)


def long_cases():
    """Long histories: those of a queue, and of four, are possible in a step for each call."""
    for room, waits in itertools.product((10, 3), (False, True)):
        style = f"room for {room}, calls that {'wait' if waits else 'fail'}"
        all_queues = ""
        for seed in range(4):
            calls = simulated(random.Random(f"{seed} {style}"), 400, room, waits)
            history = text_of(calls, room, waits)
            yield judged(f"400 calls, {style}, seed {seed}", history, 408, True)
            all_queues += text_of(calls, room, waits, seed)
        yield judged(f"1,600 calls on four queues, {style}", all_queues, 1_632, True)
        changed = [it if it.message else replace(it, gave=(1, "z")) for it in calls]
        changed = text_of(changed, room, waits)
        yield judged(f"messages that nobody sent, {style}", changed, 5_000, False)


def small_cases():
    """Histories of six calls with a result changed, which are possible if some order is."""
    for seed in range(20):
        calls = simulated(random.Random(f"small {seed}"), 6, 2, False, 4, "ab")
        for k, call in enumerate(calls):
            changed = [*calls[:k], turned(call), *calls[k + 1 :]]
            possible = any(explains(order, 2) for order in itertools.permutations(changed))
            name = f"six calls, seed {seed}, with call {k} changed"
            yield judged(name, text_of(changed, 2, False), 1_000_000, possible)


def simulated_cases():
    """All these cases. Of those with six calls some are possible, and some are not."""
    small = list(small_cases())
    assert 10 < sum(it.status == 0 for it in small) < 110
    return [*long_cases(), *small]
