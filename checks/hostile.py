"""Cases with long, damaged and generated inputs, and inputs without an end."""
import os
import subprocess
import tempfile
from dataclasses import replace

from cases import Case
from common import PROGRAMS, TOP

MOST_BYTES, MOST_CALLS, MOST_LINE = 1_048_576, 1_000, 1_245_184
# The bytes that a pipe may hold, and those that a program reads at once.
PIPE, READ = 65_536, 4_096
SECONDS = 60


def case(name, words, given, **wanted):
    """A case, by the words of its command line in one text."""
    given = given.encode() if isinstance(given, str) else given
    return Case(name, tuple(words.split()), given, **wanted)


def lines(text):
    return tuple(text.splitlines())


def scripts():
    """Scripts at the limits of what a script may be."""
    name = "/" + 255 * "a"
    names = "processes 1\n1 open q bc\n1 open / bc\n1 open /a/b bc\n"
    names += f"1 open {name} bc\n1 open {name}a bc\n1 unlink {name}a\n"
    replies = "1 EINVAL\n1 EINVAL\n1 EINVAL\n1 fd 0\n1 ENAMETOOLONG\n1 ENAMETOOLONG\nhistory ok"
    yield case("a name has at most 255 bytes after the slash", "mqrun", names, out=lines(replies))
    journal = (f'0 1 open bc "{name}" -> fd 0 created',)
    yield case("a malformed name leaves no entry", "mqlog run", names, out=journal)
    zero = "processes 1\n1 open /q\0 bc\n"
    yield case("a byte 0 in a name", "mqrun", zero, out=("1 EINVAL", "history ok"))
    letters = bytes(it for it in range(256) if it not in b" \n")
    script = b"processes 1\n1 open /q bc 1 300\n1 send 0 0 " + letters + b"\n1 recv 0 300\n"
    got = f"1 got 0 254 {letters.decode(errors='surrogateescape')}"
    replies = ("1 fd 0", "1 ok", got, "history ok")
    yield case("any byte in a message", "mqrun", script, out=replies)
    head = "processes 1\n"
    full = head + (MOST_BYTES - len(head)) * "#"
    yield case("a script of 1,048,576 bytes", "mqrun", full, out=("history ok",))
    bad = {"status": 2, "err": b"line 2: bad call\n"}
    yield case("one byte more", "mqrun", full + "#", **bad)
    long = b"line 2: bad call: a script has at most 1048576 bytes\n"
    yield case("one byte more, with its reason", "mqlog run", full + "#", status=2, err=long)
    calls = head + MOST_CALLS * "1 getattr 0\n"
    replies = (*MOST_CALLS * ("1 EBADF",), "history ok")
    yield case("1,000 calls", "mqrun", calls, out=replies)
    clocks = calls.replace(head, f"{head}clock 1 0\n") + "--\nclock 2 0\n"
    yield case("a clock line is no call", "mqrun", clocks, out=replies)
    many = b"line 1002: bad call: a script has at most 1000 calls\n"
    yield case("one call more", "mqlog run", calls + "1 getattr 0\n", status=2, err=many)


# Lines of a million bytes: the begin, the byte after it, and what the error ends with.
LONG_LINES = (
    ("", "0", f"'{40 * '0'}..' where the sequence number 0 belongs"),
    ("0 1 close ", "9", ": close D"),
    ("0 ", " ", "a thread T from 2"),
    ('0 1 collect "', "%", "is left out if it is empty"),
)
CUT_OFF = "the last line has no line feed: it may be cut off"


def journals():
    """Damaged journals, and long ones."""
    with open(f"{TOP}/docs/picture.journal", "rb") as it:
        text = it.read()
    count = text.count(b"\n")
    for end in range(len(text)):
        front, line = text[:end], text[:end].count(b"\n")
        wanted = {"out": (f"legal: {line} {'entry' if line == 1 else 'entries'}, ...",)}
        if front and not front.endswith(b"\n"):
            wanted = {"status": 2, "err": f"line {line + 1}: no entry: {CUT_OFF}\n".encode()}
        yield case(f"the first {end} bytes of a journal", "mqlog check", front, **wanted)
    for place in range(count):
        for reply in ("fd 15", "handed 0", "attr 1 2 3 4", "notice 99", "collected 1", "ENOSPC"):
            turned = text.decode().splitlines()
            turned[place] = turned[place].partition(" -> ")[0] + f" -> {reply}"
            wanted = {"status": 1, "out": (f"entry {place}: ...",)}
            given = "\n".join(turned) + "\n"
            yield case(f"entry {place} with the reply {reply}", "mqlog check", given, **wanted)
    for front, byte, reason in LONG_LINES:
        given = f"{front}{1_000_000 * byte}\n"
        bad = {"status": 2, "err": b"line 1: no entry: ", "reason": f"{reason}\n".encode()}
        yield case(f"a line of a million bytes after {front!r}", "mqlog check", given, **bad)


def written(caller):
    """The word of a caller: its process, and behind a dot its thread, unless that is the first."""
    thread, process = divmod(caller - 1, 32)
    return f"{process + 1}.{thread + 1}" if thread > 0 else f"{caller}"


def refused(count, caller):
    """A journal of calls that fail, of the callers that a function gives them."""
    return "".join(f"{place} {written(caller(place))} close 0 -> EBADF\n" for place in range(count))


def has(*found):
    """The lines that an output has once."""
    return {"parts": tuple(("+", it) for it in found)}


# Parts of a journal of twenty entries, and how many each shows: none if it begins behind them.
MOST = 2**64 - 1
WINDOWS = (
    ("--from 3 --to 5", 3),
    ("--from 19 --to 19", 1),
    ("--from 20 --to 30", None),
    ("--from 5 --to 4", 0),
    (f"--from 15 --to {MOST}", 5),
    (f"--from {MOST} --to {MOST}", None),
)


def pictures():
    """Pictures of long journals and of many processes."""
    lane = '<text class="lane" x="{}" y="{}">{}</text>'
    mark = '<g class="refused"><circle cx="2460" cy="124" r="4"/>'
    mark += '<text x="2520" y="128">4 32.3 close 0 -&gt; EBADF</text></g>'
    found = has(lane.format(2460, 48, "others"), lane.format(60, 48, "1.3"), mark)
    many = refused(45, lambda place: 100 - place)
    yield case("the last of 41 lanes is that of all others", "mqlog draw", many, **found)
    found = has(*(lane.format(60, y, 1) for y in (48, 864, 1680)))
    long = refused(101, lambda place: 1)
    yield case("numbers stand again before each fiftieth entry", "mqlog draw", long, **found)
    longest = refused(2_100, lambda place: 33)
    yield case("at most 2,000 entries", "mqlog draw", longest, parts=((2_000, "<g "),))
    for window, count in WINDOWS:
        twenty = refused(20, lambda place: place % 3)
        found = {"parts": ((count, "<g "),)}
        if count is None:
            start = window.split()[1]
            err = f"--from {start}: the journal has 20 entries\n".encode()
            found = {"status": 2, "err": err}
        yield case(f"a part {window}", f"mqlog draw {window}", twenty, **found)


# Messages for two processes that each receive some times, and the outcomes and deadlocks. If there
# are enough messages, the outcomes are the words of so many letters 1 and 2. If there are too few,
# the deadlocks are the ways to write their number as a sum of two numbers up to the receives.
RACES = (
    ("ab", 1, 2, 0),
    ("abcd", 2, 6, 0),
    ("abcdef", 3, 20, 0),
    ("abc", 2, 0, 2),
    ("ab", 2, 0, 3),
    ("a", 2, 0, 2),
    ("", 2, 0, 1),
    ("abc", 3, 0, 4),
)


def races():
    """Scripts whose numbers of outcomes are known."""
    for messages, count, outcomes, deadlocks in RACES:
        script = "processes 2\n1 open /q bc 10 8\n--\n2 open /q b\n--\n"
        script += "".join(f"1 send 0 0 {it}\n" for it in messages)
        script += "--\n" + count * "1 recv 0 8\n" + count * "2 recv 0 8\n"
        found = has(f"phase 4: outcomes {outcomes}, deadlocks {deadlocks}")
        status = 5 if deadlocks else 0
        name = f"{count} receives of each of two processes, and {len(messages)} messages"
        yield case(name, "mqlog orders", script, status=status, **found)


def hostile_cases():
    """All these cases."""
    for kind in (scripts, journals, pictures, races):
        for it in kind():
            yield replace(it, name=f"{kind.__name__}: {it.name}")


# Inputs of which a program reads no more than it has to: the begin, what follows without an end,
# the most bytes that it may take, and the error.
ENDLESS = (
    ("mqlog check", b"y\n", b"", 2, "line 1: no entry: 'y' where the sequence number 0 belongs"),
    (
        "mqlog judge",
        b"33 0 10 close 0 -> EBADF\n",
        b"",
        25,
        "line 1: no entry: '33' where PROCESS belongs, a number from 1 to 32: PROCESS BEGIN END",
    ),
    (
        "mqlog check",
        b"",
        b"0",
        MOST_LINE + READ,
        f"line 1: no entry: a line has at most {MOST_LINE} bytes",
    ),
    (
        "mqlog check",
        b"",
        b"\0",
        READ,
        "line 1: no entry: the byte 00 in column 1 is not printable ASCII; a payload has it as %00",
    ),
    ("mqrun", b"processes 1\n", b"#", MOST_BYTES + 1, "line 2: bad call"),
)


def wrong_endless(words, front, rest, most, err):
    """What is wrong with how a program meets an input without an end, or None."""
    name, *others = words.split()
    pipes = {"stdin": subprocess.PIPE, "stdout": subprocess.PIPE, "stderr": subprocess.PIPE}
    with subprocess.Popen([PROGRAMS[name], *others], **pipes, bufsize=0) as ran:
        given = ran.stdin.write(front)
        try:
            while rest and given <= most + PIPE:
                given += ran.stdin.write(READ * rest)
        except BrokenPipeError:
            pass
        try:
            status = ran.wait(SECONDS)
        except subprocess.TimeoutExpired:
            ran.kill()
            return f"it had not ended after {SECONDS} seconds and {given} bytes"
        found = status, ran.stdout.read(), ran.stderr.read().decode()
    return None if found == (2, b"", f"{err}\n") else f"{found}, not {err!r}"


# Tasks, each with an input.
TASKS = (
    ("mqrun", "checks/refused/two_processes.script"),
    ("mqlog run", "checks/refused/two_processes.script"),
    ("mqlog history", "checks/refused/two_processes.script"),
    ("mqlog orders", "checks/refused/two_processes.script"),
    ("mqlog judge", "checks/refused/overlapping.history"),
    ("mqlog check", "docs/picture.journal"),
    ("mqlog draw", "docs/picture.journal"),
    ("mqlog view", "docs/picture.journal"),
    ("mqlog state --at 9", "docs/picture.journal"),
)


def wrong_failure(words, file, fails):
    """What is wrong with how a task ends if each read or each write fails, or None."""
    name, *others = words.split()
    source = "/" if fails == "input" else f"{TOP}/{file}"
    given = os.open(source, os.O_RDONLY)
    with open("/dev/full" if fails == "output" else os.devnull, "wb") as output:
        ran = subprocess.run(
            [PROGRAMS[name], *others],
            stdin=given,
            stdout=output,
            stderr=subprocess.PIPE,
            timeout=SECONDS,
            check=False,
        )
    os.close(given)
    found, wanted = (ran.returncode, ran.stderr.decode()), (3, f"{fails} fault\n")
    return None if found == wanted else f"{found}, not {wanted}"


# A script of one process that sends and receives 240 messages of 4,000 bytes, and the most memory
# that trying its only interleaving takes, in KiB. With a key of each state it took 1,753 MB.
LONG_MESSAGES = "processes 1\n1 open /q bcn 2 65536\n"
LONG_MESSAGES += 240 * f"1 send 0 1 {4_000 * 'x'}\n1 recv 0 65536\n"
MOST_MEMORY = 100 * 1024


def wrong_memory():
    """What is wrong with the memory that the interleavings of long messages take, or None."""
    with tempfile.TemporaryFile() as given, open(os.devnull, "wb") as output:
        given.write(LONG_MESSAGES.encode())
        given.seek(0)
        with subprocess.Popen([PROGRAMS["mqlog"], "orders"], stdin=given, stdout=output) as ran:
            _, status, used = os.wait4(ran.pid, 0)
            ran.returncode = os.waitstatus_to_exitcode(status)
    well = ran.returncode == 0 and used.ru_maxrss <= MOST_MEMORY
    return None if well else f"status {ran.returncode}, and {used.ru_maxrss} KiB"


def hostile_streams():
    """Names of further runs, each with what is wrong with it."""
    for it in ENDLESS:
        yield f"streams: {it[0]} of an input without an end, {it[1] + it[2]}", wrong_endless(*it)
    yield "streams: mqlog orders of long messages", wrong_memory()
    for words, file in TASKS:
        for fails in ("input", "output"):
            yield f"streams: {words} with an {fails} that fails", wrong_failure(words, file, fails)
