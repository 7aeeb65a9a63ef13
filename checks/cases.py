"""Reads files of cases, and says what is wrong with what a program makes of one.

A case is a group of lines:
  # what it shows
  $ mqlog state --at 3    the command line
  > text                  a line of the standard input
  ~ text                  a line in place of that of the input with the same first word
  NAME> text              a line of the file NAME, in the folder where the program runs
  < text                  a line of the output; if the last one ends in `...`, more may follow
  + text                  in place of `<`: a line that the output has once; `-`: one that it lacks;
                          if it ends in `...`, a line that begins so
  ! text                  a line of the error stream
  = 2                     the exit status, if it is not 0
  * 20                    how often the case is run
  ? 2 "text" reason       another case: this input, in JSON, is malformed in line 2, for this reason
  % prefixes              further cases: each prefix of the input is a whole run, or its last line
                          is malformed
A line of input that ends in a backslash has no line feed. Without a command line, an input or a
file, a case has that of the case before it, where no line is replaced.
"""
import json
import os
import re
from dataclasses import dataclass, field, replace

from common import TOP

FOLDER = f"{TOP}/checks/cases"


@dataclass(frozen=True)
class Case:
    """A command line with its input and its files, and what the program must make of them."""

    name: str
    words: tuple
    given: bytes = b""
    files: tuple = ()
    status: int = 0
    out: tuple = ()
    parts: tuple = ()
    err: bytes = b""
    times: int = 1
    # What the error stream ends with, if `err` is only its begin.
    reason: bytes = b""
    # Whether the program may also take the input.
    may_pass: bool = False


@dataclass
class Lines:
    """The lines of one case."""

    words: tuple = None
    given: bytes = None
    files: dict = field(default_factory=dict)
    rest: dict = field(default_factory=dict)
    more: list = field(default_factory=list)


def fed(line):
    """A line of input with its line feed, if it has one."""
    return line[:-1].encode() if line.endswith("\\") else f"{line}\n".encode()


def replaced(given, lines):
    """An input with lines in place of those with the same first word, or after them all."""
    found = {it.split()[0]: it for it in given.splitlines()} if lines else {}
    found |= {it.split()[0]: it for it in map(str.encode, lines)}
    return b"".join(it + b"\n" for it in found.values()) if lines else given


def parsed(group):
    """The lines of a case, by their kind."""
    lines = Lines()
    for line in group:
        kind, _, text = line.partition(" ")
        if kind == "$":
            lines.words = tuple(text.split())
        elif kind == ">":
            lines.given = (lines.given or b"") + fed(text)
        elif kind.endswith(">"):
            lines.files[kind[:-1]] = lines.files.get(kind[:-1], b"") + fed(text)
        elif kind in ("?", "%"):
            lines.more.append((kind, text))
        elif kind in ("#", "<", "!", "=", "*", "+", "-", "~"):
            lines.rest.setdefault(kind, []).append(text)
        else:
            raise ValueError(f"a line begins with {kind}")
    return lines


def malformed(case, text):
    """The case of a `?` line."""
    line, _, rest = text.partition(" ")
    given, end = json.JSONDecoder().raw_decode(rest)
    return replace(
        case,
        name=f"{case.name}: {given!r}",
        given=given.encode(),
        status=2,
        err=f"line {line}: ".encode(),
        reason=f"{rest[end:].strip()}\n".encode(),
    )


def prefixes(case):
    """The cases of a `%` line."""
    for end in range(len(case.given)):
        given = case.given[:end]
        line = given[:-1].count(b"\n") + 1
        yield replace(
            case,
            name=f"{case.name}: {end} bytes",
            given=given,
            status=2,
            err=f"line {line}: ".encode(),
            reason=b"\n",
            may_pass=True,
        )


def cases_of(file):
    """The cases of a file."""
    with open(f"{FOLDER}/{file}", encoding="utf-8") as it:
        groups = it.read().split("\n\n")
    before = Case(file, ())
    for group in groups:
        lines = parsed(group.splitlines())
        if lines.words is None and not lines.rest and not lines.more:
            continue
        rest = lines.rest
        bare = Case(
            f"{file}: {' '.join(rest.get('#', [before.name]))}",
            lines.words or before.words,
            before.given if lines.given is None else lines.given,
            tuple(lines.files.items()) or before.files,
        )
        case = replace(
            bare,
            given=replaced(bare.given, rest.get("~", ())),
            status=int(rest.get("=", ["0"])[0]),
            out=tuple(rest.get("<", ())),
            parts=tuple((sign, text) for sign in "+-" for text in rest.get(sign, ())),
            err="".join(f"{it}\n" for it in rest.get("!", ())).encode(),
            times=int(rest.get("*", ["1"])[0]),
        )
        if set(rest) - {"#"}:
            yield case
        for kind, text in lines.more:
            yield from prefixes(bare) if kind == "%" else [malformed(bare, text)]
        before = bare


def all_cases():
    """The cases of all files."""
    for file in sorted(os.listdir(FOLDER)):
        yield from cases_of(file)


def is_wrong(lines, sign, text):
    """Whether lines do not have a line once or lack it, or do not have some that begin with it."""
    if isinstance(sign, int):
        return sum(it.startswith(text) for it in lines) != sign
    if text.endswith("..."):
        return is_wrong(lines, int(sign == "+"), text.removesuffix("..."))
    return lines.count(text) != (sign == "+")


def wrong_output(case, out):
    """What is wrong with an output, or None."""
    if case.parts:
        lines = out.decode(errors="replace").splitlines()
        parts = [it for it in case.parts if is_wrong(lines, *it)]
        return f"{parts} of {out!r}" if parts else None
    wanted = "".join(f"{it}\n" for it in case.out).encode(errors="surrogateescape")
    if wanted.endswith(b"...\n"):
        wanted = wanted.removesuffix(b"...\n")
        return None if out.startswith(wanted) else f"{out!r}, not first {wanted!r}"
    return None if out == wanted else f"{out!r}, not {wanted!r}"


def wrong(case, run):
    """What is wrong with what a program makes of a case, or None. `run` takes the words of a
    command line, the input and the files, and returns the status and both streams."""
    status, out, err = run(case.words, case.given, case.files)
    if case.may_pass and status == 0:
        return f"an error {err!r}" if err else None
    if status != case.status:
        return f"status {status} and {err!r}, not status {case.status}"
    if not case.reason and err != case.err:
        return f"{err!r}, not {case.err!r}"
    if case.reason and not re.fullmatch(
        re.escape(case.err) + b".*" + re.escape(case.reason), err
    ):
        return f"{err!r}, not {case.err!r} and {case.reason!r}"
    return wrong_output(case, out)
