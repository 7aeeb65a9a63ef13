#!/usr/bin/env python3
"""Writes a manual page for each function of a header, from its declaration and its comment.

A comment that begins with 'The same' also gets what it refers to: the function that it names, or
the one before it. Functions that share a comment share a page. The names of the pages are printed.
"""
import argparse
import os
import re
import sys
import textwrap

NAME = re.compile(r"\b(yak_\w+)\(")
GROUP = re.compile(r"^/\*((?:(?!\*/).)*)\*/\n(?:#define [^\n]*\n)*((?:(?!typedef)[a-z][^;{]*;\n)+)",
                   re.M | re.S)


class Group:
    """Functions that share a comment."""

    def __init__(self, comment, code):
        self.text = " ".join(re.sub(r"^ \* ?", "", line.strip(), flags=re.M).strip(" *")
                             for line in comment.splitlines()).strip()
        self.declarations = [" ".join(it.split()) + ";" for it in code.split(";") if it.strip()]
        self.names = [NAME.search(it).group(1) for it in self.declarations]


def groups_of(header):
    """The groups of a header, in order."""
    text = header.split('extern "C" {', 1)[-1]
    return [Group(*it.groups()) for it in GROUP.finditer(text)]


def chain(groups, group):
    """The group, behind those that its comment refers to."""
    if not group.text.startswith("The same"):
        return [group]
    named = re.match(r"The same as (yak_\w+)", group.text)
    before = groups[:groups.index(group)]
    base = next((it for it in before if named and named.group(1) in it.names), before[-1])
    return [*chain(groups, base), group]


def escaped(text):
    """Text as roff, with the names of functions and constants in bold."""
    text = text.replace("\\", "\\e").replace("-", "\\-").replace("'", "\\(aq")
    return re.sub(r"\b(YAK_\w+|yak_\w+(?:\(\))?|mq_\w+)", r"\\fB\1\\fR", text)


def synopsis(declaration):
    """A declaration in lines of at most 72 columns, broken behind commas."""
    indent = " " * (declaration.index("(") + 1)
    whole = re.sub(r"(?<!,) ", "\0", declaration)
    lines = textwrap.wrap(whole, 72, subsequent_indent=indent, break_on_hyphens=False)
    return [line.replace("\0", " ") for line in lines]


def page(name, release, groups, group):
    """The page of a group, by the name of its first function."""
    first = re.split(r"[.:;](?: |$)", group.text)[0]
    lines = [f'.TH {name} 3 "" "Yakyrombe {release}" "Library Functions Manual"', ".SH NAME",
             ", ".join(group.names) + " \\- " + escaped(first[0].lower() + first[1:]),
             ".SH LIBRARY", "The proved library", ".RI ( libyakyrombe \", \" \\-lyakyrombe )",
             ".SH SYNOPSIS", ".nf", ".B #include <yakyrombe.h>", ".P"]
    lines += [f".B \"{line}\"" for it in group.declarations for line in synopsis(it)]
    lines += [".fi", ".SH DESCRIPTION"]
    parts = chain(groups, group)
    for part in parts:
        if part is not parts[0]:
            lines.append(".P")
        if len(parts) > 1:
            lines.append(", ".join(f"\\fB{it}\\fR()" for it in part.names) + ":")
        lines += textwrap.wrap(escaped(part.text), 96, break_on_hyphens=False,
                               break_long_words=False)
    lines += [".SH RETURN VALUE"]
    if any(it.startswith("uint32_t") for it in group.declarations):
        lines += ["What a call returns, and the rules for a program, are in", ".BR yakyrombe (3)."]
    else:
        lines += ["As described above.", "The rules for a program are in", ".BR yakyrombe (3)."]
    lines += [".SH SEE ALSO", ".BR yakyrombe (3),", ".BR yakyrombe_mqueue (7)"]
    return "\n".join(lines) + "\n"


def main():
    parser = argparse.ArgumentParser(description=__doc__,
                                     formatter_class=argparse.RawDescriptionHelpFormatter)
    parser.add_argument("header", metavar="HEADER")
    parser.add_argument("release", metavar="RELEASE")
    parser.add_argument("folder", metavar="FOLDER")
    asked = parser.parse_args()
    with open(asked.header, encoding="utf-8") as file:
        groups = groups_of(file.read())
    os.makedirs(asked.folder, exist_ok=True)
    for group in groups:
        first, *others = group.names
        pages = {first: page(first, asked.release, groups, group)}
        pages.update({name: f".so man3/{first}.3\n" for name in others})
        for name, text in pages.items():
            with open(f"{asked.folder}/{name}.3", "w", encoding="utf-8") as file:
                file.write(text)
            print(f"{name}.3")
    return 0


if __name__ == "__main__":
    sys.exit(main())
