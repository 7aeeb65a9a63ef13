#!/usr/bin/env python3
"""A search engine for yak-explore that tries all interleavings, for checks/explored to compare with.

It goes depth first over the threads that each step showed as able to run, and reads of a trace nothing else. It makes no random runs.
"""
import sys


def say(line):
    print(line, flush=True)


def read_trace():
    """The steps of a run: the threads that could run, with how many ways each had, and what was chosen."""
    steps, able = [], {}
    for line in sys.stdin:
        kind, *words = line.split()
        if kind == "at":
            able = {}
            for word in words:
                thread, _, _, _, can, variants, _ = map(str, word.split(":"))
                if can != "0":
                    able[int(thread)] = int(variants)
        elif kind == "chose":
            steps.append((able, (int(words[0]), int(words[1]))))
        elif kind == "end":
            return steps
    sys.exit(0)


def main():
    _, _, runs, _, _ = sys.stdin.readline().split()
    budget = int(runs)
    chosen, left = [], []  # of each step what was chosen, and what is still to be tried in its place
    while budget != 0:
        budget -= 1
        say("run" + "".join(f" {thread}.{variant}" if variant else f" {thread}" for thread, variant in chosen))
        for able, choice in read_trace()[len(chosen):]:
            left.append([(thread, variant) for thread in able for variant in range(able[thread]) if (thread, variant) != choice])
            chosen.append(choice)
        while left and not left[-1]:
            left.pop()
            chosen.pop()
        if not left:
            return say("done all")
        chosen[-1] = left[-1].pop()
    say("done budget")


if __name__ == "__main__":
    main()
