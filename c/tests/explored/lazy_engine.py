#!/usr/bin/env python3
"""A search engine for yak-explore that makes one run and says that it is done: checks/explored wants yak-explore to notice."""
import sys


def main():
    sys.stdin.readline()
    print("run", flush=True)
    for line in sys.stdin:
        if line.startswith("end "):
            return print("done all", flush=True)


if __name__ == "__main__":
    main()
