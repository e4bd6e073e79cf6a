#!/usr/bin/env python3
"""Writes a script: so many lines `do` of so many actors in turn, gets, puts and removals 6 : 6 : 4 of 1,000 keys.

`script.py LINES SLOTS ACTORS`. A line of each 16 is `sweep 48`, and the header's three lines count too.
"""
import random
import sys


def line(number: int, actors: int) -> str:
    if number % 16 == 15:
        return "sweep 48"
    key, choice = random.randrange(1000), random.randrange(16)
    if choice < 6:
        call = f"get 0 {key}"
    elif choice < 12:
        call = f"put 0 {key} {number}"
    else:
        call = f"remove 0 {key}"
    return f"do {number % actors + 1} {call}"


def main(lines: int, slots: int, actors: int) -> None:
    random.seed(1)
    header = [f"slots {slots}", "hash low", f"actors {actors}"]
    body = [line(number, actors) for number in range(lines - len(header))]
    sys.stdout.write("\n".join(header + body) + "\n")


main(*map(int, sys.argv[1:]))
