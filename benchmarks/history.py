#!/usr/bin/env python3
"""Writes a history to check: so many operations of four actors over 1,000 keys on one handle, one after the other."""
import random
import sys


def main(operations: int) -> None:
    random.seed(1)
    values: dict[int, int] = {}
    out = ["hash low"]
    for operation in range(operations):
        key = random.randrange(1000)
        before = values.get(key)
        found = "none" if before is None else f"some {before}"
        kind = random.randrange(3)
        if kind == 0:
            call = f"get 0 {key}"
        elif kind == 1:
            call = f"put 0 {key} {operation}"
            values[key] = operation
        else:
            call = f"remove 0 {key}"
            values.pop(key, None)
        out.append(f"begin {operation} {operation % 4 + 1} {call}")
        out.append(f"end {operation} {found}")
    out.append("order " + " ".join(str(operation) for operation in range(operations)))
    sys.stdout.write("\n".join(out) + "\n")


main(int(sys.argv[1]))
