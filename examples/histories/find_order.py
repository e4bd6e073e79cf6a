#!/usr/bin/env python3
"""find_order.py FILE [--steps N]: looks for an order of a history that has none, and writes the history with it.

The history has the form that `ctrie check` reads, but for the line `order`; one that is there is passed over. All calls may stand in it.
Where it has calls on keys of handle 0 alone, each key is looked at for itself. The search gives up after five million steps, or N.

`ctrie check` judges the order, so the search needn't be believed where it finds one.

Status 0: the order explains all answers. 1: the history has a fault, or no operation; standard error says in which line. 2: the words are no call, the
file can't be read, or the steps didn't suffice. Nothing is written then. 3: no order explains the answers, by this search alone; one
that goes as far as any that it tried is written, and `ctrie explain` says where it breaks off.
"""
import argparse
import math
import re
import sys
from dataclasses import dataclass

sys.dont_write_bytecode = True
from edn import Fault
from orders import Budget, Spent, merged, order_of
from worlds import COPIES, HASHES, MOST_OF_A_HASH, ON_KEYS, WALKS, Worlds

MOST_NUMBER, MOST_HANDLE, MOST_ACTOR = 2**64 - 1, 2**16 - 1, 255
NUMBER = r"(0|[1-9][0-9]{0,19})"
# How many numbers stand after a call's handle.
MORE = {"get": 1, "remove": 1, "replace-if": 3, **dict.fromkeys(["clear", "close", *WALKS], 0)}
FORMS = {name: re.compile(rf"{NUMBER}{f' {NUMBER}' * MORE.get(name, 2)}") for name in [*ON_KEYS, *WALKS, "clear", "close"]}
FORMS.update((name, re.compile(rf"{NUMBER} as {NUMBER}")) for name in COPIES)
BEGIN, END = re.compile(rf"begin {NUMBER} {NUMBER} ([a-z-]+) (.*)"), re.compile(rf"end {NUMBER} (.+)")
REPLY = re.compile(rf"none|(some|handle|count) {NUMBER}|true|false|crowded|closed|cleared|no-slots|pairs( {NUMBER}={NUMBER})*")


@dataclass(eq=False)
class Operation:
    """An operation that begins in this line, with the numbers after its handle. Its begin and its end are the numbers of lines, and
    where it has no end that is infinity, and its reply None."""

    number: int
    actor: int
    name: str
    handle: int
    numbers: tuple
    begin: int
    end: float = math.inf
    reply: object = None


def begun(line, text, number):
    """Returns the operation that this line begins, the next one of this number."""
    found = BEGIN.fullmatch(text)
    form = found and FORMS.get(found[3])
    words = form and form.fullmatch(found[4])
    if not words or int(found[1]) != number or int(found[2]) > MOST_ACTOR:
        raise Fault(line, f"this begins no operation {number}")
    handle, *numbers = map(int, words.groups())
    if max([handle, *(numbers if found[3] in COPIES else [])]) > MOST_HANDLE or max([0, *numbers]) > MOST_NUMBER:
        raise Fault(line, "a number is out of range")
    return Operation(number, int(found[2]), found[3], handle, tuple(numbers), line)


def operations_of(lines):
    """Returns the operations of these lines, each with its number, and the name of their hash."""
    operations, running, hash_name = [], {}, None
    for line, text in lines:
        kind = text.partition(" ")[0]
        if not hash_name:
            hash_name = text.removeprefix("hash ")
            if kind != "hash" or hash_name not in HASHES:
                raise Fault(line, "this is no line `hash NAME`")
        elif kind == "begin":
            operation = begun(line, text, len(operations))
            if operation.actor in running:
                raise Fault(line, f"actor {operation.actor} begins this while its operation {running[operation.actor].number} isn't ended")
            running[operation.actor] = operation
            operations.append(operation)
        elif kind == "end":
            found = END.fullmatch(text)
            if not found or not REPLY.fullmatch(found[2]):
                raise Fault(line, "this ends no operation")
            operation = operations[int(found[1])] if int(found[1]) < len(operations) else None
            if not operation or running.get(operation.actor) is not operation:
                raise Fault(line, f"operation {found[1]} isn't under way")
            operation.end, operation.reply = line, found[2]
            del running[operation.actor]
        else:
            raise Fault(line, "this is no line of a history")
    # An order of no operations is legal, whatever the file was.
    if not operations:
        raise Fault(1, "no operation stands in this history")
    return operations, hash_name


def of_each_key(operations, hash_of):
    """Returns the operations of each key, or of all keys of a hash where these may be so many that one is crowded."""
    keys, found = {}, {}
    for it in operations:
        keys.setdefault(hash_of(it.numbers[0]), set()).add(it.numbers[0])
    for it in operations:
        hashed = hash_of(it.numbers[0])
        found.setdefault((hashed, None if len(keys[hashed]) > MOST_OF_A_HASH else it.numbers[0]), []).append(it)
    return list(found.values())


def ordered(operations, hash_name, steps):
    """Returns an order of the operations, and whether it explains all answers."""
    # What was refused has no effect, and what only reads has none that is wanted where it hasn't ended.
    wanted = [it for it in operations if it.reply != "no-slots"]
    groups, budget, orders = [wanted], Budget(steps), []
    if all(it.name in ON_KEYS and it.handle == 0 for it in wanted):
        groups = of_each_key(wanted, HASHES[hash_name])
    for group in groups:
        orders.append(order_of(group, Worlds(hash_name, group), budget))
    return merged([order for order, _ in orders]), all(explains for _, explains in orders)


def with_order(text, steps):
    """Returns the history with an order, and whether that explains all answers."""
    lines = text.removesuffix("\n").split("\n")
    kinds = [line.partition(" ")[0] for line in lines]
    passed = {"", "denied", "order", "slots"}
    told = [(at, line) for at, (line, kind) in enumerate(zip(lines, kinds), 1) if kind not in passed and not line.startswith("#")]
    order, explains = ordered(*operations_of(told), steps)
    kept = [line for line, kind in zip(lines, kinds) if kind not in ("order", "slots")]
    slots = [line for line, kind in zip(lines, kinds) if kind == "slots"]
    return "\n".join([*kept, " ".join(["order", *(str(it.number) for it in order)]), *slots]), explains


def say(text):
    print(f"find_order: {text}", file=sys.stderr)


def main():
    words = argparse.ArgumentParser(description=__doc__, formatter_class=argparse.RawDescriptionHelpFormatter)
    words.add_argument("file")
    words.add_argument("--steps", type=int, default=5_000_000)
    asked = words.parse_args()
    if asked.steps < 0:
        words.error("--steps: a number below 0")
    try:
        with open(asked.file, encoding="utf-8") as file:
            text = file.read()
        text, explains = with_order(text, asked.steps)
        print(text)
        if not explains:
            say("no order explains the answers")
        return 0 if explains else 3
    except Fault as fault:
        say(fault)
        return 1
    except Spent:
        say(f"no order was found within {asked.steps} steps")
    except (OSError, UnicodeDecodeError) as fault:
        say(fault)
    return 2


if __name__ == "__main__":
    sys.exit(main())
