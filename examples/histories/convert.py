#!/usr/bin/env python3
"""convert.py FILE [--initial VALUE] [--steps N]: writes another checker's history in the form that `ctrie check`, `explain` and `draw` read.

It reads

- Jepsen's histories of a register, with :read, :write and :cas; where all values are tuples `[k v]`, of a register for each k;
- porcupine's logs of a map from strings to strings, with :get, :put and :append;
- the same as JSON: `{"process": 0, "type": "invoke", "f": "read", "value": null}`, one event a line or all in an array;
- whole operations as JSON, with the times of their begins and ends: `{"process": 0, "f": "read", "value": 5, "begin": 10, "end": 12.5}`;
- Jepsen's older logs, `0 :invoke :read nil`, one event a line; standard error says how many other lines were passed over.

A register is a key of the map, which has no value at first (nil, and in a log ""), or with --initial this one: then each key is put first.
Numbers from 0 to 2^64 - 1 stand for themselves,
if all keys or all values are such numbers; else they are numbered in the order in which they come first, and comment lines say which
is which. An operation without an end, or whose end is :info, stays open: it may have had its effect or not. One that ended with :fail
is left out: it had none. A process is a number or a name. Events of the process :nemesis are passed over, and standard error says how
many.

`check` judges an order, and such a history has none. So this program looks for one, and gives up after a million steps, or N. The
order also says what the history doesn't: the value before, which a put is answered, and what a key has after an append, which becomes
a put of that.

Status 0: the order explains all answers. 1: the history can't be converted, or has no operation; standard error says in which line and why.
2: the words are no call, the file can't be read, or the steps didn't suffice. Nothing is written then. 3: no order explains the answers; one that goes
as far as any is written, and `ctrie explain` says where it breaks off; standard error and a comment say which line of the file that operation is of.
"""
import argparse
import heapq
import json
import math
import re
import sys
from dataclasses import dataclass

sys.dont_write_bytecode = True
import edn
import jepsen_log
import json_events
from edn import Fault, Word
from orders import Budget, Spent, merged, order_of
from worlds import Register, after

CALLS = {":read": "read", ":write": "write", ":cas": "cas", ":get": "read", ":put": "write", ":append": "append"}
MOST_NUMBER, MOST_ACTOR, MOST_LINES = 2**64 - 1, 255, 300_000


@dataclass(eq=False)
class Operation:
    """An operation of a process, begun in this line. Its begin and its end are the numbers of events, and its end infinity where it has
    none. `before` is what a cas wants to find, `value` what is written or appended, `found` what a read was answered."""

    line: int
    process: object
    what: str
    key: object = 0
    before: object = None
    value: object = None
    found: object = None
    begin: float = 0
    end: float = math.inf


# ---- reading


def named(form, name):
    return form.get(Word(f":{name}"))


def is_pair(value):
    return isinstance(value, list) and len(value) == 2


def are_tuples(forms):
    """Whether these forms' values are tuples of a key and a value."""
    begun_or_done = [form for _, form in forms if str(named(form, "type")) in (":invoke", ":ok")]
    told = [(str(named(form, "f")), named(form, "value")) for form in begun_or_done if named(form, "value") is not None]
    return bool(told) and all(is_pair(value) and (what != ":cas" or value[1] is None or is_pair(value[1])) for what, value in told)


def key_and_value(line, form, what, tuples):
    """Returns the key that a form names, and the value, or the two of a cas."""
    key, value = form.get(Word(":key"), 0), named(form, "value")
    if tuples:
        if not is_pair(value):
            raise Fault(line, "the value is no tuple of a key and a value, as others are")
        key, value = value
    elif Word(":key") in form and value == "":
        value = None
    for it in [key, *(value if what == "cas" and is_pair(value) else [value])]:
        if isinstance(it, (list, dict)):
            raise Fault(line, "the key or the value is a collection")
    return key, value


def begun(line, form, tuples):
    """Returns the operation that a form of the type :invoke begins."""
    name = named(form, "f")
    if str(name) not in CALLS:
        raise Fault(line, f"there is no call for {name}")
    operation = Operation(line, named(form, "process"), CALLS[str(name)])
    operation.key, value = key_and_value(line, form, operation.what, tuples)
    if operation.what == "cas":
        if not is_pair(value) or None in value:
            raise Fault(line, "a cas has to name two values")
        operation.before, operation.value = value
    elif operation.what != "read":
        if value is None:
            raise Fault(line, 'a write of nil or "" can\'t be told from no value')
        if operation.what == "append" and not isinstance(value, str):
            raise Fault(line, "only strings are appended")
        operation.value = value
    return operation


def found_by(line, form, read, tuples):
    """Returns what this read found, by the form that ends it."""
    key, value = key_and_value(line, form, "read", tuples)
    if key != read.key:
        raise Fault(line, f"the key is another than in line {read.line}")
    return value


def of_processes(forms):
    """Returns the events of processes, and those of the nemesis, which makes the faults of a test."""
    kept, passed = [], []
    for line, form in forms:
        process = named(form, "process") if isinstance(form, dict) else None
        if not isinstance(form, dict):
            raise Fault(line, "this is no event")
        if process is None or isinstance(process, (list, dict)):
            raise Fault(line, "this event names no process")
        (passed if str(process).lstrip(":") == "nemesis" else kept).append((line, form))
    return kept, passed


def operations_of(forms):
    """Returns the operations of a history, and those that ended with :fail."""
    tuples, running, kept, failed = are_tuples(forms), {}, [], []
    for time, (line, form) in enumerate(forms):
        process, kind = named(form, "process"), str(named(form, "type"))
        if kind == ":invoke":
            if process in running:
                raise Fault(line, f"process {process} begins this while its operation of line {running[process].line} isn't ended")
            running[process] = begun(line, form, tuples)
            running[process].begin = time
            kept.append(running[process])
        elif kind not in (":ok", ":fail", ":info") or process not in running:
            raise Fault(line, f"process {process} has begun nothing, or {kind} is no type")
        elif kind == ":fail":
            failed.append(running.pop(process))
        elif kind == ":ok":
            operation = running.pop(process)
            operation.end = time
            if operation.what == "read":
                operation.found = found_by(line, form, operation, tuples)
    gone = {it.begin for it in failed}
    kept = [it for it in kept if it.begin not in gone]
    grows = {it.key for it in kept if it.what == "append"}
    for it in kept:
        if it.key in grows and it.value is not None and not isinstance(it.value, str):
            raise Fault(it.line, "strings are appended to what this writes, and it is none")
    return kept, failed


def first_values(operations, value):
    """Returns a write of this value to each key, before all others, each by the process that begins first."""
    keys = list(by_key(operations))
    return [Operation(0, operations[0].process, "write", key, value=value, begin=2 * at, end=2 * at + 1) for at, key in enumerate(keys, -len(keys))]


# ---- telling


def numbers_of(names):
    """Returns a number for each of these names: itself, where all are numbers."""
    names = list(dict.fromkeys(names))
    for kind, form in ((int, r"[0-9]+"), (str, r"0|[1-9][0-9]*")):
        if all(type(it) is kind and re.fullmatch(form, str(it)) and int(it) <= MOST_NUMBER for it in names):
            return {it: int(it) for it in names}
    return {it: at for at, it in enumerate(names)}


def spelled(name):
    """A key or a value in the notation of edn."""
    return json.dumps(name) if isinstance(name, str) else "nil" if name is None else str(name)


def actors_of(operations):
    """Returns the actor of each operation, by its begin: its process, where all are actors; else the lowest number that no process has
    that goes on, or that left an operation open."""
    if all(isinstance(it.process, int) and 0 <= it.process <= MOST_ACTOR for it in operations):
        return {it.begin: it.process for it in operations}
    last = {it.process: it for it in operations}
    free, actors, has = list(range(MOST_ACTOR + 1)), {}, {}
    for time, operation in sorted((time, it) for it in operations for time in (it.begin, it.end) if time < math.inf):
        if time == operation.begin:
            if operation.process not in has and not free:
                raise Fault(operation.line, f"more than {MOST_ACTOR + 1} processes go on or have left an operation open")
            has[operation.process] = actors[time] = has[operation.process] if operation.process in has else heapq.heappop(free)
        elif operation is last[operation.process]:
            heapq.heappush(free, has.pop(operation.process))
    return actors


class Telling:
    """Tells operations in an order in the words of the history's form."""

    def __init__(self, operations, order):
        self.operations, self.order = operations, order
        self.actors = actors_of(operations)
        self.ids = {it.begin: at for at, it in enumerate(sorted(operations, key=lambda it: it.begin))}
        # What each operation puts and what was there before, by its begin: the order says what an append makes.
        self.puts, self.was, present, self.breaks_at = {it.begin: it.value for it in operations}, {}, {}, None
        for operation in order:
            was = self.was[operation.begin] = present.get(operation.key)
            fits, now = after(operation, was)
            if fits:
                present[operation.key] = now
            self.breaks_at = self.breaks_at or (None if fits else operation)
            if operation.what == "append":
                self.puts[operation.begin] = now
        self.keys = numbers_of(it.key for it in operations)
        told = (value for it in operations for value in (it.before, self.puts[it.begin], it.found))
        self.values = numbers_of(value for value in told if value is not None)

    def reply(self, operation):
        if operation.what == "cas":
            return "true"
        value = operation.found if operation.what == "read" else self.was[operation.begin]
        return "none" if value is None else f"some {self.values[value]}"

    def call(self, operation):
        name = {"read": "get", "write": "put", "append": "put", "cas": "replace-if"}[operation.what]
        values = [self.values[it] for it in (operation.before, self.puts[operation.begin]) if it is not None]
        return " ".join(map(str, [name, 0, self.keys[operation.key], *values]))

    def names(self):
        """Tells in comments which number stands for what."""
        for kind, numbers in (("key", self.keys), ("value", self.values)):
            for name, number in numbers.items():
                if str(name) != str(number):
                    yield f"# {kind} {number} is {spelled(name)}"
        for actor, process in sorted({(self.actors[it.begin], it.process) for it in self.operations}, key=lambda it: (it[0], str(it[1]))):
            if actor != process:
                yield f"# actor {actor} is process {spelled(process)}"

    def breaks(self):
        """Says where the order breaks off, if it does."""
        return f"the order breaks off at operation {self.ids[self.breaks_at.begin]}, of line {self.breaks_at.line}" if self.breaks_at else None

    def lines(self):
        yield "# Worked out by examples/histories/convert.py: the order, what puts were answered, and what appends made."
        yield from self.names()
        if self.operations[0].line == 0:
            yield f"# operations 0 to {sum(it.line == 0 for it in self.operations) - 1} put the first values"
        if self.breaks():
            yield f"# {self.breaks()}"
        # By this hash no two keys have the same one, so that no put is crowded: a register of another checker never is.
        yield "hash wide"
        for time, operation in sorted((time, it) for it in self.operations for time in (it.begin, it.end) if time < math.inf):
            number = self.ids[operation.begin]
            if time == operation.begin:
                yield f"begin {number} {self.actors[time]} {self.call(operation)}"
            else:
                yield f"end {number} {self.reply(operation)}"
        yield " ".join(["order", *(str(self.ids[it.begin]) for it in self.order)])


def by_key(operations):
    """Returns the operations of each key, the key that comes first first."""
    found = {}
    for it in operations:
        found.setdefault(it.key, []).append(it)
    return found


def ordered(operations, steps):
    """Returns an order of the operations, and the keys whose answers no order explains."""
    budget, orders, unexplained = Budget(steps), [], []
    for key, of_key in by_key(operations).items():
        order, explains = order_of(of_key, Register(), budget)
        orders.append(order)
        if not explains:
            unexplained.append(key)
    return merged(orders), unexplained


def say(text):
    print(f"convert: {text}", file=sys.stderr)


def say_what_is_left(operations, failed, passed, others):
    """Says what of the history is told otherwise than it stands there, and what was read and neither written nor made by an append."""
    if others:
        say(f"lines that are no events and passed over: {len(others)}, the first of them {others[0]}")
    if passed:
        say(f"events of the nemesis that are passed over: {len(passed)}, the first of line {passed[0][0]}")
    unended, appends = [it for it in operations if it.end == math.inf], [it for it in operations if it.what == "append"]
    for found, what in ((failed, "failed and left out"), (unended, "left open"), (appends, "appends told as puts")):
        if found:
            say(f"operations that are {what}: {len(found)}, the first of line {min(it.line for it in found)}")
    written = {(it.key, it.value) for it in operations if it.what != "read"}
    appended = {key: tuple(it.value for it in made) for key, made in by_key(appends).items()}
    for it in operations:
        read = it.found if it.what == "read" else it.before if it.end < math.inf else None
        if read is not None and (it.key, read) not in written and not str(read).endswith(appended.get(it.key, ())):
            say(f"line {it.line}: what this reads is written nowhere")


def events_of(text):
    """Returns the events of a text, and the lines of a log that are none."""
    if jepsen_log.are_events(text):
        return jepsen_log.forms(text)
    return (json_events if json_events.are_json(text) else edn).forms(text), []


def convert(text, steps, initial=None):
    events, others = events_of(text)
    forms, passed = of_processes(events)
    operations, failed = operations_of(forms)
    # An order of no operations is legal, whatever the file was.
    if failed and not operations:
        raise Fault(failed[0].line, "each operation of this file failed, so none is left to judge")
    if not operations:
        raise Fault(passed[0][0] if passed else 1, f"no operation stands in this file{', only events of the nemesis' if passed else ''}")
    if initial is not None:
        operations = first_values(operations, initial) + operations
    say_what_is_left(operations, failed, passed, others)
    order, unexplained = ordered(operations, steps)
    told = Telling(operations, order)
    lines = list(told.lines())
    if len(lines) > MOST_LINES:
        raise Fault(operations[-1].line, f"up to this the history has more than the {MOST_LINES:,} lines that check reads")
    print("\n".join(lines))
    if unexplained:
        say(f"no order explains the answers of these keys: {', '.join(str(told.keys[it]) for it in unexplained)}")
        say(told.breaks())
    return 3 if unexplained else 0


def initial_value(word):
    """Returns the value that a word of the command line spells in edn."""
    value = jepsen_log.value_of(0, word)
    if value is None or isinstance(value, (list, dict)):
        raise ValueError(word)
    return value


def main():
    words = argparse.ArgumentParser(description=__doc__, formatter_class=argparse.RawDescriptionHelpFormatter)
    words.add_argument("file")
    words.add_argument("--initial", type=initial_value, metavar="VALUE")
    words.add_argument("--steps", type=int, default=1_000_000)
    asked = words.parse_args()
    if asked.steps < 0:
        words.error("--steps: a number below 0")
    try:
        with open(asked.file, encoding="utf-8") as file:
            text = file.read()
        return convert(text, asked.steps, asked.initial)
    except Fault as fault:
        say(fault)
        return 1
    except Spent:
        say(f"no order was found within {asked.steps} steps")
    except (OSError, UnicodeDecodeError) as fault:
        say(fault)
    return 2


if __name__ == "__main__":
    sys.exit(main())
