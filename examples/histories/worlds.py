"""Worlds in which the search of orders.py carries operations out: one register, and the finite maps of ctrie's own calls."""
import math
import random


def after(operation, value):
    """Returns whether the operation on a register can have been answered as it was where this is its value, and the value after it. No
    value is None."""
    if operation.what == "read":
        return operation.found == value, value
    if operation.what == "append":
        return True, (value or "") + operation.value
    return operation.what == "write" or operation.before == value, operation.value


class Register:
    """A register, with the values that it had: the last one is its own."""

    unchanged = ("unchanged",)

    def __init__(self, value=None):
        self.values = [value]

    @property
    def code(self):
        return self.values[-1]

    def change_by(self, operation):
        fits, value = after(operation, self.code)
        if not fits:
            return None
        return self.unchanged if operation.what == "read" else (value,)

    def clash(self, one, other):
        return one.what != "read" or other.what != "read"

    def why(self, operation):
        return {0}

    def touches(self, operation, cells):
        return True

    def make(self, change):
        self.values.append(self.code if change is self.unchanged else change[0])

    def undo(self):
        self.values.pop()


HASHES = {
    "low": lambda key: key & 0xFFFFFFFF,
    "fold": lambda key: (key & 0xFFFFFFFF) ^ (key >> 32),
    "wide": lambda key: key,
    "block": lambda key: key >> 6,
}
WHOLE = "whole"
# At most so many keys of a map have one hash.
MOST_OF_A_HASH = 32


class Codes(dict):
    """A random number for each pair of a key and a value: those of a map, by exclusive or, stand for what it has."""

    def __init__(self):
        super().__init__()
        self.drawn = random.Random(1)

    def __missing__(self, pair):
        self[pair] = self.drawn.getrandbits(64)
        return self[pair]


class Finite:
    """A finite map, whether it may be changed, how many of its keys have each hash, and a number that stands for its pairs."""

    def __init__(self, writable, of=None):
        self.writable = writable
        self.values, self.crowds, self.code = (dict(of.values), dict(of.crowds), of.code) if of else ({}, {}, 0)


def some(value):
    return "none" if value is None else f"some {value}"


def truth(value):
    return "true" if value else "false"


def is_reading(operation):
    """Whether the operation changes nothing wherever it is answered as it was."""
    return operation.name in ("get", *WALKS) or operation.reply in READ_BY.get(operation.name, ())


def handles_of(operation):
    return {operation.handle, *(operation.numbers if operation.name in COPIES else ())}


def reads_of_freezes(operations):
    """Yields each freeze with the reads that are of its copy in each order: they began when it had ended, and no other freeze or snapshot
    with this handle was under way or began from its begin to the read's end."""
    opened, reads = {}, {}
    for it in operations:
        if it.name in COPIES:
            opened.setdefault(it.numbers[0], []).append(it)
        elif it.reply and it.name in ("get", *WALKS):
            reads.setdefault(it.handle, []).append(it)
    for handle, openings in opened.items():
        for freeze in (it for it in openings if it.name == "freeze"):
            others = [it for it in openings if it is not freeze and it.end > freeze.begin]
            until = min((it.begin for it in others), default=math.inf)
            yield freeze, [it for it in reads.get(handle, ()) if freeze.end < it.begin and it.end < until]


class Worlds:
    """Finite maps by handle, as docs/SCRIPTS.md has them. A change is a handle with a key and the key's new value; or with no key and a
    function that makes the map which the handle names from then on, or None."""

    unchanged = ("unchanged",)

    def __init__(self, hash_name, operations):
        self.hash_of = HASHES[hash_name]
        # The handles of which each one may be a copy, those of which these may be, and so on.
        self.origins = {}
        copies = [(it.numbers[0], it.handle) for it in operations if it.name in COPIES]
        for _ in copies:
            before = sum(map(len, self.origins.values()))
            for copy, origin in copies:
                self.origins.setdefault(copy, {copy}).update(self.origins.get(origin, {origin}))
            if sum(map(len, self.origins.values())) == before:
                break
        self.maps, self.pairs, self.undone = {0: Finite(True)}, Codes(), []
        self.code = self.code_of(0)
        self.reads = {freeze.number: reads for freeze, reads in reads_of_freezes(operations)}

    def code_of(self, handle):
        found = self.maps.get(handle)
        return hash((handle, found.writable, found.code)) if found else 0

    def change_by(self, operation):
        """Returns what the operation changes, if it can be answered here as it was, else None."""
        found, name = self.maps.get(operation.handle), operation.name
        if not found or not found.writable and name in WRITES or found.writable and name in WALKS:
            return None
        reply, change = CALLS[name](self, found, operation, *operation.numbers)
        fits = operation.reply in (None, reply) and not self.wrong_read(operation, found)
        return change if fits else None

    def wrong_read(self, operation, found):
        """A read of the copy that a freeze makes of this map, whose answer would be another one, if there is one."""
        wrong = (it for it in self.reads.get(operation.number, ()) if CALLS[it.name](self, found, it, *it.numbers)[0] != it.reply)
        return next(wrong, None)

    def why(self, operation):
        """The cells for which an operation doesn't fit: those of one key, where a list of all pairs is wrong."""
        found = self.maps.get(operation.handle)
        read = found and operation.name == "freeze" and self.wrong_read(operation, found) or operation
        if not found or read.name != "entries" or read is operation and found.writable or not read.reply.startswith("pairs"):
            return self.cells(read)
        answered = {tuple(map(int, it.split("="))) for it in read.reply.split(" ")[1:]}
        wrong = min(answered ^ set(found.values.items()), default=None)
        return {(it, self.hash_of(wrong[0])) for it in self.origins.get(read.handle, {read.handle})} if wrong else self.cells(read)

    def clash(self, one, other):
        """Whether the two are of one map, and not of keys of different hashes there, and one of them may change something."""
        if is_reading(one) and is_reading(other) or not handles_of(one) & handles_of(other):
            return False
        places = {self.place(one), self.place(other)}
        return WHOLE in places or len(places) == 1

    def place(self, operation):
        """The hash of the operation's key, or the whole map."""
        return self.hash_of(operation.numbers[0]) if operation.name in ON_KEYS else WHOLE

    def cells(self, operation):
        return {(origin, self.place(operation)) for handle in handles_of(operation) for origin in self.origins.get(handle, {handle})}

    def touches(self, operation, cells):
        if operation.name in ON_KEYS:
            return (operation.handle, self.place(operation)) in cells or (operation.handle, WHOLE) in cells
        handles = handles_of(operation)
        return any(handle in handles for handle, _ in cells)

    def make(self, change):
        if change is self.unchanged:
            self.undone.append(change)
            return
        handle, key, new = change
        self.code ^= self.code_of(handle)
        if key is None:
            was = self.maps.pop(handle, None)
            made = new()
            if made:
                self.maps[handle] = made
            self.undone.append((handle, None, lambda: was))
        else:
            self.undone.append((handle, key, self.maps[handle].values.get(key)))
            self.set(self.maps[handle], key, new)
        self.code ^= self.code_of(handle)

    def undo(self):
        """Takes the last change back."""
        self.make(self.undone.pop())
        self.undone.pop()

    def set(self, found, key, value):
        was, hashed = found.values.pop(key, None), self.hash_of(key)
        if was is not None:
            found.code ^= self.pairs[key, was]
        if value is not None:
            found.code ^= self.pairs[key, value]
            found.values[key] = value
        found.crowds[hashed] = found.crowds.get(hashed, 0) + (value is not None) - (was is not None)

    # ---- the calls: each returns its reply, and its change

    def change_to(self, operation, was, value):
        return self.unchanged if was == value else (operation.handle, operation.numbers[0], value)

    def get(self, found, operation, key):
        return some(found.values.get(key)), self.unchanged

    def put(self, found, operation, key, value):
        was = found.values.get(key)
        if was is None and found.crowds.get(self.hash_of(key), 0) >= MOST_OF_A_HASH:
            return "crowded", self.unchanged
        return some(was), self.change_to(operation, was, value)

    def put_if_absent(self, found, operation, key, value):
        return self.put(found, operation, key, found.values.get(key, value))

    def replace(self, found, operation, key, value):
        was = found.values.get(key)
        return some(was), self.change_to(operation, was, None if was is None else value)

    def replace_if(self, found, operation, key, old, value):
        was = found.values.get(key)
        return truth(was == old), self.change_to(operation, was, value if was == old else was)

    def remove(self, found, operation, key):
        was = found.values.get(key)
        return some(was), self.change_to(operation, was, None)

    def remove_if(self, found, operation, key, old):
        was = found.values.get(key)
        return truth(was == old), self.change_to(operation, was, None if was == old else was)

    def clear(self, found, operation):
        # It changes something by its reply alone, as the search wants: later there may be more to clear.
        return "cleared", (operation.handle, None, lambda: Finite(True))

    def copy(self, found, operation, handle):
        if handle in self.maps:
            return None, None
        return f"handle {handle}", (handle, None, lambda: Finite(operation.name == "snapshot", found))

    def close(self, found, operation):
        return "closed", (operation.handle, None, lambda: None)

    def entries(self, found, operation):
        return " ".join(["pairs", *(f"{key}={value}" for key, value in sorted(found.values.items()))]), self.unchanged

    def count(self, found, operation):
        return f"count {len(found.values)}", self.unchanged


ON_KEYS = {
    "get": Worlds.get,
    "put": Worlds.put,
    "put-if-absent": Worlds.put_if_absent,
    "replace": Worlds.replace,
    "replace-if": Worlds.replace_if,
    "remove": Worlds.remove,
    "remove-if": Worlds.remove_if,
}
COPIES = {"snapshot": Worlds.copy, "freeze": Worlds.copy}
WALKS = {"entries": Worlds.entries, "count": Worlds.count}
CALLS = {**ON_KEYS, **COPIES, **WALKS, "clear": Worlds.clear, "close": Worlds.close}
# Replies by which a call has changed nothing.
READ_BY = {"replace": ["none"], "remove": ["none"], "replace-if": ["false"], "remove-if": ["false"]}
# Those that want a writable map.
WRITES = {*ON_KEYS, *COPIES, "clear"} - {"get"}
