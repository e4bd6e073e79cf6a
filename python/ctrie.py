"""A map from 64-bit numbers to 64-bit numbers with snapshots: a Python module over the map for C.

    import ctrie

    with ctrie.Map(keys=300) as stock:
        stock[7] = 250
        with stock.freeze() as morning:
            stock[7] = 300
            print(morning[7], stock[7])

It prints 250 300. A `Map` is a dictionary of whole numbers from 0 to 2^64 - 1, made for a number of keys (`slots_for`), whose memory is
what it took at first. A snapshot or a freeze of it is one too, in the same slots: it has what the map has at that moment, by a bounded
number of steps, and changes on its own or never. A map goes back to a copy by `restore`, `diff` returns what has changed since, and
`put_all` sets several keys, all or none.

What is otherwise than of a dictionary:

- A key or value that is set is refused with OverflowError where it is out of range, with TypeError where it is no whole number. What is
  looked up may be anything: what is equal to no key has no value, and a complex number never has one.
- A call that the map refuses raises an `Error` and changes nothing, but that `update` keeps what it has set before.
- Keys are listed in ascending order, and `popitem` takes any. A map may be changed while it is listed: `__iter__` says what is seen.
- `len`, and each 4,096 entries of a listing, take a walk over the whole map; but those of `scan` don't.
- `|`, `reversed`, `copy` and `fromkeys` aren't there, and `repr` shows how many keys there are, by such a walk, and no entries.

A map and its copies may be used by any thread: the calls of a map take turns at its lock, and those that may take long let other threads
run meanwhile. Each call is made whole; what takes several, as `setdefault`, `update`, `popitem` of all or a listing, others may come
between. (That a thread may go on with a map that another one made is tested, and not proved: include/ctrie.h says what is.) They aren't
used in a child made by fork.

A `ConcurrentMap` is one that threads share with no lock of its own: each call is made in single steps, by a seat that the thread has as
long as the call lasts. It has the calls that its class says, and not all of a dictionary's.

The library is the shared object that `./build ctrie_c` makes. It is the file that the environment's CTRIE_LIBRARY names, or else
libctrie.so beside this file, the one that was built, or the one that the system finds. Where there is none, or another version, the
import of this module raises an ImportError.
"""
from __future__ import annotations

import collections
import enum
import itertools
import operator
import os
import threading
import weakref
from ctypes import CDLL, POINTER, PyDLL, Structure, byref, c_bool, c_size_t, c_uint8, c_uint16, c_uint32, c_uint64, c_void_p
from typing import (
    Any, Deque, Dict, ItemsView, Iterable, Iterator, List, Mapping, MutableMapping, NamedTuple, Optional, Tuple, Type,
    TypeVar, Union, ValuesView, overload,
)

__all__ = [
    "Map", "Copy", "Difference", "Hash", "Error", "NoHandle", "ReadOnly", "HandlesFull", "Crowded", "Full", "BadSizes", "WornOut",
    "OutOfMemory", "Closed", "slots_for", "ConcurrentMap", "ConcurrentCopy", "NotReadOnly",
]
__version__ = "0.1.0"

# How many entries are listed at once.
_ROOM = 4096
# How many handles are open at most.
_HANDLES = 256
_Default = TypeVar("_Default")
_View = TypeVar("_View", bound="_Handle")
_Closable = TypeVar("_Closable", bound="_ConcurrentHandle")


class Error(Exception):
    """A call of a map was refused. Of `put_many`, `done` says how many pairs were set before."""

    done = 0


class NoHandle(Error):
    """The copy is closed."""


class ReadOnly(Error):
    """The copy is a frozen one."""


class HandlesFull(Error):
    """256 handles are open: the map's, and one of each copy."""


class Crowded(Error):
    """32 other keys have the key's hash."""


class Full(Error):
    """No slot is free: a key or a copy is to be added and `free_slots` is 0; or another change wants slots of its own, since copies are
    open. Without open copies what is there can always be changed and removed. A concurrent map may be full in any call, while other seats
    have free slots."""


class BadSizes(Error, ValueError):
    """The number of slots isn't from 3 to 1,000,000."""


class WornOut(Error):
    """The map's steps are used up; it can be read."""


class OutOfMemory(Error, MemoryError):
    """There is no memory for the map, or for a list that a call makes."""


class Closed(Error):
    """The map is closed."""


class NotReadOnly(Error):
    """Only a frozen copy of a concurrent map is counted and listed."""


class Hash(enum.IntEnum):
    """How a map hashes its keys. `WIDE` suits keys of any form; the others are for who knows his keys. Of these at most 32 keys of a map
    have one hash: a key more is `Crowded`."""

    LOW = 0  # the key modulo 2^32
    FOLD = 1  # the key's low half xor its high half: not for two small numbers packed into a key
    WIDE = 2  # the key itself: no key is ever crowded
    BLOCK = 3  # the key divided by 64: of each 64 keys in a row 32 at most


class _Held(Structure):
    _fields_ = [("at", c_void_p)]


class _Pair(Structure):
    _fields_ = [("key", c_uint64), ("value", c_uint64)]


class _Difference(Structure):
    _fields_ = [("key", c_uint64), ("before", c_uint64), ("after", c_uint64), ("was_there", c_bool), ("is_there", c_bool)]


class _Cursor(Structure):
    _fields_ = [("last", c_uint64), ("begun", c_bool)]


# The calls of include/ctrie.h, with what each takes after the map.
_CALLS: Dict[str, Tuple[Any, ...]] = {
    "new": (c_uint32, c_uint32),
    "get": (c_uint16, c_uint64, POINTER(c_uint64)),
    "is_writable": (c_uint16,),
    "first": (c_uint16, POINTER(_Pair)),
    "count": (c_uint16, POINTER(c_uint64)),
    "entries": (c_uint16, POINTER(_Cursor), POINTER(_Pair), c_size_t, POINTER(c_uint64)),
    "scan": (c_uint16, POINTER(_Cursor), POINTER(_Pair), c_size_t, POINTER(c_uint64)),
    "diff": (c_uint16, c_uint16, POINTER(_Difference), c_size_t, POINTER(c_uint64)),
    "open_handles": (POINTER(c_uint16), c_size_t, POINTER(c_uint32)),
    "slots": (POINTER(c_uint32),),
    "free_slots": (POINTER(c_uint32),),
    "put": (c_uint16, c_uint64, c_uint64, POINTER(c_uint64)),
    "put_all": (c_uint16, POINTER(_Pair), c_size_t),
    "remove": (c_uint16, c_uint64, POINTER(c_uint64)),
    "pop": (c_uint16, POINTER(_Pair)),
    "clear": (c_uint16,),
    "snapshot": (c_uint16, POINTER(c_uint16)),
    "freeze": (c_uint16, POINTER(c_uint16)),
    "restore": (c_uint16, c_uint16),
    "close": (c_uint16,),
    "free": (),
}
# The calls of include/ctrie_concurrent.h: those in a number of tries, with what each takes after it, and the others.
_TRIED: Dict[str, Tuple[Any, ...]] = {
    "get": (c_uint16, c_uint64, POINTER(c_uint64)),
    "contains": (c_uint16, c_uint64),
    "put": (c_uint16, c_uint64, c_uint64, POINTER(c_uint64)),
    "put_if_absent": (c_uint16, c_uint64, c_uint64, POINTER(c_uint64)),
    "replace": (c_uint16, c_uint64, c_uint64, POINTER(c_uint64)),
    "replace_if": (c_uint16, c_uint64, c_uint64, c_uint64),
    "remove": (c_uint16, c_uint64, POINTER(c_uint64)),
    "remove_if": (c_uint16, c_uint64, c_uint64),
    "clear": (c_uint16,),
    "snapshot": (c_uint16, POINTER(c_uint16)),
    "freeze": (c_uint16, POINTER(c_uint16)),
    "count": (c_uint16, POINTER(c_uint64)),
    "entries": (c_uint16, POINTER(_Pair), c_size_t, POINTER(c_uint64)),
    "settle": (),
}
_CONCURRENT: Dict[str, Tuple[Any, ...]] = {
    "open": (c_uint32, c_uint32, c_uint8),
    "split": (POINTER(_Held),),
    "close": (c_uint16,),
    "drop": (),
    **{f"try_{name}": (c_uint64, *words) for name, words in _TRIED.items()},
}
# In how many tries a call is made before the interpreter looks at signals.
_TRIES = 1000
# How often a call that finds no slot, while some are to be free soon, is made again before it is full.
_PATIENCE = 1_000_000
# Those that want no slot.
_WALKS = {"count", "entries"}
# Those that may take long where a map is large.
_LONG = {"new", "count", "entries", "scan", "diff", "put_all", "clear", "restore", "close", "free"}
_YES = 1
_FULL, _BUSY, _AGAIN, _SPENT = 6, 14, 17, 18
_REFUSALS: Dict[int, Type[Error]] = {
    2: NoHandle, 3: ReadOnly, 4: HandlesFull, 5: Crowded, 6: Full, 7: BadSizes, 8: WornOut, 9: OutOfMemory, 10: NotReadOnly, 11: Closed,
    15: BadSizes,
}


def _library_file() -> str:
    here = os.path.dirname(os.path.realpath(__file__))
    built = os.path.join(os.path.dirname(here), "out", "c", "lib", "libctrie.so")
    there = [it for it in (os.path.join(here, "libctrie.so"), built) if os.path.exists(it)]
    return os.environ.get("CTRIE_LIBRARY") or [*there, f"libctrie.so.{__version__}"][0]


def _declared(call: Any, result: Any, *words: Any) -> Any:
    call.restype, call.argtypes = result, words
    return call


def _load() -> Dict[str, Any]:
    """Returns the calls of the library. They keep the interpreter's lock, but for those that may take long."""
    file = _library_file()
    try:
        short, long = PyDLL(file), CDLL(file)
        version_number = _declared(short.ctrie_version, c_uint32)()
    except (OSError, AttributeError) as fault:
        raise ImportError(
            f"no library of the map ({fault}). ./build ctrie_c makes it, and the environment's CTRIE_LIBRARY may name its file"
        ) from fault
    major, rest = divmod(version_number, 10_000)
    version = ".".join(map(str, (major, *divmod(rest, 100))))
    if version != __version__:
        raise ImportError(f"{file} has the version {version}, and this module {__version__}")
    return {
        name: _declared((long if name in _LONG else short)[f"ctrie_{name}"], None if name == "free" else c_uint32, POINTER(_Held), *words)
        for name, words in _CALLS.items()
    } | {
        f"concurrent_{name}": _declared(long[f"ctrie_concurrent_{name}"], None if name == "drop" else c_uint32, POINTER(_Held), *words)
        for name, words in _CONCURRENT.items()
    } | {"slots_for": _declared(short.ctrie_slots_for, c_uint32, c_uint32)}


_LIBRARY = _load()


def _number(value: int) -> int:
    """Returns the key or value, if it is one: ctypes cuts off what is too large."""
    number = operator.index(value)
    if not 0 <= number < 2**64:
        raise OverflowError(f"{number} isn't from 0 to 2^64 - 1")
    return number


def _key(wanted: Any) -> Optional[int]:
    """Returns the key that is equal to what is looked up, as 1 is to 1.0, if there is one and the two can be compared by size: a complex
    number can't."""
    try:
        return int(wanted) if 0 <= wanted < 2**64 and int(wanted) == wanted else None
    except (TypeError, ValueError, ArithmeticError):
        return None


def _free(held: _Held, lock: Any) -> None:
    """Frees a map, unless a call of it is under way: that can be so only as the interpreter ends."""
    if lock.acquire(blocking=False):
        try:
            _LIBRARY["free"](byref(held))
        finally:
            lock.release()


class _Owner:
    """What holds a map in the library. Its lock is held while the library is called, and while a handle is looked up for that. A thread
    that has it may take it again, as for what the collector finds meanwhile."""

    def __init__(self, slots: int, hash: Hash) -> None:
        self.held, self.lock, self.is_open = _Held(None), threading.RLock(), False
        # Handles of copies that were dropped, and are to be closed.
        self.left: List[int] = []
        self.free = weakref.finalize(self, _free, self.held, self.lock)
        if not 0 <= operator.index(slots) < 2**32:
            raise BadSizes(BadSizes.__doc__)
        self.call("new", slots, Hash(hash))
        self.is_open = True

    def call(self, name: str, *words: Any) -> bool:
        """Carries out a call, and returns whether it answers yes."""
        with self.lock:
            self.give_back()
            code: int = _LIBRARY[name](byref(self.held), *words)
        return _is_yes(code)

    def let_go(self, handle: int) -> None:
        """Closes a handle: at once, or at the next call, where a call of another thread is under way. It never waits, since the collector
        calls it anywhere."""
        self.left.append(handle)
        if self.lock.acquire(blocking=False):
            try:
                self.give_back()
            finally:
                self.lock.release()

    def give_back(self) -> None:
        while self.left:
            try:
                handle = self.left.pop()
            except IndexError:
                # What came in between, by a signal or the collector, has given all back.
                return
            _LIBRARY["close"](byref(self.held), handle)


def _is_yes(code: int) -> bool:
    """Returns whether a call answered yes; raises what it was refused by."""
    if code > _YES:
        raise _REFUSALS[code](_REFUSALS[code].__doc__)
    return code == _YES


def slots_for(keys: int) -> int:
    """Returns how many slots to ask for, for this many keys: three for each, and 40. It is a guide, and no promise: by what was counted of
    maps of random keys they have room then for one open copy while a third of the keys are overwritten."""
    number = operator.index(keys)
    if not 0 <= number < 2**32:
        raise BadSizes("the number of keys is out of range")
    slots: int = _LIBRARY["slots_for"](number)
    return slots


class Difference(NamedTuple):
    """A key of which two maps have different values, with both; None is for a key that has none."""

    key: int
    before: Optional[int]
    after: Optional[int]


def _difference(found: _Difference) -> Difference:
    return Difference(found.key, found.before if found.was_there else None, found.after if found.is_there else None)


class _Items(ItemsView[int, int]):
    _mapping: _Handle

    def __iter__(self) -> Iterator[Tuple[int, int]]:
        return self._mapping._pairs()


class _Values(ValuesView[int]):
    _mapping: _Handle

    def __iter__(self) -> Iterator[int]:
        return (value for _, value in self._mapping._pairs())


class _Handle(MutableMapping[int, int]):
    """A map that a handle names: what `Map` and `Copy` have in common."""

    def __init__(self, owner: _Owner, handle: int) -> None:
        self._owner = owner
        # None once it is closed: the number may be another copy's then.
        self._handle: Optional[int] = handle

    @property
    def handle(self) -> int:
        """The number by which the library knows it. Once it is closed, that may be another copy's: `NoHandle`."""
        if self._handle is None:
            raise NoHandle(NoHandle.__doc__)
        return self._handle

    @property
    def is_open(self) -> bool:
        """Whether neither it nor its map is closed."""
        return self._handle is not None and self._owner.is_open

    @property
    def is_writable(self) -> bool:
        """Whether it may be changed, as all but a frozen copy."""
        return self._call("is_writable")

    def _handle_beside(self, other: _Handle) -> int:
        """Returns the other's handle, if it is one of the same map: the library can't know."""
        if not isinstance(other, _Handle):
            raise TypeError(f"it is a {type(other).__name__}, and no map or copy of this module")
        if other._owner is not self._owner:
            raise ValueError("it is a copy of another map")
        return other.handle

    def _call(self, name: str, *words: Any) -> bool:
        with self._owner.lock:
            return self._owner.call(name, self.handle, *words)

    def _call_beside(self, name: str, other: _Handle, *words: Any) -> bool:
        with self._owner.lock:
            return self._call(name, self._handle_beside(other), *words)

    def _value(self, name: str, *words: int) -> Optional[int]:
        """Returns the value that a call answers, if it answers one."""
        value = c_uint64()
        return value.value if self._call(name, *words, byref(value)) else None

    def _looked_up(self, name: str, wanted: Any) -> Optional[int]:
        """Returns the value that a call on a key answers, if it answers one."""
        key = _key(wanted)
        if key is None:
            # As a look for a key a closed map refuses it, and as a removal a frozen one.
            if not self._call("is_writable") and name == "remove":
                raise ReadOnly(ReadOnly.__doc__)
            return None
        return self._value(name, key)

    def _pairs(self, name: str = "entries") -> Iterator[Tuple[int, int]]:
        cursor, pairs, count = _Cursor(0, False), (_Pair * _ROOM)(), c_uint64(_ROOM)
        while count.value == _ROOM:
            self._call(name, byref(cursor), pairs, _ROOM, byref(count))
            yield from [(pair.key, pair.value) for pair in pairs[: count.value]]

    def _copied(self, name: str) -> Copy:
        handle = c_uint16()
        self._call(name, byref(handle))
        return Copy(self._owner, handle.value)

    def __getitem__(self, key: int) -> int:
        value = self._looked_up("get", key)
        if value is None:
            raise KeyError(key)
        return value

    def __setitem__(self, key: int, value: int) -> None:
        self._value("put", _number(key), _number(value))

    def __delitem__(self, key: int) -> None:
        if self._looked_up("remove", key) is None:
            raise KeyError(key)

    def __contains__(self, key: object) -> bool:
        return self._looked_up("get", key) is not None

    def __len__(self) -> int:
        """Counts the keys by a walk over them all."""
        count = c_uint64()
        self._call("count", byref(count))
        return count.value

    def __repr__(self) -> str:
        """Says what it is, and how many keys it has by a walk over them; or why it can't be read."""
        try:
            said = f"{'writable' if self.is_writable else 'frozen'}, {len(self)} keys"
        except Error as refused:
            said = type(refused).__name__
        return f"<ctrie.{type(self).__name__}: {said}>"

    def __bool__(self) -> bool:
        """Returns whether a key has a value, by a walk to the first one."""
        return self._call("first", byref(_Pair()))

    def __iter__(self) -> Iterator[int]:
        """Goes through the keys. It reads 4,096 entries at a time, and what is changed after that is seen from the next ones on: these
        begin after the last key that was read, whether it is there still or not. A frozen copy is of one moment."""
        return (key for key, _ in self._pairs())

    def items(self) -> ItemsView[int, int]:
        """Returns a view of the keys with their values; it is gone through as the keys are."""
        return _Items(self)

    def scan(self) -> Iterator[Tuple[int, int]]:
        """Goes through the keys with their values in the map's own order, that of their hashes: a large map is listed sooner by it,
        since in ascending order each 4,096 entries take a walk over all. Where the map changes it goes on as a listing of the keys."""
        return self._pairs("scan")

    def values(self) -> ValuesView[int]:
        """Returns a view of the values in ascending order of their keys."""
        return _Values(self)

    @overload
    def get(self, key: int) -> Optional[int]: ...

    @overload
    def get(self, key: int, default: Union[int, _Default]) -> Union[int, _Default]: ...

    def get(self, key: int, default: Any = None) -> Any:
        """Returns the key's value, or the default."""
        value = self._looked_up("get", key)
        return default if value is None else value

    _NOTHING = object()

    @overload
    def pop(self, key: int) -> int: ...

    @overload
    def pop(self, key: int, default: Union[int, _Default]) -> Union[int, _Default]: ...

    def pop(self, key: int, default: Any = _NOTHING) -> Any:
        """Removes the key, and returns its value, or the default where it has none; a KeyError where there is no default."""
        value = self._looked_up("remove", key)
        if value is None and default is self._NOTHING:
            raise KeyError(key)
        return default if value is None else value

    def popitem(self) -> Tuple[int, int]:
        """Removes any one key, and returns it with its value; a KeyError where there is none."""
        pair = _Pair()
        if not self._call("pop", byref(pair)):
            raise KeyError("no key has a value")
        return pair.key, pair.value

    def get_many(self, keys: Iterable[int]) -> List[Optional[int]]:
        """Returns the values of these keys, one after the other, None for one that has none: as `get` of each would, and sooner."""
        wanted, value, values = [_key(it) for it in keys], c_uint64(), []
        with self._owner.lock:
            self._call("is_writable")
            get, held, handle, place = _LIBRARY["get"], byref(self._owner.held), self.handle, byref(value)
            for key in wanted:
                values.append(value.value if key is not None and _is_yes(get(held, handle, key, place)) else None)
        return values

    def put_many(self, pairs: Union[Mapping[int, int], Iterable[Tuple[int, int]]]) -> None:
        """Sets the values of these keys, one after the other, as `update` does, and sooner. It stops at the first that is refused: the
        error's `done` says how many were set before."""
        entries = [(_number(key), _number(value)) for key, value in (pairs.items() if isinstance(pairs, Mapping) else pairs)]
        before, done = c_uint64(), 0
        with self._owner.lock:
            self._call("is_writable")
            put, held, handle, place = _LIBRARY["put"], byref(self._owner.held), self.handle, byref(before)
            try:
                for key, value in entries:
                    _is_yes(put(held, handle, key, value, place))
                    done += 1
            except Error as refused:
                refused.done = done
                raise

    def put_all(self, pairs: Union[Mapping[int, int], Iterable[Tuple[int, int]]]) -> None:
        """Sets the values of all these keys, or of none. (`update` sets one after the other, as a dictionary's, and what it has set before
        a refusal stays.) For the moment it takes one more handle, and slots for what it sets beside what was there."""
        entries = [(_number(key), _number(value)) for key, value in dict(pairs).items()]
        self._call("put_all", (_Pair * max(len(entries), 1))(*entries), len(entries))

    def clear(self) -> None:
        """Removes all keys, by a bounded number of steps, however many there are."""
        self._call("clear")

    def diff(self, newer: _Handle) -> List[Difference]:
        """Returns the keys of which this map and a newer one, a copy of the same map, have different values, in ascending order. Its work
        goes by what was changed from one to the other, whatever else is there."""
        room, count = _ROOM, c_uint64(_ROOM + 1)
        while True:
            found = (_Difference * room)()
            self._call_beside("diff", newer, found, room, byref(count))
            if count.value <= room:
                return [_difference(it) for it in found[: count.value]]
            room = count.value

    def restore(self, copy: _Handle) -> None:
        """Goes back to what the copy has, which is one of the same map, a frozen one too, and stays. For the moment it takes one more
        handle."""
        self._call_beside("restore", copy)

    def snapshot(self) -> Copy:
        """Returns a copy that can be changed, of a frozen one too."""
        return self._copied("snapshot")

    def freeze(self) -> Copy:
        """Returns a copy that never changes."""
        return self._copied("freeze")

    def close(self) -> None:
        raise NotImplementedError

    def __enter__(self: _View) -> _View:
        return self

    def __exit__(self, *_: object) -> None:
        self.close()

    def __reduce__(self) -> Any:
        raise TypeError("copy a map by snapshot() or freeze()")


class Copy(_Handle):
    """A snapshot or a freeze of a map, with a handle of its own. It is open until it is closed, by close(), by the end of a `with` or as
    nothing refers to it any more; or until the map is. Closed, it raises `NoHandle`. What nothing refers to any more while a call of
    another thread is under way is closed at the next call of the map."""

    def close(self) -> None:
        """Gives the handle back, and what slots the copy alone has."""
        with self._owner.lock:
            if self.is_open:
                self._call("close")
            self._handle = None

    def __del__(self) -> None:
        if self._handle is not None and self._owner.is_open:
            self._owner.let_go(self._handle)
        self._handle = None


class Map(_Handle):
    """A map with the given number of slots for nodes, from 3 to 1,000,000: `slots_for` says how many to ask for. It keeps 597 more in
    reserve, so that a map that is full can be changed all the same.

    Instead of the slots it may be given the number of keys, as by `slots_for`.

    It is open until it is closed, by close(), by the end of a `with` or as nothing refers to it or to a copy of it any more. Closed, it and
    its copies raise `Closed`."""

    def __init__(self, slots: Optional[int] = None, hash: Hash = Hash.WIDE, *, keys: Optional[int] = None) -> None:
        if (slots is None) == (keys is None):
            raise TypeError("a map takes a number of slots, or of keys")
        super().__init__(_Owner(slots_for(keys) if slots is None else slots, hash), 0)

    def close(self) -> None:
        """Frees the map."""
        with self._owner.lock:
            self._owner.is_open = False
            self._owner.free()

    @property
    def slots(self) -> int:
        """How many slots were asked for."""
        return self._slots("slots")

    @property
    def free_slots(self) -> int:
        """How many of these neither the map nor an open copy has: where it is 0, no key and no copy is added."""
        return self._slots("free_slots")

    def open_handles(self) -> List[int]:
        """Returns the handles that are open, in ascending order: the map's own, which is 0, and one of each copy."""
        handles, count = (c_uint16 * _HANDLES)(), c_uint32()
        self._owner.call("open_handles", handles, _HANDLES, byref(count))
        return handles[: count.value]

    def _slots(self, name: str) -> int:
        count = c_uint32()
        self._owner.call(name, byref(count))
        return count.value


class _Caller:
    """A seat at a concurrent map. Who has its lock has it."""

    def __init__(self) -> None:
        self.held, self.lock = _Held(None), threading.Lock()
        # The thread that has it, where one has.
        self.owner: Optional[int] = None
        # Whether a call of it was begun and hasn't returned: where no thread has the seat, an exception came into that call.
        self.is_calling = False

    def is_own(self) -> bool:
        """Whether this thread has it already: a signal's handler came into its call, or the collector."""
        return self.lock.locked() and self.owner == threading.get_ident()

    def settle(self) -> None:
        """Brings a call that an exception came into to its end: its answer is lost."""
        while self.is_calling:
            self.is_calling = _LIBRARY["concurrent_try_settle"](byref(self.held), _TRIES) == _AGAIN

    def ask(self, name: str, *words: Any) -> int:
        """Makes a call until it is over or has waited for slots in vain, and returns its code. Signals are looked at between its parts."""
        self.settle()
        call, code, waits = _LIBRARY[f"concurrent_try_{name}"], _AGAIN, 0
        self.is_calling = True
        while code in (_AGAIN, _SPENT) and waits < _PATIENCE:
            code = call(byref(self.held), _TRIES, *words)
            waits += code == _SPENT and name not in _WALKS
        self.is_calling = False
        return _FULL if code == _SPENT else code

    def close(self, handle: int) -> bool:
        """Closes a handle, and returns whether it is closed: not where a call of another seat on it is under way."""
        self.settle()
        code: int = _LIBRARY["concurrent_close"](byref(self.held), handle)
        return code != _BUSY


def _drop(callers: List[_Caller]) -> None:
    """Frees these seats, and the map with its last one. A seat that a thread has stays: that can be so only as the interpreter ends."""
    for caller in callers:
        if caller.lock.acquire(blocking=False):
            try:
                _LIBRARY["concurrent_drop"](byref(caller.held))
            finally:
                caller.lock.release()


class _Pool:
    """The seats at a concurrent map. An exception may come into any of this: so a seat is had by no more than its lock."""

    def __init__(self, keys: int, hash: Hash, seats: int) -> None:
        if not 0 <= operator.index(keys) < 2**32:
            raise BadSizes("the number of keys is out of range")
        if not 1 <= operator.index(seats) <= 255:
            raise BadSizes("the number of seats isn't from 1 to 255")
        self.callers, self.turns, self.is_open = [_Caller() for _ in range(seats)], itertools.count(), True
        # Handles of copies that are to be closed, by the next call.
        self.left: Deque[int] = collections.deque()
        self.drop = weakref.finalize(self, _drop, self.callers)
        first = self.callers[0]
        _is_yes(_LIBRARY["concurrent_open"](byref(first.held), keys, Hash(hash), seats))
        for caller in self.callers[1:]:
            _is_yes(_LIBRARY["concurrent_split"](byref(first.held), byref(caller.held)))

    def call(self, name: str, *words: Any) -> bool:
        """Makes a call by a seat that no thread has, for which it waits while there is none. Returns whether it answers yes. Each seat keeps
        some slots for its next calls: so a call that is refused as full is made by each other seat too."""
        caller = self.caller()
        code = self.call_by(caller, name, *words)
        for other in self.callers if code == _FULL else ():
            if code == _FULL and other is not caller and not other.is_own():
                code = self.call_by(other, name, *words)
        return _is_yes(code)

    def call_by(self, caller: _Caller, name: str, *words: Any) -> int:
        """Makes a call by this seat, for which it waits, and returns its code."""
        with caller.lock:
            caller.owner = threading.get_ident()
            if not self.is_open:
                raise Closed(Closed.__doc__)
            self.close_left(caller)
            return caller.ask(name, *words)

    def caller(self) -> _Caller:
        """Returns a seat that no thread has, or one for which to wait. The seats take turns, so that few wait for the same one."""
        at = next(self.turns) % len(self.callers)
        callers = [caller for caller in self.callers[at:] + self.callers[:at] if not caller.is_own()]
        if not callers:
            raise RuntimeError("the map has one seat alone, and a call of this thread has it")
        return next((caller for caller in callers if not caller.lock.locked()), callers[0])

    def close_left(self, caller: _Caller) -> None:
        """Closes what is left to be closed, but for that on which a call is under way."""
        for _ in range(len(self.left)):
            try:
                handle = self.left.popleft()
            except IndexError:
                # Another thread has closed it.
                return
            if not caller.close(handle):
                self.left.append(handle)

    def tidy(self) -> None:
        """Closes what is left to be closed, where the map is open."""
        caller = self.caller()
        with caller.lock:
            caller.owner = threading.get_ident()
            if self.is_open:
                self.close_left(caller)

    def close(self) -> None:
        """Frees the map, once no call is under way."""
        if any(caller.is_own() for caller in self.callers):
            raise RuntimeError("a call of this thread is under way")
        self.is_open = False
        for caller in self.callers:
            with caller.lock:
                _LIBRARY["concurrent_drop"](byref(caller.held))


class _Number:
    """A handle of a copy. It is closed once nothing refers to it, and so no call has it: its number may be another copy's at once."""

    def __init__(self, handle: int, left: Deque[int]) -> None:
        self.handle, self.left = handle, left

    def __del__(self) -> None:
        # This may come anywhere, so the next call closes it.
        self.left.append(self.handle)


class _ConcurrentHandle:
    """A map that a handle of a concurrent map names: what `ConcurrentMap` and `ConcurrentCopy` have in common."""

    def __init__(self, pool: _Pool) -> None:
        self._pool = pool

    def _call(self, name: str, *words: Any) -> bool:
        raise NotImplementedError

    def _value(self, name: str, *words: int) -> Optional[int]:
        value = c_uint64()
        return value.value if self._call(name, *words, byref(value)) else None

    def _copied(self, name: str) -> ConcurrentCopy:
        handle = c_uint16()
        self._call(name, byref(handle))
        return ConcurrentCopy(self._pool, handle.value)

    def get(self, key: int, default: Optional[int] = None) -> Optional[int]:
        """Returns the key's value, or the default."""
        value = self._value("get", _number(key))
        return default if value is None else value

    def __getitem__(self, key: int) -> int:
        value = self.get(key)
        if value is None:
            raise KeyError(key)
        return value

    def __contains__(self, key: int) -> bool:
        return self._call("contains", _number(key))

    def put(self, key: int, value: int) -> Optional[int]:
        """Gives the key the value, and returns the value that it had."""
        return self._value("put", _number(key), _number(value))

    def __setitem__(self, key: int, value: int) -> None:
        self.put(key, value)

    def put_if_absent(self, key: int, value: int) -> Optional[int]:
        """Gives the key the value if it has none, and returns the value that it had."""
        return self._value("put_if_absent", _number(key), _number(value))

    def replace(self, key: int, value: int) -> Optional[int]:
        """Gives the key the value if it has one, and returns the value that it had."""
        return self._value("replace", _number(key), _number(value))

    def replace_if(self, key: int, old: int, new: int) -> bool:
        """Gives the key the value `new` if it has the value `old`, and returns whether it had. What threads count is counted by this, again
        where it returns False."""
        return self._call("replace_if", _number(key), _number(old), _number(new))

    def remove(self, key: int) -> Optional[int]:
        """Removes the key, and returns the value that it had."""
        return self._value("remove", _number(key))

    def __delitem__(self, key: int) -> None:
        if self.remove(key) is None:
            raise KeyError(key)

    def remove_if(self, key: int, value: int) -> bool:
        """Removes the key if it has this value, and returns whether it had. Of threads that remove what they found one alone is told so."""
        return self._call("remove_if", _number(key), _number(value))

    def clear(self) -> None:
        """Removes all keys."""
        self._call("clear")

    def snapshot(self) -> ConcurrentCopy:
        """Returns a copy that can be changed."""
        return self._copied("snapshot")

    def freeze(self) -> ConcurrentCopy:
        """Returns a copy of this moment that never changes, which can be counted and listed."""
        return self._copied("freeze")

    def __enter__(self: _Closable) -> _Closable:
        return self

    def __exit__(self, *_: object) -> None:
        self.close()

    def close(self) -> None:
        raise NotImplementedError

    def __reduce__(self) -> Any:
        raise TypeError("copy a map by snapshot() or freeze()")


class ConcurrentCopy(_ConcurrentHandle):
    """A snapshot or a freeze of a concurrent map. It is open until it is closed, by close(), by the end of a `with` or as nothing refers to
    it any more; or until the map is. Closed, it raises `NoHandle`."""

    def __init__(self, pool: _Pool, handle: int) -> None:
        super().__init__(pool)
        self._number: Optional[_Number] = _Number(handle, pool.left)

    def _call(self, name: str, *words: Any) -> bool:
        number = self._number
        if number is None:
            raise NoHandle(NoHandle.__doc__)
        return self._pool.call(name, number.handle, *words)

    def __len__(self) -> int:
        """Returns how many keys a frozen copy has; of a snapshot `NotReadOnly`."""
        count = c_uint64()
        self._call("count", byref(count))
        return count.value

    def items(self) -> List[Tuple[int, int]]:
        """Returns the keys of a frozen copy with their values, in ascending order of keys; of a snapshot `NotReadOnly`."""
        count = c_uint64(len(self))
        pairs = (_Pair * count.value)()
        self._call("entries", pairs, len(pairs), byref(count))
        return [(pair.key, pair.value) for pair in pairs]

    def __iter__(self) -> Iterator[int]:
        return iter([key for key, _ in self.items()])

    def close(self) -> None:
        """Gives its handle back: now, or once the calls of other threads on it are over. From now on it raises `NoHandle`."""
        self._number = None
        self._pool.tidy()


class ConcurrentMap(_ConcurrentHandle):
    """A map that threads share with no lock of its own. All its memory is taken at first: 52 to 68 bytes for each of the keys that it is
    told, 16 kB for each seat, and 15 kB; less for fewer than 80 keys.

    The slots of what is replaced or removed are used again, once all calls have ended that were under way when they were given up. A call
    that finds no slot waits where some are to be free soon; where it has waited in vain, or there are none, it is `Full`. A map has room
    for as many keys as it was made for, where they are random or follow one another; ask for twice as many where they lie evenly, as
    multiples of 16 do, and for a copy beside it, of which all is overwritten. (All this is tested, and not proved.) `len` and a
    listing of the map itself are copies too.

    Any number of threads may use it, as those of an executor. It has seats, from 1 to 255: a call takes one for as long as it lasts, and
    waits where each is taken. Beside that no call waits for another one, and one order explains the calls of all threads. A copy is of one
    moment, and is listed while others go on. An exception that comes into a call, as a KeyboardInterrupt, leaves it open whether that was
    made, and a handle may then be taken as long as the map is open.

    It is open until it is closed, by close(), by the end of a `with` or as nothing refers to it or to a copy of it any more. Closed, it and
    its copies raise `Closed`. It isn't used in a child made by fork."""

    def __init__(self, keys: int, hash: Hash = Hash.WIDE, *, seats: int = 16) -> None:
        super().__init__(_Pool(keys, hash, seats))

    def _call(self, name: str, *words: Any) -> bool:
        return self._pool.call(name, 0, *words)

    def items(self) -> List[Tuple[int, int]]:
        """Returns the keys with their values at one moment, in ascending order of keys: those of a copy that is frozen for it."""
        with self.freeze() as copy:
            return copy.items()

    def __len__(self) -> int:
        """Returns how many keys there are at one moment: it counts a copy that is frozen for it."""
        with self.freeze() as copy:
            return len(copy)

    def __iter__(self) -> Iterator[int]:
        return iter([key for key, _ in self.items()])

    def close(self) -> None:
        """Frees the map, once no other thread is in a call."""
        self._pool.close()
