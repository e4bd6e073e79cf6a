"""Records what threads are told of a map, and writes it as a history: find_order.py looks for its order, and `ctrie check` judges that.

    recorder = Recorder()
    with recorder.call("put", 7, 250) as told:
        told(own.put(7, 250))
    recorder.write("own.history")

Calls are named as docs/SCRIPTS.md has them, with their keys and values, all whole numbers from 0 to 2^64 - 1. What is told is the value
before, or the one that was found, or None; of replace-if and remove-if whether they did it; of clear nothing. A call that raises, or
of which nothing is told, is one without an end: it may have had its effect or not.
"""
import contextlib
import itertools
import threading


class Recorder:
    def __init__(self):
        # An append to a list is one step, so what began when another had ended stands after that.
        self.events, self.numbers, self.actors, self.current = [], itertools.count(), itertools.count(1), threading.local()

    @contextlib.contextmanager
    def call(self, name, *words):
        # An actor whose last call has no end can begin no other.
        actor = getattr(self.current, "actor", None) or next(self.actors)
        call, self.current.actor, replies = [next(self.numbers), actor, name, *words], None, []
        self.events.append((call, None))
        yield replies.append
        for reply in replies[:1]:
            self.events.append((call, self.spelled(name, reply)))
            self.current.actor = actor

    @staticmethod
    def spelled(name, reply):
        if name == "clear":
            return "cleared"
        if name.endswith("-if"):
            return "true" if reply else "false"
        return "none" if reply is None else f"some {reply:d}"

    def write(self, file):
        """Writes the history, when no call is under way."""
        ids = {call[0]: at for at, (call, _) in enumerate(it for it in self.events if it[1] is None)}
        with open(file, "w", encoding="ascii") as lines:
            print("hash wide", file=lines)
            for (number, actor, name, *words), reply in self.events:
                told = f"begin {ids[number]} {actor} {' '.join(map(str, [name, 0, *words]))}" if reply is None else f"end {ids[number]} {reply}"
                print(told, file=lines)


class Recorded:
    """A map with get, put and remove, each of which returns the value before or None, and records it."""

    def __init__(self, own, recorder):
        self.own, self.recorder = own, recorder

    def get(self, key):
        return self.recorded("get", self.own.get, key)

    def put(self, key, value):
        return self.recorded("put", self.own.put, key, value)

    def remove(self, key):
        return self.recorded("remove", self.own.remove, key)

    def recorded(self, name, call, *words):
        with self.recorder.call(name, *words) as told:
            reply = call(*words)
            told(reply)
        return reply
