"""The loads of `bench_words`, on maps of the sizes that a program would ask for."""
import re
import sys

from figures import output


def sizes_for(keys, seats):
    """Returns the slots of each class of a map for so many keys and seats, as the function of this name does."""

    def in_order(places):
        return min(2 * max(keys - places, 0), max(4 * places - keys, places))

    def at_random(places):
        return min(17 * places // 16, keys**2 // (places + 7 * keys // 8 + keys**2 // (4 * places)))

    def past(many, places):
        return min(max(keys - many * places, 0), places)

    levels = [32**level for level in range(7)]
    small = max(keys + sum(map(in_order, levels)), 65 * (keys + sum(map(at_random, levels))) // 64)
    medium = max(23 * keys // 128, sum(past(2, places) for places in levels))
    wide = max(keys // 25, sum(past(12, places) for places in levels))
    held = [min(keys + 16, 80), min(keys // 2 + 8, 40), min(max(keys - 12, 0), 34)]
    return {name: slots + each * (seats + 1) for name, slots, each in zip(("small", "medium", "wide"), (small, medium, wide), held)}


class Load:
    """Calls of one kind: what they are called, threads, keys, how many there are, how many keys are put before, and how many copies are open
    at once at most. The map is one for the keys of all of these."""

    def __init__(self, name, threads, keys, count, filled, copies=0):
        self.name, self.threads, self.keys, self.count, self.filled = name, threads, keys, count, filled
        self.sizes = sizes_for(keys * (1 + copies), threads)

    def words(self, path, sizes=None):
        """Returns the command that runs it, on a map of its own sizes or of these."""
        return path, self.name, self.threads, self.filled, self.count, self.keys, *(sizes or self.sizes).values()

    def measured(self, path, seconds, sizes=None):
        """Returns what a run told (`nanos` of all calls, `refused`, `words` of the map), or nothing where it didn't end well."""
        told = output(self.words(path, sizes), seconds)
        return figures_of(told[0]) if told else None


def figures_of(text):
    """Returns the figures of a run by their names. A run that lost a value ends everything."""
    told = {name: int(figure) for figure, name in re.findall(r"(\d+) (ns|refused|wrong|words)", text)}
    if told["wrong"]:
        sys.exit(f"{told['wrong']} sums are wrong: {text}")
    return {"nanos": told["ns"], "refused": told["refused"], "words": told["words"]}


def spread(keys):
    """Keys spread over 64 bits, inserted by one thread into a map for so many."""
    return Load("spread", 1, keys, keys, 0)
