"""Looks for an order of operations that explains their answers."""
import math


class Spent(Exception):
    """The search took as many steps as it may."""


class Budget:
    """How many steps a search may still take."""

    def __init__(self, steps):
        self.left = steps

    def spend(self):
        if not self.left:
            raise Spent
        self.left -= 1


class Node:
    """A state of the search: the operations that may come next and weren't tried, whether there was one choice alone, and of what cells
    it is that no order goes on from here."""

    def __init__(self, key, options, reason, is_forced=False):
        self.key, self.options, self.reason, self.is_forced = key, options[::-1], reason, is_forced


class Search:
    """The search of Wing and Gong (Testing and Verifying Concurrent Objects, 1993): it places one operation after the other, each time
    one that began before any other of those left ended, and goes back where none fits. As Lowe has it (Testing for Linearizability,
    2017) it goes on from no state twice: the operations that are placed, and what the world has. And it goes back at once to where a
    choice made a difference to what went wrong: the cells of the world, as a key of a handle, of the operations that didn't fit.

    A world carries operations out: `change_by` returns what an operation changes, if it can be answered there as it was, else None;
    `make` makes that change, `undo` takes the last one back, and `code` stands for what there is. `unchanged` is the change of an operation
    that changes nothing wherever it is answered as it was. Two operations of which `clash` is false may change places in any order.
    `why` has the cells for which an operation doesn't fit, with those that they may be copied from; `touches` is whether an operation
    reads or changes one of these cells."""

    def __init__(self, operations, world, budget):
        self.ended = sorted((it for it in operations if it.end < math.inf), key=lambda it: it.begin)
        # They may have had their effect or not.
        self.unended = [it for it in operations if it.end == math.inf]
        self.world, self.budget = world, budget
        self.clashes = {}
        self.find_clashes()

    def find_clashes(self):
        """Finds for each operation that ended those that clash with it and overlap it, by their places among those that ended, and among
        those that didn't."""
        running = []
        for at, it in enumerate(self.ended):
            running = [other for other in running if self.ended[other].end > it.begin]
            others = [other for other in running if self.world.clash(it, self.ended[other])]
            unended = [other for other, open_ in enumerate(self.unended) if open_.begin < it.end and self.world.clash(it, open_)]
            self.clashes[it.begin] = (others, unended)
            for other in others:
                self.clashes[self.ended[other].begin][0].append(at)
            running.append(at)

    def is_settled(self, operation, state):
        """Whether nothing that may come before the operation, if it isn't the next one, makes a difference to it, nor it to that."""
        low, placed, used = state
        others, unended = self.clashes[operation.begin]
        return all(at < low or placed >> (at - low) & 1 for at in others) and all(used >> at & 1 for at in unended)

    def candidates(self, state):
        """Returns the operations that may come next, by the time of their ends, each with what is placed after it."""
        low, placed, used = state
        found, first_end, at = [], math.inf, low
        while at < len(self.ended) and self.ended[at].begin < first_end:
            if not placed >> (at - low) & 1:
                first_end = min(first_end, self.ended[at].end)
                found.append(at)
            at += 1
        for at in sorted(found, key=lambda it: self.ended[it].end):
            now_low, now_placed = low, placed | 1 << (at - low)
            while now_placed & 1:
                now_low, now_placed = now_low + 1, now_placed >> 1
            yield self.ended[at], (now_low, now_placed, used)
        for at, operation in enumerate(self.unended):
            if not used >> at & 1 and operation.begin < first_end:
                yield operation, (low, placed, used | 1 << at)

    def node(self, placed):
        """Returns the node of this state, with the operations that fit next. One that fits and changes nothing is the only one: an order
        that has it later may have it here too. So is one that is settled; where that doesn't fit here, it never does. One without an end
        that changes nothing isn't wanted."""
        options, reason = [], set()
        for operation, after in self.candidates(placed):
            self.budget.spend()
            change = self.world.change_by(operation)
            option, has_ended = (operation, change, after), operation.end < math.inf
            is_only = has_ended and (change is self.world.unchanged or self.is_settled(operation, placed))
            if is_only and change is None:
                return Node(self.key(placed), [], self.world.why(operation))
            if is_only:
                return Node(self.key(placed), [option], set(), True)
            if change is None:
                reason |= self.world.why(operation)
            elif change is not self.world.unchanged:
                options.append(option)
        return Node(self.key(placed), options, reason)

    def key(self, placed):
        return placed, self.world.code

    def longest(self):
        """Returns an order of all that ended, perhaps with some that didn't, and true; or the longest that was found, and false."""
        order, best, failed = [], [], {}
        if not self.ended:
            return order, True
        # How many of the first that ended are placed, which of those after them, and which that didn't end.
        path = [self.node((0, 0, 0))]
        while path:
            if not path[-1].options:
                best = order[:] if len(order) > len(best) else best
                self.go_back(path, order, failed)
                continue
            operation, change, placed = path[-1].options.pop()
            self.world.make(change)
            order.append(operation)
            if placed[0] == len(self.ended):
                return order, True
            known = failed.get(self.key(placed))
            path.append(self.node(placed) if known is None else Node(self.key(placed), [], known))
        return best, False

    def go_back(self, path, order, failed):
        """Leaves the last node, from which nothing leads on, and all before it in which no other choice would help: those whose operation
        the reason doesn't touch."""
        reason = path[-1].reason
        failed[path.pop().key] = reason
        while path:
            operation, node = order.pop(), path[-1]
            self.world.undo()
            if not node.is_forced and self.world.touches(operation, reason):
                node.reason |= reason
                return
            failed[path.pop().key] = reason


def order_of(operations, world, budget):
    """Returns an order of the operations, and whether it explains all answers: where none does, the longest that could be begun stands
    first, and after it all others that ended, by their begins. Raises Spent where the steps don't suffice."""
    order, explains = Search(operations, world, budget).longest()
    if not explains:
        placed = set(map(id, order))
        order += sorted((it for it in operations if it.end < math.inf and id(it) not in placed), key=lambda it: it.begin)
    return order, explains


def merged(orders):
    """Returns one order of all operations that has those of each order in its own. An operation is taken to have happened at the last
    begin up to it in its order: that lies between its own begin and its end, so none stands after one that began when it had ended."""
    placed = []
    for order in orders:
        latest = -1
        for at, operation in enumerate(order):
            latest = max(latest, operation.begin)
            placed.append((latest, at, operation))
    return [operation for _, _, operation in sorted(placed, key=lambda it: it[:2])]
