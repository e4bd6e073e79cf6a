"""Checks python/ctrie.py beside Python's dictionaries, how it refuses, and what becomes of maps where there are threads. `c` runs it."""
import concurrent.futures
import copy
import ctypes.util
import decimal
import fractions
import gc
import os
import random
import subprocess
import sys
import threading
import unittest
import unittest.mock

import ctrie

CALLS = 20_000
LARGEST = 2**64 - 1


def on_another_thread(call):
    thread = threading.Thread(target=call)
    thread.start()
    thread.join()


class Index:
    """What stands for the number 3 and is equal to none."""

    def __index__(self):
        return 3


class Calls(unittest.TestCase):
    """A map and its copies, and a dictionary beside each."""

    def setUp(self):
        self.random = random.Random(1)
        self.map = ctrie.Map(65_536, self.random.choice(list(ctrie.Hash)))
        # Each copy with what it should have, and whether it is frozen.
        self.copies = [(self.map, {}, False)]

    def tearDown(self):
        self.map.close()

    def answer(self, call):
        """Returns what a call returns, or the type of what it raises."""
        try:
            return call()
        except (KeyError, ctrie.Error) as refused:
            return type(refused)

    def change(self, one, like):
        """Changes a map and the dictionary alike, and compares the answers."""
        key, value = self.random.choice((3, self.random.randrange(200), LARGEST)), self.random.randrange(5)
        call = self.random.choice([
            lambda it: it.__setitem__(key, value), lambda it: it.pop(key), lambda it: it.pop(key, None), lambda it: it.__delitem__(key),
            lambda it: it.setdefault(key, value), lambda it: it.update({key: value, 7: 9}), lambda it: it[key],
            lambda it: it.get(key, value), lambda it: key in it, len, bool, lambda it: it.setdefault(3, value),
        ])
        self.assertEqual(self.answer(lambda: call(one)), self.answer(lambda: call(like)))

    def look_up(self, one, like):
        """Looks up what may be equal to a key, and mostly is to none."""
        key = self.random.choice((
            -1, 2**64, "3", None, (3,), 3.0, 3.5, float("inf"), float("nan"), 2.0**64, 3j, decimal.Decimal(3), decimal.Decimal("NaN"),
            decimal.Decimal("1E+999999999"), True, fractions.Fraction(3), Index(),
        ))
        for call in (
            lambda it: it[key], lambda it: it.get(key), lambda it: it.get(key, 6), lambda it: key in it,
            lambda it: sorted(it.keys() & {key, 7}), lambda it: (key, 1) in it.items(), lambda it: it.keys().isdisjoint([key]),
            lambda it: 7 in it and it.setdefault(7, "9"), lambda it: it.pop(key, None), lambda it: it.pop(key),
            lambda it: it.__delitem__(key),
        ):
            self.assertEqual(self.answer(lambda: call(one)), self.answer(lambda: call(like)))

    def put_several(self, one, like):
        pairs = [(self.random.randrange(200), self.random.randrange(5)) for _ in range(self.random.randrange(9))]
        one.put_all(self.random.choice((pairs, iter(pairs), dict(pairs))))
        like.update(pairs)

    def go_back(self, one, like):
        copied, as_copied, _ = self.random.choice(self.copies)
        one.restore(copied)
        entries = dict(as_copied)
        like.clear()
        like.update(entries)

    def compare(self, one, like):
        newer, newer_like, _ = self.random.choice(self.copies)
        keys = sorted(key for key in {*like, *newer_like} if like.get(key) != newer_like.get(key))
        self.assertEqual(one.diff(newer), [(key, like.get(key), newer_like.get(key)) for key in keys])

    def copy_one(self, one, like):
        if self.random.random() < 0.5:
            self.copies.append((one.snapshot(), dict(like), False))
        else:
            self.copies.append((one.freeze(), dict(like), True))

    def test_answers_as_dictionaries_do(self):
        for _ in range(CALLS):
            at = self.random.randrange(len(self.copies))
            one, like, is_frozen = self.copies[at]
            drawn = self.random.random()
            if drawn < 0.01:
                self.copy_one(one, like)
            elif drawn < 0.02 and one is not self.map:
                del self.copies[at]
                one.close()
            elif drawn < 0.021 and not is_frozen:
                one.clear()
                like.clear()
            elif drawn < 0.03:
                self.compare(one, like)
            elif is_frozen:
                self.assertEqual(one.get(3), like.get(3))
            elif drawn < 0.035:
                self.go_back(one, like)
            elif drawn < 0.05:
                self.put_several(one, like)
            elif drawn < 0.07:
                self.look_up(one, like)
            else:
                self.change(one, like)
            if drawn > 0.98:
                self.assertEqual(list(one.items()), sorted(like.items()))
        for one, like, _ in self.copies:
            self.assertEqual((one, list(one), list(one.values())), (like, sorted(like), [like[key] for key in sorted(like)]))

    def test_items_are_taken_out(self):
        like = {key * key: key for key in range(100)}
        self.map.update(like)
        while like:
            key, value = self.map.popitem()
            self.assertEqual((like.pop(key), len(self.map), bool(self.map)), (value, len(like), bool(like)))
        self.assertRaises(KeyError, self.map.popitem)

    def test_no_default(self):
        self.assertRaises(TypeError, self.map.setdefault, 1)
        self.assertRaises(TypeError, self.map.setdefault, 1, "1")
        self.assertEqual((self.map.setdefault(1, 2), self.map.setdefault(1), dict(self.map)), (2, 2, {1: 2}))


class Refusals(unittest.TestCase):
    def test_each_refusal_is_an_error(self):
        with ctrie.Map(64) as one:
            with one.freeze() as frozen:
                for call in (
                    frozen.clear, lambda: frozen.update({1: 1}), lambda: frozen.pop(1), frozen.popitem, lambda: frozen.put_all({1: 1}),
                    lambda: frozen.restore(one), lambda: frozen.pop(1, None), lambda: frozen.pop("1", None),
                    lambda: frozen.__delitem__("1"),
                ):
                    self.assertRaises(ctrie.ReadOnly, call)
            for call in (lambda: frozen[1], lambda: one.restore(frozen), lambda: one.diff(frozen), lambda: frozen.diff(one)):
                self.assertRaises(ctrie.NoHandle, call)
            one[1] = 10
            self.assertRaises(ctrie.Full, lambda: one.put_all(zip(range(64), range(64))))
            self.assertEqual(dict(one), {1: 10})
            # As a dictionary's, this keeps what was set before.
            self.assertRaises(ctrie.Full, lambda: one.update(zip(range(64), range(64))))
            self.assertEqual(one[1], 1)
        self.assertRaises(ctrie.Closed, lambda: one[1])
        self.assertRaises(ctrie.Closed, one.freeze)
        with ctrie.Map(4096, ctrie.Hash.LOW) as one:
            self.assertRaises(ctrie.Crowded, lambda: one.update((high << 32, 0) for high in range(33)))
            self.assertEqual(len(one), 32)
            copies = [one.snapshot() for _ in range(255)]
            for call in (one.snapshot, lambda: one.restore(copies[0]), lambda: one.put_all({0: 1})):
                self.assertRaises(ctrie.HandlesFull, call)
            copies.pop().close()
            one.freeze().close()
            one.put_all({0: 1})
            one.restore(copies[0])
            self.assertEqual(one[0], 0)
        for slots in (-1, 2, 1_000_001, 2**32 + 64):
            self.assertRaises(ctrie.BadSizes, ctrie.Map, slots)
        self.assertTrue(issubclass(ctrie.BadSizes, ValueError) and issubclass(ctrie.OutOfMemory, MemoryError))
        self.assertRaises(ValueError, ctrie.Map, 64, 4)

    def test_only_whole_numbers_of_64_bits(self):
        with ctrie.Map(64) as one:
            for number, refusal in ((-1, OverflowError), (2**64, OverflowError), ("1", TypeError), (2.0, TypeError), (None, TypeError)):
                for call in (
                    lambda: one.update({number: 1}), lambda: one.update({1: number}), lambda: one.setdefault(number, 1),
                    lambda: one.setdefault(1, number), lambda: one.put_all({1: 1, number: 1}), lambda: one.put_all({1: 1, 2: number}),
                ):
                    self.assertRaises(refusal, call)
            one[LARGEST] = LARGEST
            self.assertEqual(dict(one), {LARGEST: LARGEST})
            one[3] = 4
            self.assertEqual([one.get(it) for it in (3, 3.0, 3 + 0j)], [4, 4, None])
        for call in (lambda: one.get("1"), lambda: -1 in one, lambda: one.pop("1", 2)):
            self.assertRaises(ctrie.Closed, call)
        self.assertRaises(TypeError, copy.copy, one)


class Threads(unittest.TestCase):
    def at_once(self, count, call):
        """Makes this call on so many threads, and raises what one of them raised."""
        with concurrent.futures.ThreadPoolExecutor(count) as pool:
            return list(pool.map(call, range(count)))

    def test_any_thread(self):
        """A thread makes a map, others use it and its copies, and it is open when its thread has ended."""
        made = []
        on_another_thread(lambda: made.append(ctrie.Map(256)))
        one = made.pop()
        one[7] = 250
        copies = self.at_once(1, lambda _: one.freeze())
        one[7] = 300
        self.assertEqual((self.at_once(1, lambda _: one[7]), copies[0][7], one.open_handles()), ([300], 250, [0, 1]))
        on_another_thread(copies[0].close)
        on_another_thread(one.close)
        self.assertEqual((one.is_open, copies[0].is_open), (False, False))
        self.assertRaises(ctrie.Closed, lambda: one.get(7))

    def test_no_call_is_lost(self):
        """Eight threads add to one map, some of it by calls that let other threads run, and each takes copies and drops them."""
        interval = sys.getswitchinterval()
        sys.setswitchinterval(1e-6)
        with ctrie.Map(65_536) as one:

            def use(thread):
                for number in range(250):
                    one[1_000 * thread + number] = number
                    copied = one.freeze() if number % 10 == thread else None
                    self.assertEqual(one[1_000 * thread + number], number)
                    if copied:
                        self.assertLessEqual(number, len(copied))
                one.put_all((1_000 * thread + number, thread) for number in range(500, 750))

            try:
                self.at_once(8, use)
            finally:
                sys.setswitchinterval(interval)
            wanted = {1_000 * thread + number: number if number < 250 else thread for thread in range(8) for number in (*range(250), *range(500, 750))}
            self.assertEqual((dict(one.items()), one.open_handles()), (wanted, [0]))

    def test_a_copy_is_closed_once(self):
        """Of many threads that close it one does; the number is another copy's then, which stays."""
        with ctrie.Map(1024) as one:
            for _ in range(50):
                copied = one.freeze()
                kept = self.at_once(4, lambda _: copied.close() or one.freeze())
                self.assertEqual([it.is_open for it in kept], [True] * 4)
                self.assertEqual(one.open_handles(), sorted([0, *(it.handle for it in kept)]))
                del kept

    def test_what_another_thread_drops(self):
        """It is given back at once, or where a call is under way with the next one; and a closed map has nothing to give back."""
        with ctrie.Map(256) as one, ctrie.Map(256) as other:
            kept = one.freeze()
            free = one.free_slots
            copies = [one.snapshot() for _ in range(5)]
            copies[0][1] = 1
            on_another_thread(copies.clear)
            self.assertEqual((one.open_handles(), one.free_slots, len(kept)), ([0, kept.handle], free, 0))
            copies.append(one.freeze())
            # As while another thread is in a call.
            with one._owner.lock:
                on_another_thread(copies.clear)
                self.assertEqual(len(one._owner.left), 1)
            self.assertEqual((one.open_handles(), one._owner.left), ([0, kept.handle], []))
            copies.append(one.freeze())
            one.close()
            on_another_thread(copies.clear)
            self.assertEqual(len(other), 0)

    def test_maps_are_freed(self):
        """One that another thread drops, one that it closes, and one that stays to the end of its thread."""
        calls = {"new": 0, "free": 0}

        def noted(name):
            call = ctrie._LIBRARY[name]

            def note(*words):
                calls[name] += 1
                return call(*words)

            return note

        with unittest.mock.patch.dict(ctrie._LIBRARY, {name: noted(name) for name in calls}):
            maps, own = [ctrie.Map(64), ctrie.Map(64)], threading.local()
            on_another_thread(maps.pop().close)
            on_another_thread(maps.clear)
            on_another_thread(lambda: setattr(own, "map", ctrie.Map(64)))
            gc.collect()
            self.assertEqual(calls, {"new": 3, "free": 3})

    def test_long_calls_let_other_threads_run(self):
        with ctrie.Map(65_536) as one:
            one.update((key, key) for key in range(30_000))
            interval = sys.getswitchinterval()
            ran, gate = threading.Event(), threading.Lock()
            gate.acquire()
            thread = threading.Thread(target=lambda: gate.acquire() and ran.set())
            thread.start()
            # No thread is made to let others run.
            sys.setswitchinterval(1_000)
            try:
                gate.release()
                for _ in range(1_000):
                    if ran.is_set():
                        break
                    self.assertEqual(len(one), 30_000)
                self.assertTrue(ran.is_set())
            finally:
                sys.setswitchinterval(interval)
            thread.join()


class Imports(unittest.TestCase):
    def test_no_library(self):
        """Where there is none, and where there is another one, it is an ImportError that says what to do."""
        for file in ("no/such.so", ctypes.util.find_library("c")):
            words = [sys.executable, "-c", "import ctrie"]
            ran = subprocess.run(words, env={**os.environ, "CTRIE_LIBRARY": file}, stderr=subprocess.PIPE, text=True)
            self.assertRegex(ran.stderr, r"ImportError: no library of the map \(.*\)\. \./build ctrie_c makes it, and the environment's CTRIE_LIBRARY")


class Lives(unittest.TestCase):
    def test_copies_of_another_map(self):
        with ctrie.Map(64) as one, ctrie.Map(64) as other, other.freeze() as copied:
            for call in (lambda: one.restore(other), lambda: one.restore(copied), lambda: one.diff(other), lambda: copied.diff(one)):
                self.assertRaises(ValueError, call)

    def test_what_is_no_map(self):
        with ctrie.Map(64) as one:
            for other in ({}, None, 3, [one]):
                for call in (lambda: one.restore(other), lambda: one.diff(other)):
                    self.assertRaisesRegex(TypeError, f"it is a {type(other).__name__}, and no map", call)

    def test_what_repr_says(self):
        one = ctrie.Map(256)
        frozen = one.freeze()
        one.update({1: 2, 3: 4})
        self.assertEqual((repr(one), str(frozen)), ("<ctrie.Map: writable, 2 keys>", "<ctrie.Copy: frozen, 0 keys>"))
        frozen.close()
        self.assertEqual(repr(frozen), "<ctrie.Copy: NoHandle>")
        one.close()
        self.assertEqual(repr(one), "<ctrie.Map: Closed>")

    def test_many_at_once(self):
        with ctrie.Map(keys=1_000) as one, one.freeze() as frozen:
            self.assertEqual(one.slots, 3_040)
            one.put_many((key, key + 1) for key in range(1_000))
            one.put_many({3: 7, True: LARGEST})
            wanted = [7, LARGEST, None, 1, 11, None]
            self.assertEqual(one.get_many([3, 1, 1_000, 0.0, 10, "x"]), wanted)
            self.assertEqual(one.get_many([3, 1, 1_000, 0.0, 10, "x"]), [one.get(it) for it in (3, 1, 1_000, 0.0, 10, "x")])
            self.assertEqual((frozen.get_many(range(3)), one.get_many([])), ([None] * 3, []))
            for pairs, refusal in (([(1, 2), (LARGEST + 1, 1)], OverflowError), ([(1, 2), (3, None)], TypeError)):
                self.assertRaises(refusal, one.put_many, pairs)
            self.assertEqual(one[1], LARGEST)
            self.assertRaises(ctrie.ReadOnly, frozen.put_many, {1: 2})
        for call in (lambda: one.get_many([1]), lambda: one.get_many([]), lambda: one.put_many({})):
            self.assertRaises(ctrie.Closed, call)

    def test_a_full_map_goes_on(self):
        """What is there can be changed and removed, after a copy was open too."""
        with ctrie.Map(64) as one:
            with self.assertRaises(ctrie.Full) as refused:
                one.put_many((7_919 * at, at) for at in range(1_000))
            keys = list(one)
            self.assertEqual((len(keys), one.free_slots), (refused.exception.done, 0))
            self.assertRaises(ctrie.Full, one.freeze)
            while not one.free_slots:
                del one[keys.pop()]
            one.freeze().close()
            for key in keys:
                one[key] = 1
            for key in keys:
                del one[key]
            self.assertEqual(dict(one), {})

    def test_how_many_were_set(self):
        """Of 33 keys of one hash the last is refused."""
        with ctrie.Map(4_096, ctrie.Hash.LOW) as one:
            with self.assertRaises(ctrie.Crowded) as refused:
                one.put_many((at << 32, at) for at in range(40))
            self.assertEqual((refused.exception.done, len(one)), (32, 32))

    def test_sizes(self):
        for words in ({}, {"slots": 64, "keys": 64}):
            self.assertRaises(TypeError, lambda: ctrie.Map(**words))
        for words in ({"keys": -20}, {"keys": 10**6}, {"keys": 2**40}, {"slots": 2}, {"slots": -1}):
            self.assertRaises(ctrie.BadSizes, lambda: ctrie.Map(**words))
        # As many random keys as it was made for, and a third of them changed under a copy.
        keys = random.Random(4).sample(range(2**63 - 1), 10_000)
        with ctrie.Map(keys=10_000) as one:
            one.put_many((key, 1) for key in keys)
            with one.freeze():
                one.put_many((key, 2) for key in keys[:3_333])

    def test_no_key_is_crowded(self):
        """By the hash that a map has where none is named: two small numbers packed into a key, of which many have one xor."""
        with ctrie.Map(4096) as one:
            keys = [at << 32 | at for at in range(40)]
            one.update(dict.fromkeys(keys, 1))
            self.assertEqual(list(one), keys)

    def test_which_are_open(self):
        one = ctrie.Map(64)
        copied, frozen = one.snapshot(), one.freeze()
        self.assertEqual([it.is_writable for it in (one, copied, frozen, frozen.snapshot())], [True, True, False, True])
        self.assertEqual(one.open_handles(), [one.handle, copied.handle, frozen.handle])
        copied.close()
        self.assertEqual([it.is_open for it in (one, copied, frozen)], [True, False, True])
        self.assertEqual(one.open_handles(), [0, 2])
        self.assertRaises(ctrie.NoHandle, lambda: copied.handle)
        self.assertRaises(ctrie.NoHandle, lambda: copied.is_writable)
        one.close()
        self.assertEqual([it.is_open for it in (one, copied, frozen)], [False, False, False])
        self.assertRaises(ctrie.Closed, one.open_handles)

    def test_more_differences_than_there_is_room_for_at_first(self):
        with ctrie.Map(65_536) as one, one.freeze() as before:
            one.put_all((key, key + 1) for key in range(10_000))
            self.assertEqual(before.diff(one), [(key, None, key + 1) for key in range(10_000)])

    def test_a_handle_isnt_used_after_its_close(self):
        with ctrie.Map(256) as one:
            first = one.freeze()
            first.close()
            first.close()
            one[1] = 1
            with one.freeze():
                self.assertRaises(ctrie.NoHandle, lambda: 1 in first)

    def test_what_is_dropped_is_given_back(self):
        one = ctrie.Map(256)
        free = one.free_slots
        copied = one.snapshot()
        copied[1] = 1
        self.assertLess(one.free_slots, free)
        del copied
        gc.collect()
        self.assertEqual((one.free_slots, one.slots), (free, 256))
        # A copy keeps its map, and a closed map is no trouble to its copies.
        last = one.freeze()
        del one
        self.assertEqual(len(last), 0)
        last.close()

    def test_listing_in_parts(self):
        with ctrie.Map(65_536) as one:
            keys = random.Random(2).sample(range(10**9), 10_000)
            one.update((key, at) for at, key in enumerate(keys))
            self.assertEqual(list(one), sorted(keys))
            self.assertEqual(sorted(one.scan()), sorted((key, at) for at, key in enumerate(keys)))
            # It goes on after the key that it came to, whatever has changed.
            listed = iter(one)
            first = [next(listed) for _ in range(5)]
            one.clear()
            self.assertEqual(first, sorted(keys)[:5])
            self.assertLess(len(list(listed)), 4096)


if __name__ == "__main__":
    unittest.main(verbosity=0)
