"""Checks the concurrent map of python/ctrie.py: beside a dictionary, how it refuses, and what threads are told. `c` runs it."""
import asyncio
import concurrent.futures
import gc
import random
import signal
import threading
import unittest

import ctrie

LARGEST = 2**64 - 1
THREADS, ROUNDS = 4, 200


def on_threads(work):
    """Has each of these threads, by its number, do this; raises what one of them raised."""
    raised = []

    def run(number):
        try:
            work(number)
        except BaseException as fault:
            raised.append(fault)

    threads = [threading.Thread(target=run, args=(number,)) for number in range(THREADS)]
    for thread in threads:
        thread.start()
    for thread in threads:
        thread.join()
    if raised:
        raise raised[0]


def put(it, plain, key, value):
    found, wanted = it.put(key, value), plain.get(key)
    plain[key] = value
    return found, wanted


def put_if_absent(it, plain, key, value):
    wanted = plain.get(key)
    plain.setdefault(key, value)
    return it.put_if_absent(key, value), wanted


def replace(it, plain, key, value):
    wanted = plain.get(key)
    if key in plain:
        plain[key] = value
    return it.replace(key, value), wanted


def replace_if(it, plain, key, value):
    wanted = plain.get(key) == value
    if wanted:
        plain[key] = value + 1
    return it.replace_if(key, value, value + 1), wanted


def remove(it, plain, key, _):
    return it.remove(key), plain.pop(key, None)


def remove_if(it, plain, key, value):
    wanted = plain.get(key) == value
    if wanted:
        del plain[key]
    return it.remove_if(key, value), wanted


def look_up(it, plain, key, _):
    return (it.get(key), key in it), (plain.get(key), key in plain)


# Each returns what the map answers, and what the dictionary says that it has to.
CALLS = (put, put_if_absent, replace, replace_if, remove, remove_if, look_up)


class Alone(unittest.TestCase):
    def test_as_a_dictionary(self):
        chance, plain = random.Random(1), {}
        with ctrie.ConcurrentMap(20_000) as it:
            for _ in range(2_000):
                key, value = chance.choice((3, chance.randrange(200), LARGEST)), chance.randrange(5)
                self.assertEqual(*chance.choice(CALLS)(it, plain, key, value))
            self.assertEqual(it.items(), sorted(plain.items()))
            self.assertEqual((len(it), list(it)), (len(plain), sorted(plain)))
            it.clear()
            self.assertEqual(it.items(), [])

    def test_copies(self):
        with ctrie.ConcurrentMap(1_000) as it:
            it[7] = 250
            with it.freeze() as frozen, it.snapshot() as other:
                it[7] = 300
                other[8] = 1
                self.assertEqual((frozen[7], it[7], other.get(7), 8 in it), (250, 300, 250, False))
                self.assertEqual((frozen.items(), len(frozen), list(frozen)), ([(7, 250)], 1, [7]))
                with self.assertRaises(ctrie.NotReadOnly):
                    other.items()
                with self.assertRaises(ctrie.ReadOnly):
                    frozen[7] = 1
            with self.assertRaises(ctrie.NoHandle):
                frozen[7]

    def test_dropped_copies_are_closed(self):
        with ctrie.ConcurrentMap(20_000) as it:
            for _ in range(300):
                it.freeze()
                gc.collect(0)

    def test_a_copy_in_use_keeps_its_number(self):
        with ctrie.ConcurrentMap(20_000) as it:
            for _ in range(300):
                copy = it.freeze()
                used = copy._number
                copy.close()
                with it.freeze() as other:
                    self.assertNotEqual(other._number.handle, used.handle)
                del used
                with self.assertRaises(ctrie.NoHandle):
                    copy.get(7)

    def test_closed_twice(self):
        with ctrie.ConcurrentMap(1_000) as it:
            copy, other = it.freeze(), it.freeze()
            copy.close()
            copy.close()
            it.close()
            other.close()
        with self.assertRaises(ctrie.Closed):
            it.freeze()

    def test_twice_the_keys_suffice(self):
        chance = random.Random(1)
        for seats in (1, 16):
            with ctrie.ConcurrentMap(2_000, seats=seats) as it:
                keys = [chance.randrange(LARGEST) for _ in range(1_000)]
                for key in keys:
                    it[key] = 1
                for value in range(3_000):
                    at = chance.randrange(len(keys))
                    del it[keys[at]]
                    keys[at] = chance.randrange(LARGEST)
                    it[keys[at]] = value
                self.assertEqual(len(it), len(keys))

    def test_refusals(self):
        for keys, seats in ((-1, 1), (2**32, 1), (2**32 - 1, 1), (1, 0), (1, 256)):
            with self.assertRaises(ctrie.BadSizes):
                ctrie.ConcurrentMap(keys, seats=seats)
        with ctrie.ConcurrentMap(10) as it:
            with self.assertRaises(KeyError):
                it[1]
            with self.assertRaises(KeyError):
                del it[1]
            with self.assertRaises(OverflowError):
                it[1] = LARGEST + 1
            with self.assertRaises(ctrie.Full):
                for key in range(10_000):
                    it[key] = key
        with self.assertRaises(ctrie.Closed):
            it[1]


class Together(unittest.TestCase):
    """More threads than seats: some wait for one."""

    def setUp(self):
        self.map = ctrie.ConcurrentMap(50_000, seats=THREADS - 1)

    def tearDown(self):
        self.map.close()

    def test_no_count_is_lost(self):
        self.map[0] = 0

        def work(_):
            for _ in range(ROUNDS):
                while not self.map.replace_if(0, found := self.map[0], found + 1):
                    pass

        on_threads(work)
        self.assertEqual(self.map[0], THREADS * ROUNDS)

    def test_tasks_are_done_once(self):
        for task in range(ROUNDS):
            self.map[task] = 1
        done = [[] for _ in range(THREADS)]
        on_threads(lambda number: done[number].extend(task for task in range(ROUNDS) if self.map.remove_if(task, 1)))
        self.assertEqual(sorted(sum(done, [])), list(range(ROUNDS)))

    def test_exports_are_of_one_moment(self):
        def work(number):
            if number == 0:
                for _ in range(50):
                    seen = dict(self.map.items())
                    for other in range(1, THREADS):
                        self.assertIn(seen.get(2 * other, 0) - seen.get(2 * other + 1, 0), (0, 1))
            else:
                for round in range(1, ROUNDS):
                    self.map[2 * number] = round
                    self.map[2 * number + 1] = round

        on_threads(work)


class Pooled(unittest.TestCase):
    """Threads of an executor, of which there are many more than seats."""

    def test_no_count_is_lost(self):
        with ctrie.ConcurrentMap(1_000, seats=2) as it:
            it[0] = 0

            def add_one():
                while not it.replace_if(0, found := it[0], found + 1):
                    pass

            async def add_all():
                await asyncio.gather(*(asyncio.to_thread(add_one) for _ in range(ROUNDS)))

            asyncio.run(add_all())
            self.assertEqual(it[0], ROUNDS)

    def test_each_thread_has_its_own_work(self):
        with ctrie.ConcurrentMap(5_000, seats=2) as it, concurrent.futures.ThreadPoolExecutor(8 * THREADS) as pool:

            def work(key):
                before = it.put(key, 1), it.put(key, 2)
                with it.freeze() as copy:
                    return before, copy[key], it.remove(key), it.get(key)

            for answer in pool.map(work, range(ROUNDS)):
                self.assertEqual(answer, ((None, 1), 2, 2, None))
            self.assertEqual(it.items(), [])


class InSteps(Together):
    """The same, where a call has few tries, and may have to go on."""

    def setUp(self):
        super().setUp()
        self.tries, ctrie._TRIES = ctrie._TRIES, 8

    def tearDown(self):
        ctrie._TRIES = self.tries
        super().tearDown()

    def test_exceptions_come_into_calls(self):
        class Came(Exception):
            pass

        def come(*_):
            raise Came

        before, chance, seen = signal.signal(signal.SIGALRM, come), random.Random(1), 0
        self.map[7] = 0
        try:
            for _ in range(200):
                try:
                    signal.setitimer(signal.ITIMER_REAL, chance.uniform(1e-5, 2e-3))
                    while True:
                        seen = self.map[7]
                        self.map.replace_if(7, seen, seen + 1)
                except Came:
                    self.assertIn(self.map[7], (seen, seen + 1))
        finally:
            signal.setitimer(signal.ITIMER_REAL, 0)
            signal.signal(signal.SIGALRM, before)
        self.assertFalse([caller for caller in self.map._pool.callers if caller.lock.locked()])


if __name__ == "__main__":
    unittest.main()
