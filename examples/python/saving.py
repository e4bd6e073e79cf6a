"""A map that is saved and loaded: PYTHONPATH=python python3 examples/python/saving.py

The file has the pairs alone, each as two numbers of eight bytes. A frozen copy is what is saved, so the map may go on changing.
"""
import os
import struct
import tempfile

import ctrie

PAIR = struct.Struct("<QQ")


def save(copy, file):
    with open(file, "wb") as out:
        for key, value in copy.scan():
            out.write(PAIR.pack(key, value))


def load(file):
    with open(file, "rb") as pairs:
        keys = os.path.getsize(file) // PAIR.size
        loaded = ctrie.Map(keys=keys)
        for key, value in PAIR.iter_unpack(pairs.read()):
            loaded[key] = value
    return loaded


def main():
    with tempfile.TemporaryDirectory() as folder, ctrie.Map(keys=1000) as squares:
        file = os.path.join(folder, "squares")
        for number in range(1000):
            squares[number] = number * number
        with squares.freeze() as copy:
            squares.clear()
            save(copy, file)
        print("saved:", os.path.getsize(file), "bytes; left in the map:", len(squares))
        with load(file) as loaded:
            print("loaded:", len(loaded), "keys with the sum", sum(loaded.values()))


main()
