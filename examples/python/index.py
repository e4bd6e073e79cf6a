"""An index of words: PYTHONPATH=python python3 examples/python/index.py

It counts words, keeps a freeze of what was before each as an undo list, lists a frozen copy while it goes on, and goes back.
"""
import ctrie

TEXT = "the cat and the dog and the bird"


def main():
    words = sorted(set(TEXT.split()))

    def shown(entries):
        return ", ".join(f"{words[key]} {value}" for key, value in entries.items())

    with ctrie.Map(256) as index:
        undo = []
        for word in TEXT.split():
            undo.append(index.freeze())
            key = words.index(word)
            index[key] = index.get(key, 0) + 1
        with index.freeze() as frozen:
            index[words.index("the")] = 100
            print("frozen:", shown(frozen))
            print("now:", shown(index))
            print("after three words:", shown(undo[3]))
            try:
                frozen[0] = 0
            except ctrie.ReadOnly as refused:
                print("refused:", refused)
        differences = undo[3].diff(index)
        print("changed since then:", ", ".join(f"{words[key]} {before} {after}" for key, before, after in differences))
        index.restore(undo[3])
        print("back there:", shown(index))


main()
