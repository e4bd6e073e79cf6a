"""What tests/threads, tests/turns and tests/held share: histories of threads are judged."""
import os
import subprocess
import sys
from pathlib import Path

TOP = Path(__file__).resolve().parent.parent
PROGRAM, CTRIE = TOP / "crates/test_words/out/test_words", TOP / "crates/ctrie/out/ctrie"
sys.dont_write_bytecode = True
sys.path.insert(0, str(TOP / "examples/histories"))
from find_order import with_order
from orders import Spent

HASHES = ["low", "fold", "wide", "block"]
# How many steps a search for an order takes at first; where they don't suffice it takes ten times as many before the history is left out.
STEPS = 300_000
# How many steps `ctrie order` may take: it is proved, and asked before a history is called wrong.
PROVED_STEPS = 10_000_000
# One history of so many may be left out, and one more.
ONE_OF = 50
# A run that takes so many seconds hangs: it should take one or two.
MOST_SECONDS = 600


def ran(program, *words, **environment):
    words, more = [str(word) for word in words], {**os.environ, **environment}
    try:
        return subprocess.run(
            [program, *words], env=more, stdin=subprocess.DEVNULL, capture_output=True, text=True, timeout=MOST_SECONDS
        )
    except subprocess.TimeoutExpired:
        sys.exit(f"{program} {words} {environment} doesn't end")


def searched(text):
    """Returns this history with an order, and whether that explains all answers; None where the steps didn't suffice."""
    for steps in (STEPS, 10 * STEPS):
        try:
            return with_order(text, steps)
        except Spent:
            pass
    return None


def doubted(text, history, plain):
    """Judges a history for which the search has found that no order explains it: this text has one that goes as far as any. The search
    isn't proved."""
    found = ran(CTRIE, "order", PROVED_STEPS, plain)
    if found.returncode == 0:
        history.write_text(found.stdout)
        return ran(CTRIE, "check", history).stdout.removesuffix("\n")
    history.write_text(text + "\n")
    return f"ctrie order: {found.stdout}{found.stderr}{ran(CTRIE, 'explain', history).stdout}"


def judged(told, folder):
    """Judges a run that should have written a history: what `check` calls its order, or what went wrong; None where no order was found in
    so many steps, though there may be one."""
    if told.returncode or told.stderr:
        return f"status {told.returncode}, {told.stderr}"
    found = searched(told.stdout)
    if found is None:
        return None
    (text, explains), history, plain = found, folder / "history", folder / "plain"
    if not explains:
        plain.write_text(told.stdout)
        return doubted(text, history, plain)
    history.write_text(text + "\n")
    return ran(CTRIE, "check", history).stdout.removesuffix("\n")


class Tally:
    """Counts histories and their operations, and what stands in them."""

    def __init__(self, folder):
        self.folder, self.legal, self.unknown, self.operations, self.seen, self.wrong = folder, 0, 0, 0, set(), []

    def judge(self, told, what):
        """Judges a run, as `judged` does; where something is wrong, that is noted, with the history."""
        verdict = judged(told, self.folder)
        if verdict is None:
            self.unknown += 1
        elif "no-slots" in told.stdout:
            self.wrong.append(f"{what}: slots were lacking, of which there are enough\n{told.stdout}")
        elif verdict == "legal":
            self.legal += 1
            lines = [line.split(" ") for line in told.stdout.splitlines()]
            self.operations += sum(1 for words in lines if words[0] == "begin")
            self.seen.update(words[3] if words[0] == "begin" else words[2] for words in lines if len(words) > 2)
        else:
            self.wrong.append(f"{what}: {verdict}\n{told.stdout}")
        return verdict

    def knows_few(self):
        """Whether too many histories were left out."""
        return self.unknown > (self.legal + self.unknown) / ONE_OF + 1

    def missing(self):
        """What should stand in some history: each call, and each kind of reply but those that say that slots were lacking."""
        calls = "get put put-if-absent replace replace-if remove remove-if snapshot freeze clear close count entries"
        replies = "some none true false crowded handle cleared closed pairs"
        return sorted({*calls.split(), *replies.split()} - self.seen)
