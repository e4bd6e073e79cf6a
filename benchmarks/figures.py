"""What benchmarks have in common: programs that are run, the best figure of each thing, and tables of figures beside their yardsticks."""
import os
import re
import subprocess
import sys
import time
from pathlib import Path

TOP = Path(__file__).resolve().parent.parent
# The runs that didn't end in time: they aren't tried again.
LATE = set()


def note(words):
    print(words, file=sys.stderr, flush=True)


def program(crate):
    """Returns the path of the crate's program, built where it isn't yet."""
    folder = TOP / "crates" / crate
    path = folder / "out" / crate
    if not path.exists():
        subprocess.run(["rt", "run"], cwd=folder, check=True, stdout=subprocess.DEVNULL)
    return path


def output(words, seconds):
    """Returns what the program writes and how long it takes, or nothing where it doesn't end well in time, or didn't before."""
    words = tuple(str(it) for it in words)
    if words in LATE:
        return None
    start = time.monotonic()
    try:
        run = subprocess.run(words, stdout=subprocess.PIPE, text=True, timeout=seconds)
    except (subprocess.TimeoutExpired, OSError) as fault:
        note(f"{fault}")
        LATE.add(words)
        return None
    took = time.monotonic() - start
    if run.returncode:
        note(f"{words}: status {run.returncode}")
    return None if run.returncode else (run.stdout, took)


class Figures:
    """The best figure of each thing that was measured: the least; and of calls that may be refused how many were, at most."""

    def __init__(self):
        self.best = {}
        self.refused = {}

    def put(self, name, figure, refused=None):
        self.best[name] = min(figure, self.best.get(name, figure))
        if refused is not None:
            self.refused[name] = max(refused, self.refused.get(name, 0))

    def get(self, name):
        return self.best.get(name)

    def text(self, name, form="{:,.1f}"):
        """What a table says of it."""
        if name not in self.best:
            return "not measured"
        refused = f"; {self.refused[name]:,} refused" if name in self.refused else ""
        return form.format(self.best[name]) + refused


def row(what, ours, yardstick, ratio, aim, met):
    print(f"| {what} | {ours} | {yardstick} | {ratio} | {aim} | {met} |")


def met(is_met, is_full):
    """Whether an aim is met; where less was done than it speaks of, met says no more than that."""
    if not is_met:
        return "no"
    return "yes" if is_full else "at this size"


def pair(figures, ours, yardstick):
    """Returns both figures, and their texts."""
    return figures.get(ours), figures.get(yardstick), [figures.text(ours), figures.text(yardstick)]


def compared(figures, what, ours, yardstick, aim, most=True, is_full=True):
    """A row of two figures; the aim, where there is one, is the most or the least that their ratio may be."""
    told = "" if aim is None else f"{'at most' if most else 'at least'} {aim}"
    a, b, texts = pair(figures, ours, yardstick)
    if a is None or b is None:
        return row(what, *texts, "", told, "")
    ratio = a / b if most else b / a
    is_met = aim is not None and (ratio <= aim if most else ratio >= aim)
    row(what, *texts, f"{ratio:.2f}" if ratio >= 0.1 else f"{ratio:.4f}", told, met(is_met, is_full) if told else "")


def limited(figures, what, name, unit, most, is_full=True):
    """A row of one figure; the aim is the most that it may be."""
    figure = figures.get(name)
    if figure is None:
        return row(what, "not measured", "", "", f"at most {most:,} {unit}", "")
    row(what, figures.text(name, f"{{:,.2f}} {unit}"), "", "", f"at most {most:,} {unit}", met(figure <= most, is_full))


def machine():
    """What this is measured on."""
    name = re.search(r"model name\s*: (.*)", Path("/proc/cpuinfo").read_text())[1]
    memory = int(re.search(r"MemTotal:\s*(\d+)", Path("/proc/meminfo").read_text())[1]) / 2**20
    return f"{name}, {os.cpu_count()} processors, {memory:.0f} GB"


def measured_on(before, rounds):
    """The line above a table, where the load was so before."""
    return f"{machine()}; a load of {before:.0f} before and {os.getloadavg()[0]:.0f} after; {time.strftime('%d %B %Y')}; the best of {rounds} rounds.\n"
