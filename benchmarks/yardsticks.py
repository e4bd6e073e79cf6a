"""The maps of others under the loads that ours are measured by. A folder has the prototypes and `dashmap`, which cargo builds, and Scala's library."""
import glob
import os
import re
import shutil
import subprocess

from figures import TOP, note, output


class OnJava:
    """A map of Java's, by a program beside this file."""

    def __init__(self, name, build, path, loads):
        self.words, self.loads = ["java", "-cp", path, name], loads
        build.mkdir(parents=True, exist_ok=True)
        subprocess.run(["javac", "-cp", path, "-d", build, TOP / "benchmarks/Loads.java", TOP / f"benchmarks/{name}.java"], check=True)

    def measured(self, load, threads, count, keys, seconds):
        """Returns the nanoseconds a call, of all threads together, or nothing."""
        return nanos_told([*self.words, load, threads, count, keys], seconds)

    def weighed(self, keys, seconds):
        """Returns the bytes a key of so many spread ones, and the nanoseconds in which one was inserted, or nothing."""
        return weight_told([*self.words, "heap", 1, 0, keys], seconds)


class OnWords:
    """The map on words in plain Rust; each of its calls is pinned from its start, or those alone that change the map."""

    loads = {"mix", "get", "put", "insert", "copies", "copy"}

    def __init__(self, folder, build, features):
        cargo = ["cargo", "build", "--release", "--offline", "--quiet", *features]
        subprocess.run(cargo, cwd=folder, check=True, env={**os.environ, "CARGO_TARGET_DIR": str(build)})
        self.program = build / "release/word_ctrie"

    def measured(self, load, threads, count, keys, seconds):
        return nanos_told([self.program, load, threads, count, keys, 8 << 20, 1], seconds)

    def weighed(self, keys, seconds):
        return weight_told([self.program, "heap", 1, 0, keys, 8 << 20], seconds)


class Dash:
    """Rust's dashmap: gets alone, and the mix. Its program starts the clock when one of many threads goes on, which may be late: so it makes
    more calls than the others."""

    loads = {"mix", "get"}

    def __init__(self, folder, build):
        # Cargo writes down beside the project which crates it has taken.
        shutil.copytree(folder, build, dirs_exist_ok=True, copy_function=shutil.copyfile, ignore=shutil.ignore_patterns("target"))
        build.chmod(0o755)
        subprocess.run(["cargo", "build", "--release", "--offline", "--quiet"], cwd=build, check=True)
        self.program = build / "target/release/dash"

    def measured(self, load, threads, count, keys, seconds):
        return nanos_told([self.program, threads, 10 * count // threads, keys, *(["gets"] if load == "get" else [])], seconds)

    def weighed(self, keys, seconds):
        return None


def nanos_told(words, seconds):
    told = output(words, seconds)
    return float(re.search(r"([\d.]+) ns", told[0])[1]) if told else None


def weight_told(words, seconds):
    told = output(words, seconds)
    if not told:
        return None
    taken, speed = map(float, re.findall(r"([\d.]+) (?:bytes|inserts)", told[0]))
    return taken, 1e9 / speed


def trie_map(folder, build):
    """Scala's TrieMap, where its library is there."""
    jars = [*glob.glob(f"{folder}/**/scala-library.jar", recursive=True), *glob.glob(f"{build}/**/scala-library.jar", recursive=True)]
    path = f"{next(it for it in [*jars, '/usr/share/java/scala-library.jar'] if os.path.exists(it))}:{build}"
    loads = {"mix", "get", "put", "insert", "copies", "copy", "reading", "counted"}
    return OnJava("TrieMapLoads", build, path, loads)


def hash_map(folder, build):
    """Java's ConcurrentHashMap, which has no copies."""
    return OnJava("HashMapLoads", build, str(build), {"mix", "get", "put", "insert"})


def those_of_words(folder, build):
    """Returns by their names those that the map on words is measured beside; each is left out, with a word, where it can't be built."""
    ways = {
        "TrieMap": lambda: trie_map(folder, build),
        "ConcurrentHashMap": lambda: hash_map(folder, build),
        "dashmap": lambda: Dash(folder / "dashmap", build / "dashmap"),
        "pinned": lambda: OnWords(folder / "prototype-words", build / "pinned", ["--features", "pinned"]),
        "unpinned": lambda: OnWords(folder / "prototype-words", build / "unpinned", []),
    }
    found = {}
    for name, way in ways.items():
        try:
            if folder is None:
                raise FileNotFoundError("no --yardsticks")
            found[name] = way()
        except (OSError, StopIteration, subprocess.CalledProcessError) as fault:
            note(f"left out: {name}: {fault!r}")
    return found
