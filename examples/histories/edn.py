"""Reads edn, the notation of Clojure's data: https://github.com/edn-format/edn."""
import re
from dataclasses import dataclass

TOKEN = re.compile(
    r"""(?P<space>[\s,]+|;[^\n]*)|(?P<open>\#\{|[\[({])|(?P<close>[\])}])|(?P<skip>\#_)|(?P<text>"(?:[^"\\]|\\.)*")
    |(?P<letter>\\(?:\w+|.)|\#\#\w+)|(?P<tag>\#[^\s,\[\](){}";]+)|(?P<word>[^\s,\[\](){}";\#\\]+)""",
    re.VERBOSE | re.DOTALL,
)
WHOLE = re.compile(r"[+-]?(?:0|[1-9][0-9]*)N?")
CLOSES = {"[": "]", "(": ")", "{": "}", "#{": "}"}
ESCAPES = {"t": "\t", "r": "\r", "n": "\n", "b": "\b", "f": "\f"}


class Fault(Exception):
    """What is wrong, and in which line."""

    def __init__(self, line, why):
        super().__init__(f"line {line}: {why}")


@dataclass(frozen=True)
class Word:
    """A keyword, a symbol, a character, a truth value, or a number that isn't a whole one, as it is spelled."""

    spelling: str

    def __str__(self):
        return self.spelling


def tokens(text):
    """Yields the line, the kind and the spelling of each token."""
    at, line = 0, 1
    while at < len(text):
        found = TOKEN.match(text, at)
        if not found:
            raise Fault(line, f"{text[at]} stands where nothing of edn begins")
        if found.lastgroup != "space":
            yield line, found.lastgroup, found[0]
        line += found[0].count("\n")
        at = found.end()


def unescaped(spelling):
    """The string that is spelled so."""

    def of(escape):
        return chr(int(escape[1], 16)) if escape[1] else ESCAPES.get(escape[2], escape[2])

    return re.sub(r"\\(?:u([0-9a-fA-F]{4})|(.))", of, spelling[1:-1], flags=re.DOTALL)


def atom(kind, spelling):
    """The value of a token that is no bracket."""
    if kind == "text":
        return unescaped(spelling)
    if spelling == "nil":
        return None
    if kind == "word" and WHOLE.fullmatch(spelling):
        return int(spelling.rstrip("N"))
    return Word(spelling)


def collected(line, opened, forms):
    """The map of these forms, or the list of them."""
    if opened != "{":
        return [form for _, form in forms]
    values = [form for _, form in forms]
    if len(values) % 2 or any(isinstance(key, (dict, list)) for key in values[::2]):
        raise Fault(line, "a map has a key without a value, or one that isn't plain")
    return dict(zip(values[::2], values[1::2]))


def forms(text):
    """Returns the forms at the top, and those in a vector or list at the top, each with the line in which it begins. A map becomes a
    dict, each other collection a list, nil None, a string a str and a whole number an int. A tag is passed over."""
    # Each level that is open: its line and bracket, its forms, and for how many forms to come `#_` stands before them.
    levels = [(1, None, [], [0])]
    for line, kind, spelling in tokens(text):
        began, opened, inside, skipped = levels[-1]
        if kind == "open":
            levels.append((line, spelling, [], [0]))
            continue
        if kind == "skip":
            skipped[0] += 1
        if kind in ("skip", "tag"):
            continue
        if kind == "close":
            if opened is None or CLOSES[opened] != spelling:
                raise Fault(line, f"{spelling} closes nothing that is open")
            levels.pop()
            found = inside if len(levels) == 1 and opened in "([" else [(began, collected(began, opened, inside))]
            _, _, inside, skipped = levels[-1]
        else:
            found = [(line, atom(kind, spelling))]
        if skipped[0]:
            skipped[0] -= 1
        else:
            inside += found
    if len(levels) > 1:
        raise Fault(levels[-1][0], f"{levels[-1][1]} isn't closed")
    return levels[0][2]
