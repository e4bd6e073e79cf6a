"""Reads events that stand as JSON: objects one after the other, as one a line, or in an array. They become what edn.py makes of the same
events in edn, where the names of an event's parts, its type and its call are keywords. An object may also be a whole operation, with the
times of its begin and its end: then all are, and become events in order of time."""
import json
import re
from fractions import Fraction

from edn import Fault, Word

TYPE, CALL, VALUE, BEGIN, END = (Word(f":{name}") for name in ("type", "f", "value", "begin", "end"))
BEGINS = re.compile(r'\s*(?:\[\s*)?\{\s*["}]')
SPACE = re.compile(r"\s*")


def are_json(text):
    """Whether a text begins as an object of JSON does, and not as a map of edn with keywords."""
    return BEGINS.match(text) is not None


def form(value):
    """The same in edn: a truth value is a word."""
    if isinstance(value, bool):
        return Word(str(value).lower())
    if isinstance(value, list):
        return [form(it) for it in value]
    return {key: form(it) for key, it in value.items()} if isinstance(value, dict) else value


def keyword(value):
    return Word(f":{value.lstrip(':')}") if isinstance(value, str) else value


def event(value):
    """The same in edn."""
    if not isinstance(value, dict):
        return form(value)
    parts = {keyword(name): form(part) for name, part in value.items()}
    return {name: keyword(part) if str(name) in (":type", ":f") else part for name, part in parts.items()}


def time_of(line, form, name):
    """Returns a time of an operation, a number in whatever unit; None where there is none."""
    told = form.get(name)
    if told is None:
        return None
    try:
        if isinstance(told, (int, Word)):
            return Fraction(str(told))
    except ValueError:
        pass
    raise Fault(line, f"the time of its {str(name)[1:]} is no number")


def events_of(line, form):
    """Yields the events of a whole operation, each with what it is sorted by. At one time begins go first, so the two overlap."""
    begin, end = time_of(line, form, BEGIN), time_of(line, form, END)
    if begin is None or (end is not None and end < begin):
        raise Fault(line, "this operation has no begin, or ends before it")
    # A read's value is what it found.
    value = form.get(VALUE)
    unread = [value[0], None] if isinstance(value, list) and value else None
    yield (begin, 0), (line, {**form, TYPE: Word(":invoke"), VALUE: unread if str(form.get(CALL)) in (":read", ":get") else value})
    if end is not None:
        yield (end, 1), (line, {**form, TYPE: form.get(TYPE, Word(":ok"))})


def in_time(found):
    """Returns the events of these forms, where they are whole operations by time."""
    whole = [isinstance(form, dict) and (BEGIN in form or END in form) for _, form in found]
    if not any(whole):
        return found
    if not all(whole):
        raise Fault(found[whole.index(False)][0], "others are whole operations, with a begin and an end, and this isn't")
    return [event for _, event in sorted((it for line, form in found for it in events_of(line, form)), key=lambda it: it[0])]


class Reader:
    """A text, and how far it is read."""

    def __init__(self, text):
        self.text, self.at, self.line = text, 0, 1
        self.decoder = json.JSONDecoder(parse_float=Word, parse_constant=Word)
        self.pass_to(0)

    def pass_to(self, end):
        """Goes to this place, and over the space after it."""
        begin, self.at = self.at, SPACE.match(self.text, end).end()
        self.line += self.text.count("\n", begin, self.at)

    def takes(self, character):
        """Whether this character stands here. It is passed over then."""
        found = self.text.startswith(character, self.at)
        if found:
            self.pass_to(self.at + 1)
        return found

    def event(self):
        line = self.line
        try:
            value, end = self.decoder.raw_decode(self.text, self.at)
        except json.JSONDecodeError as fault:
            raise Fault(fault.lineno, f"this is no JSON: {fault.msg}") from None
        except RecursionError:
            raise Fault(line, "this has too many brackets in one another") from None
        self.pass_to(end)
        return line, event(value)


def forms(text):
    """Returns the events, each with the line in which it begins."""
    reader, found = Reader(text), []
    if not reader.takes("["):
        while reader.at < len(text):
            found.append(reader.event())
        return in_time(found)
    while not reader.takes("]"):
        if found and not reader.takes(","):
            raise Fault(reader.line, "a comma or the end of the array is missing here")
        found.append(reader.event())
    if reader.at < len(text):
        raise Fault(reader.line, "something stands after the array")
    return in_time(found)
