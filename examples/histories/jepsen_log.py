"""Reads the events of Jepsen's older logs, one a line: process, type, call and value, as `0 :invoke :read nil`, perhaps after what a logger
writes before it. They become what edn.py makes of the same events in edn."""
import re

import edn
from edn import Fault, Word

EVENT = re.compile(r"(?:.* - )?(\d+|:[\w-]+)\s+(:(?:invoke|ok|fail|info))\s+(:[^\s,()\[\]{}]+)\s+(\S.*)")


def are_events(text):
    """Whether the text begins as no edn does, and has such a line."""
    return not text.lstrip().startswith(("{", "[", "(", "#", ";")) and any(EVENT.fullmatch(line) for line in text.split("\n"))


def value_of(line, text):
    """Returns the value, which is the first form of this text: after it may stand what went wrong."""
    try:
        return edn.forms(f"{{0 [{text}\n]}}")[0][1][0][0]
    except Fault:
        raise Fault(line, "the value is no edn") from None


def forms(text):
    """Returns the events, each with its line, and the lines that are none: what else a log says."""
    events, others = [], []
    for line, found in enumerate(map(EVENT.fullmatch, text.split("\n")), 1):
        if found:
            process, kind, call, value = found.groups()
            names = ("process", "type", "f", "value")
            values = (int(process) if process.isdecimal() else Word(process), Word(kind), Word(call), value_of(line, value))
            events.append((line, {Word(f":{name}"): it for name, it in zip(names, values)}))
        elif text.split("\n")[line - 1].strip():
            others.append(line)
    return events, others
