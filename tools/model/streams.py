"""The forms of lines, and the texts of `explore follow`, `waits` and `fill`.

This is an independent reading of the sections Record, Check, Follow, Waits and Fill of docs/REFERENCE.md, on the configurations of
model.py. Records are in the first form.
"""
import re

from model import Configuration, Stop, name_of, number_of, root_of, transition_of, verdict_words
from parser import KEYWORDS, parse

# ---- the form of a line


def is_number(word, limit=2**32):
    return re.fullmatch("0|[1-9][0-9]{0,18}", word) is not None and int(word) < limit


def is_positive(word):
    return is_number(word) and word != "0"


def is_object(word):
    parts = word.split(".")
    return len(parts) == 2 and all(is_number(part, 65536) for part in parts)


def is_value(word):
    if word in ("true", "false", "nil") or is_object(word) or is_number(word, 2**63):
        return True
    return word[:1] == "-" and word != "-0" and is_number(word[1:], 2**63 + 1)


def is_name(word):
    return re.fullmatch("[A-Za-z_][A-Za-z0-9_]{0,63}", word) is not None and word not in KEYWORDS


def is_item(word):
    return is_value(word) or re.fullmatch('"[ !#-~]{0,256}"', word) is not None


def is_error(word):
    return word in ("NilDestination", "NilOperand", "ZeroDivisor", "Overflow", "NoOpenGuard")


def is_kind(word):
    return word in ("heap", "frames", "cells")


# The words after the first, or the first two, of an effect. After `...` come up to eight values.
MESSAGE = (is_object, is_object, is_name, ...)
EFFECTS = {
    "local": (is_object, is_positive),
    "new": (is_object, is_object, is_name),
    "answer": MESSAGE,
    "return": (is_object, is_object, is_value),
    "send": MESSAGE,
    "take": MESSAGE,
    "write": (is_object, is_item),
    "pick": (is_object, is_positive),
    "fault": (is_object, is_error),
    "post create": (is_object, is_name, is_number),
    "post call": MESSAGE,
    "arrive": (is_object, is_object, is_name),
    "created": (is_object, is_object),
    "result": (is_object, is_value),
    **{word: (is_number,) for word in ("frame", "lost", "stale", "acked", "late")},
    **{word: () for word in ("pass", "idle")},
}
ENDS = {"quiet": (is_number,), "schedule": (is_number,), "full": (is_kind, is_number, is_number)}


def fits(words, form):
    if form and form[-1] is ...:
        form = form[:-1]
        form += (is_value,) * min(8, max(0, len(words) - len(form)))
    return len(words) == len(form) and all(is_right(word) for word, is_right in zip(words, form))


def words_of(line):
    """The words between single spaces. What begins with a quote is one word, up to the end of the line."""
    head, quote, text = line.partition(' "')
    return head.split(" ") + ['"' + text] * bool(quote)


def is_event(words):
    """Whether the words after the number of an event are an event and an effect."""
    if words[0] in ("turn", "link", "send", "ack", "lose", "twice", "late"):
        at = 1 + (words[0] in ("lose", "twice", "late") and words[1:2] == ["ack"])
        behind = at + (1 if words[0] == "turn" else 2)
        numbers, effect = words[at:behind], words[behind:]
        if effect[:1] == ["post"]:
            effect = [" ".join(effect[:2]), *effect[2:]]
        return len(numbers) == behind - at and all(map(is_number, numbers)) and bool(effect) and effect[0] in EFFECTS and fits(effect[1:], EFFECTS[effect[0]])
    return False


def number_in(line):
    """The number of an event line or an end line, or None where the line has no form."""
    words = words_of(line)
    if words[0] == "end":
        return int(words[-1]) if len(words) > 1 and words[1] in ENDS and fits(words[2:], ENDS[words[1]]) else None
    return int(words[0]) if len(words) > 1 and is_number(words[0]) and is_event(words[1:]) else None


# ---- a record as a run


class TooLong(Exception):
    """A line with more transitions than this slow reading makes."""


class Run:
    """The configuration to which the lines of a record lead, one line after another. The first transition names the root."""

    def __init__(self, program, most=4000):
        self.classes, self.made, self.most = parse(program), None, most

    @property
    def configuration(self):
        self.made = self.made or Configuration(self.classes, 0)
        return self.made

    def make(self, line):
        """Makes the transitions that an event line shows. Gives the words of the verdict where one is not possible, else None."""
        shown = transition_of(line)
        if shown:
            words, times = shown
            self.made = self.made or Configuration(self.classes, number_of(words[1]))
            for count in range(times):
                if count == self.most:
                    raise TooLong
                try:
                    self.made.make(words)
                except Stop:
                    return verdict_words(self.made, number_of(words[1]))
        return None

    def verdict(self, end):
        """The verdict at this end line."""
        if end.startswith("end quiet"):
            for name in sorted(self.configuration.objects):
                if self.configuration.can_move(name):
                    return f"no end {name_of(name)}"
        return "yes"

    def settle(self, name):
        """Makes the local transitions of an object, and gives their number."""
        count = 0
        while name in self.configuration.objects and self.configuration.action(name) == ["local"]:
            if count == self.most:
                raise TooLong
            self.configuration.make(["local", name_of(name)])
            count += 1
        return count


# ---- follow


def items(line):
    """The text that an event line writes."""
    shown = transition_of(line)
    return shown[0][2].strip('"') + "\n" if shown and shown[0][0] == "write" else ""


def followed(program, stream):
    """The output of `follow` on the bytes of a stream, its line on the error stream, and its status."""
    run, last, text = Run(program), 0, ""
    for line in stream.decode("latin-1").split("\n")[:-1]:
        number = number_in(line)
        is_end = line.startswith("end ")
        if number is None:
            return text, f"pool: record: BadLine at line {last + 1}\n", 2
        if number != last + (not is_end):
            return text, f"pool: record: OutOfOrder at line {last + 1}\n", 2
        if is_end:
            verdict = run.verdict(line)
            return (text + line + "\n", "", 0) if verdict == "yes" else (text + verdict + "\n", "", 1)
        stopped = run.make(line)
        if stopped:
            return text + " ".join(["no", str(number), *stopped]) + "\n", "", 1
        text, last = text + items(line), number
    return text, f"pool: record: BadLine at line {last + 1}\n", 2


# ---- waits


def rows(configuration):
    """Of each object its name, its class and its status, as words."""
    found = []
    for name in sorted(configuration.objects):
        words = configuration.action(name)
        status = {"send": ["calls", *words[1:3]], "waits": ["calls", *words[1:3]], "answer": ["awaits"], "select": ["awaits"]}.get(words[0], words)
        found.append([name_of(name), configuration.objects[name].made.name, *(["ready"] if configuration.can_move(name) else status)])
    return found


def cycles(found):
    """The cycles of calls among the rows: each begins with its least name, and they come in the order of these."""
    callee, lines = {row[0]: row[3] for row in found if row[2] == "calls"}, []
    for first in sorted(callee, key=number_of):
        way = [first]
        while callee.get(way[-1]) not in (None, *way):
            way.append(callee[way[-1]])
        if callee.get(way[-1]) == first and first == min(way, key=number_of):
            lines.append(["cycle", *way])
    return lines


def waiting(program, lines):
    """The lines that `waits` writes for the lines of a record."""
    run = Run(program)
    for number, line in enumerate(lines[:-1], 1):
        stopped = run.make(line)
        if stopped:
            return [" ".join(["no", str(number), *stopped])]
    found = rows(run.configuration)
    return [" ".join(words) for words in found + cycles(found)] + [run.verdict(lines[-1])]


# ---- fill


def is_local(line):
    shown = transition_of(line) if line[:1].isdigit() else None
    return shown is not None and shown[0][0] == "local"


def is_turn_of_own_node(line):
    """Whether the event of this local line is a turn of the node in the name of its object."""
    words = line.split(" ")
    return words[1:3] == ["turn", words[-2].split(".")[0]]


def numbered(lines):
    """The lines of a record with their numbers made anew."""
    events = [line.split(" ", 1)[1] for line in lines if line[:1].isdigit()]
    ends = [" ".join([*line.split(" ")[:-1], str(len(events))]) for line in lines if not line[:1].isdigit()]
    return [f"{number} {event}" for number, event in enumerate(events, 1)] + ends


def filled(program, lines):
    """The places of the record that `fill` writes, and the verdict on it. A place is a line that is not local, without its number. Before
    it stands the number of local transitions of each object that makes some there."""
    run, verdict, places, number = Run(program), None, [], 0
    others = [line for line in lines if not is_local(line)]
    run.made = Configuration(run.classes, root_of(others))
    for line in others:
        settled, is_end = {}, line.startswith("end ")
        if not verdict:
            names = []
            if line.startswith("end quiet"):
                names = sorted(run.configuration.objects)
            elif not is_end and transition_of(line):
                words = transition_of(line)[0]
                names = [number_of(word) for word in words[1 : 3 if words[0] in ("answer", "return") else 2]]
            settled = {name_of(name): count for name in names for count in [run.settle(name)] if count}
        number += len(settled) + (not is_end)
        places.append((settled, line.rsplit(" ", 1)[0] if is_end else line.split(" ", 1)[1]))
        if not verdict:
            stopped = None if is_end else run.make(line)
            verdict = run.verdict(line) if is_end else " ".join(["no", str(number), *stopped]) if stopped else None
    return places, verdict


def places_of(lines):
    """The places of a record whose local transitions were filled in."""
    found, settled = [], {}
    for line in lines:
        if is_local(line):
            name, times = line.split(" ")[-2:]
            settled[name] = settled.get(name, 0) + int(times)
        else:
            found.append((settled, line.rsplit(" ", 1)[0] if line.startswith("end ") else line.split(" ", 1)[1]))
            settled = {}
    return found
