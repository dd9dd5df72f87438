"""The outcomes of a program: what its runs have written when no transition is possible any more, and how they end.

This is an independent reading of docs/REFERENCE.md, on the configurations of model.py. It is a plain search over all interleavings: in each
configuration each transition is tried, of whatever object, and nothing is left out or made first. What was written belongs to what is
kept, so two runs to one configuration that wrote different items are two.

A configuration is kept as two tuples. The first has a number for the state of each object, in the order of creation; the root comes
first. The second has the pairs of objects with messages that were not taken. A state of an object is kept once, and so is what a
transition makes of the states and messages that it concerns.

An outcome is (kind, items). The items are a tuple of words, as in a record.

Where the search met all configurations it also knows which objects are dead in each: those that wait in a call, and no run goes on with them.
"""
import streams
from model import WORD, Configuration, Object, Stop, name_of, number_of, redex_of, transition_of
from parser import parse

KINDS = ("fault", "stuck", "left", "done")
# The transitions that concern two objects and their messages.
OF_PAIRS = {"answer", "return", "send", "take"}


def kind_of(configuration):
    """How a run ends in this configuration, where no transition is possible."""
    actions = {configuration.action(name)[0] for name in configuration.objects}
    if "faulted" in actions:
        return "fault"
    if actions & {"send", "waits"}:
        return "stuck"
    return "left" if actions & {"answer", "select"} or any(configuration.mail.values()) else "done"


def ending_of(configuration):
    """The same. Here model.py has to find as well that no object can go on."""
    assert not any(map(configuration.can_move, configuration.objects))
    return kind_of(configuration)


def copied(part):
    """A copy of a part of an object: its stores can be changed, and the original stays."""
    return type(part)(map(copied, part)) if isinstance(part, (list, tuple)) else part


def copy_of(object_):
    made = Object(object_.made)
    made.variables, made.rest, made.error = copied(object_.variables), copied(object_.rest), object_.error
    return made


class Interleavings:
    """The configurations of a program, and the transitions between them."""

    def __init__(self, program):
        self.classes = parse(program)
        self.states, self.numbers, self.known, self.made, self.in_call = [], {}, {}, {}, {}
        self.start = ((self.number(Configuration(self.classes, 0).objects[0]),), ())

    def number(self, object_):
        """The number of the state of an object."""
        # (as text, since 1 and true are equal in Python)
        key = (object_.made.name, object_.error, repr(object_.variables), repr(object_.rest))
        if key not in self.numbers:
            self.numbers[key] = len(self.states)
            self.states.append(object_)
        return self.numbers[key]

    def configuration(self, objects, mail):
        """These objects, which are pairs of a name and a number, and these messages, as a configuration of model.py."""
        made = Configuration(self.classes, 0)
        made.objects = {name: copy_of(self.states[number]) for name, number in objects}
        made.mail = {pair: list(messages) for pair, messages in mail}
        return made

    def whole(self, configuration):
        return self.configuration(enumerate(configuration[0]), configuration[1])

    def own_labels(self, place, number, count):
        """The words of each transition that the next action of an object may be, where there are so many objects."""
        words = self.configuration([(place, number)], ()).action(place)
        kind, name = words[0], name_of(place)
        if kind == "local":
            return [(kind, name)]
        if kind == "new":
            return [(kind, name, name_of(count), words[1])]
        if kind == "send":
            return [("answer", words[1], name, *words[2:])]
        if kind == "async":
            return [("send", name, *words[1:])]
        if kind == "select":
            return [("pick", name, str(place)) for place, _ in enumerate(redex_of(self.states[number])[1], 1)]
        return [(kind, name, *words[1:])] if kind in ("write", "return", "fault") else []

    def labels(self, configuration):
        """The words of each transition that may be possible: of the objects, and of the messages."""
        objects, mail = configuration
        for place, number in enumerate(objects):
            key = (place, number, len(objects))
            if key not in self.known:
                self.known[key] = self.own_labels(*key)
            yield from self.known[key]
        for (sender, receiver), messages in mail:
            for method, values in dict.fromkeys(messages):
                yield ("take", name_of(receiver), name_of(sender), method, *values)

    def make(self, words, objects, pair, messages):
        """The states of these objects after a transition, with the objects that it made, and the messages of the pair; None where it is
        not possible."""
        configuration = self.configuration(objects, [(pair, [(method, list(values)) for method, values in messages])])
        try:
            configuration.make(list(words))
        except Stop:
            return None
        states = [(name, self.number(object_)) for name, object_ in configuration.objects.items()]
        return states, tuple((method, tuple(values)) for method, values in configuration.mail.get(pair, []))

    def after(self, configuration, words):
        """The configuration after a transition, or None where it is not possible."""
        objects, mail = configuration
        names = [number_of(word) for word in words[1 : 3 if words[0] in OF_PAIRS else 2]]
        pair = (names[-1], names[0]) if words[0] in ("answer", "take") else (names[0], names[-1])
        messages = next((messages for its, messages in mail if its == pair), ())
        key = (words, *(objects[name] for name in names), messages)
        if key not in self.made:
            self.made[key] = self.make(words, [(name, objects[name]) for name in names], pair, messages)
        if not self.made[key]:
            return None
        states, left = self.made[key]
        changed = dict(enumerate(objects))
        changed.update(states)
        if left != messages:
            mail = tuple(sorted([it for it in mail if it[0] != pair] + [(pair, left)] * bool(left)))
        return tuple(changed[name] for name in range(len(changed))), mail

    def nexts(self, configuration):
        """Of each possible transition the items that it writes, the objects that it changes, and the configuration after it."""
        found = []
        for words in self.labels(configuration):
            after = self.after(configuration, words)
            if after:
                changed = {number_of(word) for word in words[1 : 3 if words[0] in ("answer", "return") else 2]}
                found.append((words[2:] if words[0] == "write" else (), changed, after))
        return found

    def is_in_call(self, number):
        """Whether an object in the state of this number waits in a call."""
        if number not in self.in_call:
            self.in_call[number] = self.configuration([(0, number)], ()).action(0)[0] in ("send", "waits")
        return self.in_call[number]

    def waiting(self, configuration):
        """The objects that wait in a call."""
        return {name for name, number in enumerate(configuration[0]) if self.is_in_call(number)}

    def key(self, made):
        """A configuration of model.py whose objects have the names 0, 1, 2, .., as it is kept here."""
        mail = tuple(sorted((pair, tuple((method, tuple(values)) for method, values in messages)) for pair, messages in made.mail.items() if messages))
        return tuple(self.number(made.objects[name]) for name in range(len(made.objects))), mail

    def has_spinning_object(self):
        """Whether an object was met that spins: by local transitions alone it comes back to a state that it had."""
        local = {(key[0], key[1]): made[0][0][1] for key, made in self.made.items() if made and key[0][0] == "local"}
        for words, number in local:
            seen = set()
            while (words, number) in local and number not in seen:
                seen.add(number)
                number = local[words, number]
            if number in seen:
                return True
        return False


class Search:
    """The outcomes of a program. These are all if no more than `most` pairs of a configuration and what was written are met. Without items
    what was written is not kept, and only configurations are met."""

    def __init__(self, program, most, with_items=True):
        self.runs, self.found = Interleavings(program), set()
        # (of each configuration its number, the transitions from it, and where there are none how a run ends)
        numbers, configurations, nexts, kinds = {self.runs.start: 0}, [self.runs.start], [], {}
        self.numbers, self.configurations, self.edges, self.kinds = numbers, configurations, {}, kinds
        met, waiting = {(0, ())}, [(0, ())]
        while waiting and len(met) <= most:
            number, items = waiting.pop()
            while len(nexts) <= number:
                nexts.append(None)
            if nexts[number] is None:
                nexts[number] = []
                self.edges[number] = []
                for more, changed, after in self.runs.nexts(configurations[number]):
                    if after not in numbers:
                        numbers[after] = len(configurations)
                        configurations.append(after)
                    nexts[number].append((more if with_items else (), numbers[after]))
                    self.edges[number].append((changed, numbers[after]))
                if not nexts[number]:
                    kinds[number] = ending_of(self.runs.whole(configurations[number]))
            if not nexts[number]:
                self.found.add((kinds[number], items))
            for more, after in nexts[number]:
                pair = (after, items + more)
                if pair not in met:
                    met.add(pair)
                    waiting.append(pair)
        self.is_whole, self.met = not waiting, len(met)

    def ends(self):
        """The configurations that were met in which no transition is possible, as configurations of model.py."""
        return [self.runs.whole(self.configurations[number]) for number in self.kinds]

    def has_error(self):
        """Whether an object was met that has met an error."""
        return any(state.error for state in self.runs.states)

    def dead(self):
        """Of each configuration with dead objects their names. All configurations have to be met."""
        waits = {number: self.runs.waiting(configuration) for number, configuration in enumerate(self.configurations)}
        before = {}
        for number, edges in self.edges.items():
            for changed, after in edges:
                before.setdefault(after, []).append((changed, number))
        # (who goes on at once, and then who is not changed by a transition behind which it goes on)
        going = {(number, name) for number, edges in self.edges.items() for changed, _ in edges for name in changed & waits[number]}
        found = list(going)
        while found:
            after, name = found.pop()
            for changed, number in before.get(after, []):
                if name in waits[number] and (number, name) not in going:
                    going.add((number, name))
                    found.append((number, name))
        dead = {number: {name for name in names if (number, name) not in going} for number, names in waits.items()}
        return {number: names for number, names in dead.items() if names}


# ---- the lines of the commands


def outcome_of(line):
    """The outcome that a line tells, or None where it has no form."""
    words = WORD.findall(line)
    if words[:1] != ["wrote"] or words[1:2] == [] or words[1] not in KINDS or " ".join(words) != line:
        return None
    return (words[1], tuple(words[2:])) if all(map(streams.is_item, words[2:])) else None


def renamed(outcome, root="0.0"):
    """The outcome with its objects numbered as they come in it. Those of two outcomes are equal if a one-to-one map leads from the names
    of the one to those of the other. The root keeps its name: it comes first in each run."""
    kind, items = outcome
    names = {root: "root"}
    return kind, tuple(names.setdefault(item, f"object {len(names)}") if streams.is_object(item) else item for item in items)


class NoRun(Exception):
    """Says why lines are not a run with an outcome."""


def outcome_of_run(program, steps):
    """The outcome of the run of these lines, and the number of its transitions that are not local. Raises NoRun where they are no run from
    the start to where no transition is possible."""
    configuration, items, others = end_of_run(program, steps)
    moving = [name_of(name) for name in sorted(configuration.objects) if configuration.can_move(name)]
    if moving:
        raise NoRun(f"a transition of {moving[0]} is possible at the end")
    return (kind_of(configuration), tuple(items)), others


def end_of_run(program, steps):
    """The configuration to which these lines lead, what they write, and the number of their transitions that are not local. Raises NoRun
    where they are no run from the start."""
    configuration, items, others, before = Configuration(parse(program), 0), [], 0, None
    for number, line in enumerate(steps, 1):
        # (behind the word `step` comes what an event line has behind its event)
        event = "1 turn 0 " + line[len("step ") :]
        shown = transition_of(event) if line.startswith("step ") and streams.number_in(event) == 1 else None
        if not shown:
            raise NoRun(f"line {number} has no form: {line}")
        words, times = shown
        if words == before and words[0] == "local":
            raise NoRun(f"line {number} has local transitions that belong to the line before it: {line}")
        if words[0] == "new" and number_of(words[2]) != len(configuration.objects):
            raise NoRun(f"line {number} does not name the object in the order of creation: {line}")
        for _ in range(times):
            try:
                configuration.make(words)
            except Stop:
                raise NoRun(f"line {number} is not possible: {line}") from None
        items += words[2:] * (words[0] == "write")
        others, before = others + (words[0] != "local"), words
    return configuration, items, others
