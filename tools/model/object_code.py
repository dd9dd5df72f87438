"""Object code files: a reader, a verifier and a writer of their bytes, and drawn files that no compiler made.

This is an independent reading of the sections Code and listing, Object code files, and Record of docs/REFERENCE.md. A name is its number in
the list of names. A kind is 'Int', 'Bool' or the name of a class; a sort is a kind, 'nil', or 'nothing': a call of a method without a result.
"""
from dataclasses import dataclass

from streams import is_name, number_in, words_of

HEAD, MOST_BYTES, MOST_OPERANDS = b"POOLU\x01", 16777216, 64

# The instructions with their fields, and the operators, in the order of their bytes from 1.
INSTRUCTIONS = {
    "PushInt": ["integer"],
    "PushBool": ["truth"],
    "PushNil": [],
    "Jump": ["place"],
    "LoadI": ["variable"],
    "LoadT": ["local"],
    "SelfRef": [],
    "StoreI": ["variable"],
    "StoreT": ["local"],
    "Oper": ["operator"],
    "Pop": [],
    "Branch": ["place"],
    "Loop": [],
    "Call": ["method"],
    "Ret": [],
    "New": ["class"],
    "Send": ["name", "count"],
    "Async": ["name", "count"],
    "Write": [],
    "WriteText": ["string"],
    "Answer": ["methods"],
    "Select": ["alternatives"],
    "Halt": [],
    "Post": [],
}
WORDS = list(INSTRUCTIONS)
OPERATORS = "+ - * / % neg < <= > >= == != and or not".split()
# An instruction without a transition, after which there is a next one.
SILENT = {"PushInt", "PushBool", "PushNil", "Jump", "Post"}


@dataclass
class Way:
    """An alternative of a select: its list of names, or None if it is plain, and its place."""

    names: "list | None"
    at: int


@dataclass
class Step:
    """An instruction."""

    word: str
    fields: list


@dataclass
class Code:
    """The size of a frame, and the instructions."""

    words: int
    steps: list


@dataclass
class Method:
    """A method. The kinds are those of its parameters and then of its locals."""

    name: int
    parameters: int
    kinds: list
    result: "str | int | None"
    code: Code


@dataclass
class Class:
    """A class with the kinds of its variables."""

    name: int
    kinds: list
    methods: list
    body: Code

    def method(self, name):
        return next((it for it in self.methods if it.name == name), None)


@dataclass
class File:
    """The list of names and strings, each as bytes, and the classes."""

    names: list
    classes: list

    def named(self, name):
        return next((it for it in self.classes if it.name == name), None)


# ---- bytes


def bytes_of(file):
    """The bytes of a file."""
    found = bytearray(HEAD)

    def number(it):
        found.extend(it.to_bytes(4, "big"))

    def each(put, items):
        number(len(items))
        for it in items:
            put(it)

    def text(it):
        number(len(it))
        found.extend(it)

    def kind(it):
        found.append({"Int": 1, "Bool": 2}.get(it, 3))
        if it not in ("Int", "Bool"):
            number(it)

    def option(put, it):
        found.append(it is not None)
        if it is not None:
            put(it)

    def names(its):
        each(number, its)

    def way(it):
        option(names, it.names)
        number(it.at)

    put_field = {
        "integer": lambda it: found.extend((it % 2**64).to_bytes(8, "big")),
        "truth": found.append,
        "operator": lambda it: found.append(OPERATORS.index(it) + 1),
        "methods": names,
        "alternatives": lambda its: each(way, its),
    }

    def step(it):
        found.append(WORDS.index(it.word) + 1)
        for form, value in zip(INSTRUCTIONS[it.word], it.fields):
            put_field.get(form, number)(value)

    def code(it):
        number(it.words)
        each(step, it.steps)

    def method(it):
        number(it.name)
        number(it.parameters)
        each(kind, it.kinds)
        option(kind, it.result)
        code(it.code)

    def one_class(it):
        number(it.name)
        each(kind, it.kinds)
        each(method, it.methods)
        code(it.body)

    each(text, file.names)
    each(one_class, file.classes)
    return bytes(found)


class BadByte(Exception):
    """The place of a byte that cannot be there, or of the end of a file that ends too early."""


class Reader:
    """Reads the parts of a file, one after another."""

    def __init__(self, data):
        self.data, self.at = data, 0

    def byte(self, least=0, most=255):
        if self.at == len(self.data) or not least <= self.data[self.at] <= most:
            raise BadByte(self.at)
        self.at += 1
        return self.data[self.at - 1]

    def some(self, size):
        """So many bytes of any value."""
        if len(self.data) - self.at < size:
            raise BadByte(len(self.data))
        self.at += size
        return self.data[self.at - size : self.at]

    def number(self, size=4):
        return int.from_bytes(self.some(size), "big")

    def text(self):
        return self.some(self.number())

    def each(self, part):
        return [part() for _ in range(self.number())]

    def option(self, part):
        return part() if self.byte(0, 1) else None

    def kind(self):
        byte = self.byte(1, 3)
        return self.number() if byte == 3 else ("Int", "Bool")[byte - 1]

    def names(self):
        return self.each(self.number)

    def field(self, form):
        if form == "integer":
            number = self.number(8)
            return number - 2**64 if number >= 2**63 else number
        if form == "truth":
            return self.byte(0, 1) == 1
        if form == "operator":
            return OPERATORS[self.byte(1, len(OPERATORS)) - 1]
        if form == "methods":
            return self.names()
        if form == "alternatives":
            return self.each(lambda: Way(self.option(self.names), self.number()))
        return self.number()

    def step(self):
        word = WORDS[self.byte(1, len(WORDS)) - 1]
        return Step(word, [self.field(form) for form in INSTRUCTIONS[word]])

    def code(self):
        return Code(self.number(), self.each(self.step))

    def method(self):
        return Method(self.number(), self.number(), self.each(self.kind), self.option(self.kind), self.code())

    def one_class(self):
        return Class(self.number(), self.each(self.kind), self.each(self.method), self.code())

    def file(self):
        for byte in HEAD:
            self.byte(byte, byte)
        file = File(self.each(self.text), self.each(self.one_class))
        if self.at < len(self.data):
            raise BadByte(self.at)
        return file


# ---- the verifier


class Refused(Exception):
    """A rule that is broken."""


def is_string(text):
    return len(text) <= 256 and all(32 <= byte <= 126 and byte != 34 for byte in text)


class Frame:
    """What a code is verified against: its file and class, the kinds of parameters and locals, and the sort of its value. A body has none."""

    def __init__(self, file, own, kinds, value):
        self.file, self.own, self.kinds, self.value = file, own, kinds, value

    def is_there(self, form, value, size):
        """Whether what a field names exists, in a code of this size."""
        if form == "place":
            return value < size
        if form == "variable":
            return value < len(self.own.kinds)
        if form == "local":
            return value < len(self.kinds)
        if form == "method":
            return self.own.method(value) is not None
        if form == "class":
            return self.file.named(value) is not None
        if form == "name":
            return value < len(self.file.names)
        if form == "count":
            return value <= 8
        if form == "string":
            return value < len(self.file.names) and is_string(self.file.names[value])
        if form == "methods":
            return all(self.own.method(name) for name in value)
        if form == "alternatives":
            return all(way.at < size and all(self.own.method(name) for name in way.names or []) for way in value)
        return True

    def is_proper(self, steps):
        """Whether all that the instructions name exists, and those that end a body or a method are where they may be."""
        last, others = ("Halt", {"Ret", "Post"}) if self.value is None else ("Ret", {"Halt"})
        if not steps or steps[-1].word != last:
            return False
        return all(
            step.word not in others and all(self.is_there(form, value, len(steps)) for form, value in zip(INSTRUCTIONS[step.word], step.fields))
            for step in steps
        )

    def after(self, step, stack):
        """The stack after an instruction on this one, as a list."""
        word, fields, left = step.word, step.fields, list(stack)

        def take(*sorts):
            """Takes operands of these sorts, the last from the top."""
            for sort in reversed(sorts):
                if not left or left.pop() not in (sort, "nil"):
                    raise Refused

        def take_any(*besides):
            if not left or left[-1] in besides:
                raise Refused
            return left.pop()

        def operate(operator):
            if operator in ("==", "!="):
                one, other = take_any("nothing"), take_any("nothing")
                if one != other and "nil" not in (one, other):
                    raise Refused
            elif operator in ("and", "or", "not"):
                take(*["Bool"] * (1 if operator == "not" else 2))
            else:
                take(*["Int"] * (1 if operator == "neg" else 2))
            left.append("Int" if operator in ("+", "-", "*", "/", "%", "neg") else "Bool")

        def take_message(name, count):
            """Takes the arguments of a message, and below them its destination. Gives the method."""
            if len(left) <= count:
                raise Refused
            receiver = self.file.named(left[-count - 1])
            method = receiver and receiver.method(name)
            if not method or method.parameters != count:
                raise Refused
            take(*method.kinds[:count])
            left.pop()
            return method

        def result(method):
            left.append("nothing" if method.result is None else method.result)

        if word in ("PushInt", "PushBool", "PushNil"):
            left.append({"PushInt": "Int", "PushBool": "Bool", "PushNil": "nil"}[word])
        elif word == "LoadI":
            left.append(self.own.kinds[fields[0]])
        elif word == "LoadT":
            left.append(self.kinds[fields[0]])
        elif word == "SelfRef":
            left.append(self.own.name)
        elif word == "StoreI":
            take(self.own.kinds[fields[0]])
        elif word == "StoreT":
            take(self.kinds[fields[0]])
        elif word == "Oper":
            operate(fields[0])
        elif word == "Pop":
            take_any()
        elif word == "Branch":
            take("Bool")
        elif word == "Call":
            method = self.own.method(fields[0])
            take(*method.kinds[: method.parameters])
            result(method)
        elif word in ("Ret", "Post"):
            if len(left) != 1 or left[0] not in (self.value, "nil"):
                raise Refused
        elif word == "New":
            left.append(fields[0])
        elif word == "Send":
            result(take_message(*fields))
        elif word == "Async":
            take_message(*fields)
        elif word == "Write":
            take_any("nothing")
        elif word == "Select":
            take(*["Bool"] * len(fields[0]))
        return left

    def stacks(self, steps):
        """The stack of each place that is reached, from the first one without operands."""
        found, more = {0: []}, [0]
        while more:
            at = more.pop()
            if len(found[at]) > MOST_OPERANDS:
                raise Refused
            left = self.after(steps[at], found[at])
            for place in nexts(at, steps[at]):
                if place not in found:
                    found[place] = left
                    more.append(place)
                elif found[place] != left:
                    raise Refused
        return found

    def size(self, steps):
        """The size of the frame of these instructions."""
        return len(self.kinds) + max(map(len, self.stacks(steps).values()))

    def accepts(self, code):
        try:
            return self.is_proper(code.steps) and not has_silent_cycle(code.steps) and self.size(code.steps) == code.words
        except Refused:
            return False


def nexts(at, step):
    """The places that can follow this one."""
    if step.word in ("Ret", "Halt"):
        return []
    if step.word == "Jump":
        return step.fields
    if step.word == "Branch":
        return [at + 1, *step.fields]
    if step.word == "Select":
        return [way.at for way in step.fields[0]]
    return [at + 1]


def has_silent_cycle(steps):
    for start in range(len(steps)):
        at, count = start, 0
        while at < len(steps) and steps[at].word in SILENT:
            (at,) = nexts(at, steps[at])
            count += 1
            if count > len(steps):
                return True
    return False


def value_of(method):
    """The sort of the value with which a method ends."""
    return "nil" if method.result is None else method.result


def frames(file, own):
    """The frames of a class with their codes: those of its methods, and that of its body."""
    for method in own.methods:
        yield Frame(file, own, method.kinds, value_of(method)), method.code
    yield Frame(file, own, [], None), own.body


def is_heading(file, place):
    """Whether the declarations of a class keep the rules."""
    own = file.classes[place]

    def is_name_at(number):
        return number < len(file.names) and is_name(file.names[number].decode("latin-1"))

    def are_kinds(kinds):
        return all(kind in ("Int", "Bool") or file.named(kind) for kind in kinds)

    def is_method(method):
        return (
            is_name_at(method.name)
            and method.parameters <= min(8, len(method.kinds))
            and len(method.kinds) <= 32
            and are_kinds(method.kinds)
            and (method.result is None or are_kinds([method.result]))
        )

    return (
        place < 256
        and is_name_at(own.name)
        and file.named(own.name) is own
        and len(own.kinds) <= 64
        and are_kinds(own.kinds)
        and len(own.methods) <= 64
        and all(map(is_method, own.methods))
        and all(own.method(method.name) is method for method in own.methods)
    )


def verdict(data):
    """The fault of a file that is told, or 'good'; and the file, where its bytes are one."""
    if len(data) > MOST_BYTES:
        return "TooLong", None
    try:
        file = Reader(data).file()
    except BadByte as at:
        return f"BadBytes at byte {at}", None
    places = {}
    for place, name in enumerate(file.names):
        if places.setdefault(name, place) != place:
            return f"NameTwice {place}", file
    for place in range(max(1, len(file.classes))):
        if not file.classes or not is_heading(file, place):
            return f"Header {place}", file
    for place, own in enumerate(file.classes):
        for number, (frame, code) in enumerate(frames(file, own)):
            if not frame.accepts(code):
                return f"Code {place} {number}", file
    return "good", file


# ---- the listing


def listing(file):
    """The text that `pool code` prints of the program of a file."""

    def name(number):
        return file.names[number].decode("latin-1")

    def shown(form, value):
        if form == "truth":
            return str(value).lower()
        if form in ("method", "class", "name"):
            return name(value)
        if form == "string":
            return f'"{name(value)}"'
        if form == "methods":
            return " ".join(map(name, value))
        if form == "alternatives":
            return " ".join(f"{','.join(map(name, way.names or []))}@{way.at}" for way in value)
        return str(value)

    def lines(head, code):
        yield f"{head} {code.words}"
        for at, step in enumerate(code.steps):
            yield " ".join([str(at), step.word, *map(shown, INSTRUCTIONS[step.word], step.fields)])

    found = []
    for own in file.classes:
        found.append(f"class {name(own.name)} {len(own.kinds)}")
        for method in own.methods:
            found += lines(f"method {name(method.name)} {len(method.kinds)}", method.code)
        found += lines("body", own.body)
    return "".join(line + "\n" for line in found)


# ---- drawn files

# Texts of the list of names. The first are names of the language.
NAMES = [b"A", b"_", b"Zz9", b"m", b"by", b"put", b"pool", b"Q_1", b"idle", b"x", b"long_" * 12 + b"long", b"__", b"Main"]
OTHERS = [b"", b"9x", b"class", b"a sentence, with signs: # ! %", b"\xff\x00", b'say "no"', b"nil"]
INTEGERS = [-(2**63), 2**63 - 1, -1, 0, 1, 2, 3, 0, 1, 2, 3]


def drawn_file(dice):
    """A file that is verified."""
    texts = dice.sample(NAMES + OTHERS, len(NAMES + OTHERS))
    names = [place for place, text in enumerate(texts) if text in NAMES]
    own_names = names[: dice.randint(1, 4)]
    kinds = ["Int", "Bool", *own_names]
    file = File(texts, [drawn_heading(dice, name, names, kinds) for name in own_names])
    for own in file.classes:
        for frame, code in frames(file, own):
            drawn_code(dice, frame, code)
    return file


def drawn_heading(dice, name, names, kinds):
    """A class without instructions. Its methods have consecutive names of the list."""
    first, methods = dice.randrange(4), []
    for method in names[first : first + dice.randrange(4)]:
        parameters = dice.randrange(4)
        result = None if dice.randrange(3) == 0 else dice.choice(kinds)
        methods.append(Method(method, parameters, dice.choices(kinds, k=parameters + dice.randrange(3)), result, Code(0, [])))
    return Class(name, dice.choices(kinds, k=dice.randrange(4)), methods, Code(0, []))


class Coding:
    """The code of a frame as blocks, each of which is reached with a stack of its own. A place in it is the number of a block."""

    def __init__(self, dice, frame):
        self.dice, self.frame = dice, frame
        sorts = ["Int", "Bool", "nil", *(own.name for own in frame.file.classes)]
        self.entries = [[]]
        for _ in range(dice.randrange(7)):
            drawn = dice.choices(sorts, k=dice.randrange(50 if dice.randrange(15) == 0 else 4))
            self.entries.append(dice.choice([drawn, dice.choice(self.entries)]))
        self.entries.append([])
        self.steps, self.stack = [], []

    def add(self, word, *fields):
        """Adds an instruction, if what it names exists and the stack has its operands."""
        step = Step(word, list(fields))
        if all(self.frame.is_there(form, value, len(self.entries)) for form, value in zip(INSTRUCTIONS[word], fields)):
            try:
                left = self.frame.after(step, self.stack)
            except Refused:
                return
            if len(left) <= MOST_OPERANDS:
                self.stack = left
                self.steps.append(step)

    def push(self, sort):
        """Pushes an operand of this sort."""
        for word, kinds in ("LoadI", self.frame.own.kinds), ("LoadT", self.frame.kinds):
            at = self.dice.randrange(max(1, len(kinds)))
            if kinds[at : at + 1] == [sort]:
                return self.add(word, at)
        if sort == "Int":
            return self.add("PushInt", self.dice.choice(INTEGERS))
        if sort == "Bool":
            return self.add("PushBool", self.dice.random() < 0.5)
        if sort == "nil":
            return self.add("PushNil")
        return self.add("SelfRef") if sort == self.frame.own.name and self.dice.random() < 0.5 else self.add("New", sort)

    def add_call(self):
        """Adds a local call, a call or a send, with its operands."""
        dice, own = self.dice, self.dice.choice(self.frame.file.classes)
        if not own.methods:
            return
        method = dice.choice(own.methods)
        is_local = own is self.frame.own and dice.randrange(3) == 0
        if not is_local:
            self.push(own.name)
        for kind in method.kinds[: method.parameters]:
            self.push("nil" if dice.randrange(5) == 0 else kind)
        if is_local:
            self.add("Call", method.name)
        else:
            self.add(dice.choice(["Send", "Async"]), method.name, method.parameters)

    def answered(self):
        """Names of methods of the class."""
        methods = self.frame.own.methods
        return [self.dice.choice(methods).name for _ in range(self.dice.randrange(4) if methods else 0)]

    def add_any(self):
        """Adds an instruction of any kind but the ends of a block."""
        dice = self.dice
        kind = dice.randrange(22)
        if kind < 2:
            self.add("PushInt", dice.choice(INTEGERS))
        elif kind == 2:
            self.add("PushBool", dice.random() < 0.5)
        elif kind < 10:
            word = ["PushNil", "LoadI", "LoadI", "LoadT", "SelfRef", "StoreI", "StoreI"][kind - 3]
            self.add(word, *[dice.randrange(4) for _ in INSTRUCTIONS[word]])
        elif kind == 10:
            self.add("StoreT", dice.randrange(6))
        elif kind < 13:
            self.add("Oper", dice.choice(OPERATORS))
        elif kind < 16:
            word = ["Pop", "Write", "Post"][kind - 13]
            if word != "Post" or self.frame.value is not None:
                self.add(word)
        elif kind == 16:
            self.add("Answer", self.answered())
        elif kind == 17:
            self.add("WriteText", dice.randrange(len(self.frame.file.names)))
        else:
            self.add_call()

    def fit(self, block):
        """Pops and pushes operands, until the stack is that of a block."""
        wanted, same = self.entries[block], 0
        while same < min(len(wanted), len(self.stack)) and wanted[same] == self.stack[same]:
            same += 1
        for _ in self.stack[same:]:
            self.add("Pop")
        for sort in wanted[same:]:
            self.push(sort)

    def alike(self, block):
        """A block that is reached with the same stack as this one."""
        return self.dice.choice([other for other, stack in enumerate(self.entries) if stack == self.entries[block]])

    def leave(self):
        """Ends the code."""
        if self.frame.value is None:
            return self.add("Halt")
        self.fit(0)
        self.push(self.frame.value)
        if self.dice.randrange(3) == 0:
            self.add("Post")
        return self.add("Ret")

    def end(self):
        """Ends a block: with the end of the code, a select, a branch or a jump."""
        block, way = self.dice.randrange(len(self.entries)), self.dice.randrange(6)
        if way == 0:
            return self.leave()
        self.fit(block)
        if way == 1:
            ways = []
            for _ in range(self.dice.randint(1, 3)):
                self.push("Bool")
                # (an alternative without an answer list, and one with a list of no names, are two things)
                ways.append(Way(self.answered() or self.dice.choice([None, []]), self.alike(block)))
            return self.add("Select", ways)
        if way < 4:
            self.push("Bool")
            self.add("Branch", self.alike(block))
        return self.add("Jump", block)

    def block(self, number):
        """The instructions of a block. It begins with one that has a transition, so that no cycle is silent."""
        self.steps, self.stack = [], list(self.entries[number])
        self.add("Loop")
        for _ in range(self.dice.randrange(12)):
            self.add_any()
        if number == len(self.entries) - 1:
            self.leave()
        else:
            self.end()
        return self.steps

    def unreached(self):
        """Instructions that are not reached, for which there are no operands. A message in them may have any text as its name."""
        dice, found = self.dice, []
        for _ in range(dice.randrange(3)):
            text, count = dice.randrange(len(self.frame.file.names)), dice.randrange(9)
            found.append(dice.choice([Step("Send", [text, count]), Step("Async", [text, count]), Step("Oper", [dice.choice(OPERATORS)]), Step("Write", [])]))
        return found


def drawn_code(dice, frame, code):
    """Fills in a code. Its blocks stand in a drawn order, but for the first and the last."""
    coding = Coding(dice, frame)
    blocks = [coding.block(number) for number in range(len(coding.entries))]
    last, places = len(blocks) - 1, {}
    for number in [0, *dice.sample(range(1, last), last - 1), last]:
        places[number] = len(code.steps)
        code.steps += blocks[number]
        if number != last:
            code.steps += coding.unreached()
    for step in code.steps:
        if step.word in ("Jump", "Branch"):
            step.fields = [places[step.fields[0]]]
        elif step.word == "Select":
            for way in step.fields[0]:
                way.at = places[way.at]
    code.words = frame.size(code.steps)


def drawn_placement(dice, file):
    """A placement of a file: at most nine nodes, limits for some of them, and places for half of the classes."""
    width, height = dice.randint(1, 3), dice.randint(1, 3)
    lines = [f"mesh {width} {height}"]
    lines += [f"{word} {dice.randint(1, 40)}" for word in ("objects", "frames", "cells") if dice.randrange(6) == 0]
    for own in file.classes:
        if dice.random() < 0.5:
            place = dice.choice(["spread", f"at {dice.randrange(width * height)}"])
            lines.append(f"place {file.names[own.name].decode()} {place}")
    return "".join(line + "\n" for line in lines)


def drawn_schedule(dice):
    """A schedule of turns of node 0 and rounds, and at last more rounds. One of four is for lossy wires."""
    lines = [f"quantum {dice.randint(1, 30)}"] + ["wires lossy"] * (dice.randrange(4) == 0)
    for _ in range(dice.randrange(10)):
        lines += [f"turn 0 {dice.randint(1, 5)}", f"round {dice.randint(1, 3)}"]
    return "".join(line + "\n" for line in [*lines, f"round {dice.randint(1, 60)}"])


# ---- records


def effect_of(line):
    """The words of an event line behind its event, or none."""
    words = words_of(line)[1:]
    return words[2:] if words[:1] == ["turn"] else words[4:] if words[1:2] == ["ack"] else words[3:]


class Shown:
    """What the lines of a record show, one after another, of a run of a file: whether each has a form, a right number and a right request
    number, and whether each value has the sort that the file declares for it."""

    def __init__(self, file):
        self.file, self.last, self.faults = file, 0, 0
        self.numbers = {text.decode("latin-1"): number for number, text in enumerate(file.names)}
        # The classes of the objects, the latest post of each, and the method in which a caller is served, by its receiver.
        self.classes, self.posts, self.serving = {}, {}, {}

    def class_of(self, name):
        """The class of an object. One that the record did not create is the root, of the last class."""
        return self.classes.get(name, self.file.classes[-1])

    def is_of(self, word, sort):
        if word == "nil":
            return True
        if word in ("true", "false"):
            return sort == "Bool"
        return sort == (self.class_of(word).name if "." in word else "Int")

    def method(self, receiver, name):
        return self.class_of(receiver).method(self.numbers.get(name))

    def are_taken(self, receiver, name, values):
        """Whether the receiver has the method, and takes these arguments."""
        method = self.method(receiver, name)
        return bool(method) and len(values) == method.parameters and all(map(self.is_of, values, method.kinds))

    def is_created(self, name, class_name):
        """Notes the class of an object, if there is one with this name."""
        found = self.file.named(self.numbers.get(class_name))
        if name and found:
            self.classes[name] = found
        return bool(found)

    def is_returned(self, receiver, caller, value):
        """Whether a method of the receiver serves the caller, and has such a result. The call is then over."""
        methods = self.serving.get((caller, receiver))
        return bool(methods) and self.is_of(value, methods.pop().result)

    def shows(self, words):
        """Whether the values of an effect have their sorts."""
        effect, names = words[0], words[1:]
        if effect == "post":
            effect, names = " ".join(words[:2]), words[2:]
            return self.is_created(None, names[1]) if effect == "post create" else self.are_taken(names[1], names[2], names[3:])
        if effect == "new":
            return self.is_created(names[1], names[2])
        if effect in ("answer", "take"):
            if effect == "answer":
                self.serving.setdefault((names[1], names[0]), []).append(self.method(names[0], names[2]))
            return self.are_taken(names[0], names[2], names[3:])
        if effect == "send":
            return self.are_taken(names[1], names[2], names[3:])
        if effect == "return":
            return self.is_returned(*names)
        self.faults += effect == "fault"
        return True

    def refuses(self, line):
        """Why a line before the end cannot be there, or None."""
        number, effect = None, effect_of(line)
        # (`by` is also a name, so that only the effect says whether a request number is at the end)
        is_asked = effect[:1] in (["answer"], ["return"], ["created"], ["result"]) or (effect[:1] == ["new"] and " link " in line)
        if is_asked:
            line, _, number = line.rpartition(" by ")
            effect = effect_of(line)
        if number_in(line) != self.last + 1:
            return "has no form or another number"
        self.last += 1
        if is_asked:
            # (the object whose request is answered)
            asker = effect[2] if effect[0] in ("answer", "return") else effect[1]
            if number != str(self.posts.get(asker, 0)):
                return f"answers the request {number}"
        if effect[0] == "post":
            self.posts[effect[2]] = self.last
        return None if self.shows(effect) else "shows a value of another sort"


def status_shown(file, record):
    """The status of the run of a file with this record, and None; or None and what is wrong with the record."""
    lines, shown = record.split("\n"), Shown(file)
    if lines[0] != "record 2" or lines[-1] or len(lines) < 3:
        return None, "the record has no form"
    for line in lines[1:-2]:
        why = shown.refuses(line)
        if why:
            return None, f"the line {line!r} {why}"
    end = lines[-2]
    if not end.startswith("end ") or number_in(end) != shown.last:
        return None, f"the end is {end!r}"
    return {"quiet": int(shown.faults > 0), "schedule": 3, "full": 4}[end.split(" ")[1]], None
