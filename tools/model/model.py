"""Configurations of the transition relation, one transition at a time, and the text that `explore watch` writes of them.

This is an independent reading of docs/REFERENCE.md, in other words than the definitions of the repository have: a term is rewritten as a
tree. Beside the trees of parser.py there are: ('own', method, store, body, value, post), an own call under way; ('waits', P, m), a call
that is being answered; and the statement ('serve', method, caller or None, store, body, value, post), a method under way for a caller or
for nobody. A store is a list of [name, value], the innermost first.
"""
import re

from parser import LEVELS, parse

LIMIT = 2**63
# A word of a line; a string is one word, with its spaces.
WORD = re.compile(r'"[^"]*"|[^ ]+')


class Stop(Exception):
    """A transition that is not possible."""


def name_of(number):
    return f"{number >> 16}.{number & 65535}"


def number_of(name):
    node, slot = name.split(".")
    return int(node) * 65536 + int(slot)


def shown(value):
    if isinstance(value, tuple):
        return name_of(value[1])
    return {None: "nil", True: "true", False: "false"}[value] if value is None or isinstance(value, bool) else str(value)


def is_value(expression):
    return expression[0] == "value"


def alike(one, other):
    return type(one) is type(other) and one == other


def infix(operator, one, other):
    """The value of an operation, or the name of its error."""
    if operator in ("==", "!="):
        return ("value", alike(one, other) == (operator == "=="))
    if one is None or other is None:
        return "NilOperand"
    if operator in ("/", "%") and other == 0:
        return "ZeroDivisor"
    if operator in ("and", "or"):
        return ("value", one and other if operator == "and" else one or other)
    if operator in ("<", "<=", ">", ">="):
        return ("value", {"<": one < other, "<=": one <= other, ">": one > other, ">=": one >= other}[operator])
    if operator in ("/", "%"):
        quotient = abs(one) // abs(other) * (1 if (one < 0) == (other < 0) else -1)
        result = quotient if operator == "/" else one - other * quotient
    else:
        result = {"+": one + other, "-": one - other, "*": one * other}[operator]
    return ("value", result) if -LIMIT <= result < LIMIT else "Overflow"


def prefix(operator, value):
    if value is None:
        return "NilOperand"
    if operator == "not":
        return ("value", not value)
    return ("value", -value) if -value < LIMIT else "Overflow"


def first_open(parts):
    """The place of the first part that is no value, if there is one."""
    return next((place for place, part in enumerate(parts) if not is_value(part)), None)


def at_redex(expression, methods, change):
    """The expression with its redex changed. `change` is given the redex and the stores around it, the innermost last."""
    kind = expression[0]

    def into(place, part):
        return (*expression[:place], at_redex(part, methods, change), *expression[place + 1 :])

    def into_list(place, parts):
        at = first_open(parts)
        return (*expression[:place], [*parts[:at], at_redex(parts[at], methods, change), *parts[at + 1 :]], *expression[place + 1 :])

    if kind == "prefix" and not is_value(expression[2]):
        return into(2, expression[2])
    if kind == "infix":
        for place in (2, 3):
            if not is_value(expression[place]):
                return into(place, expression[place])
    if kind == "call" and first_open(expression[2]) is not None:
        return into_list(2, expression[2])
    if kind == "send":
        if not is_value(expression[1]):
            return into(1, expression[1])
        if first_open(expression[3]) is not None:
            return into_list(3, expression[3])
    if kind == "own":
        _, method, store, body, value, post = expression
        inside = [*methods, store]
        if body:
            return ("own", method, store, at_first(body, inside, change), value, post)
        if not is_value(value):
            return ("own", method, store, body, at_redex(value, inside, change), post)
        if post:
            return ("own", method, store, body, value, at_first(post, inside, change))
    return change(expression, methods)


def at_first(statements, methods, change):
    """The statements with the redex of the first of them changed. A statement may become several, or none."""
    first, rest = statements[0], statements[1:]
    kind = first[0]

    def with_part(place, part):
        return [(*first[:place], part, *first[place + 1 :]), *rest]

    places = {"assign": 2, "write": 1, "do": 1, "async": 1, "if": 1}
    if kind in places and not is_value(first[places[kind]]):
        place = places[kind]
        return with_part(place, at_redex(first[place], methods, change))
    if kind == "async":
        at = first_open(first[3])
        if at is not None:
            return with_part(3, [*first[3][:at], at_redex(first[3][at], methods, change), *first[3][at + 1 :]])
    if kind == "select":
        at = first_open([guard for guard, _, _ in first[1]])
        if at is not None:
            guard, names, work = first[1][at]
            return with_part(1, [*first[1][:at], (at_redex(guard, methods, change), names, work), *first[1][at + 1 :]])
    if kind == "serve":
        _, method, caller, store, body, value, post = first
        inside = [*methods, store]
        if body:
            return with_part(4, at_first(body, inside, change))
        if not is_value(value):
            return with_part(5, at_redex(value, inside, change))
        if caller is None and post:
            return with_part(6, at_first(post, inside, change))
    return [*change(first, methods), *rest]


class Found(Exception):
    """Ends the way to a redex, which it holds with the stores around it."""


def redex_of(object_):
    """The redex of an object, or None where its body is done."""

    def found(redex, methods):
        raise Found(redex)

    try:
        if object_.rest:
            at_first(object_.rest, [], found)
    except Found as way:
        return way.args[0]
    return None


class Object:
    def __init__(self, made):
        self.made, self.variables, self.rest, self.error = made, [[name, None] for name in made.variables], list(made.body), None


class Configuration:
    def __init__(self, classes, root):
        self.classes = {made.name: made for made in reversed(classes)}
        self.objects, self.mail = {root: Object(classes[-1])}, {}

    # ---- what an object does next

    def action(self, name):
        """What the object does next, as words."""
        object_ = self.objects[name]
        if object_.error:
            return ["faulted", object_.error]
        redex = redex_of(object_)
        if not redex:
            return ["finished"]
        kind = redex[0]
        if kind == "new":
            return ["new", redex[1]]
        if kind == "waits":
            return ["waits", name_of(redex[1]), redex[2]]
        if kind in ("send", "async"):
            if redex[1][1] is None:
                return ["fault", "NilDestination"]
            return [kind, shown(redex[1][1]), redex[2], *(shown(part[1]) for part in redex[3])]
        if kind == "write":
            return ["write", shown(redex[1][1])]
        if kind == "string":
            return ["write", redex[1]]
        if kind == "answer":
            return ["answer", *redex[1]]
        if kind == "select":
            guards = [guard[1] for guard, _, _ in redex[1]]
            return ["fault", "NilOperand"] if None in guards else ["select"] if True in guards else ["fault", "NoOpenGuard"]
        if kind == "serve" and redex[2] is not None:
            return ["return", name_of(redex[2]), shown(redex[5][1])]
        error = self.error_of(redex)
        return ["fault", error] if error else ["local"]

    @staticmethod
    def error_of(redex):
        """The error that the redex meets, if it is an operation or a condition."""
        kind = redex[0]
        result = None
        if kind == "infix":
            result = infix(redex[1], redex[2][1], redex[3][1])
        elif kind == "prefix":
            result = prefix(redex[1], redex[2][1])
        elif kind == "if" and redex[1][1] is None:
            result = "NilOperand"
        return result if isinstance(result, str) else None

    # ---- the transitions

    def change(self, name, change):
        object_ = self.objects[name]
        object_.rest = at_first(object_.rest, [], change)

    def want(self, name, *words):
        """The words of the next action, which must begin with these."""
        if name not in self.objects:
            raise Stop
        found = self.action(name)
        if found[: len(words)] != list(words):
            raise Stop
        return found

    def frame(self, name, method, values):
        made = self.objects[name].made.methods[method]
        if len(values) != len(made.parameters):
            raise Stop
        return made, [[name, value] for name, value in zip(made.parameters, values)] + [[name, None] for name in made.locals]

    def local(self, name):
        self.want(name, "local")
        object_ = self.objects[name]

        def cell(methods, variable):
            for store in [*methods[-1:], object_.variables]:
                for found in store:
                    if found[0] == variable:
                        return found
            raise Stop

        def made(redex, methods):
            kind = redex[0]
            if kind == "self":
                return ("value", ("object", name))
            if kind == "variable":
                return ("value", cell(methods, redex[1])[1])
            if kind == "infix":
                return infix(redex[1], redex[2][1], redex[3][1])
            if kind == "prefix":
                return prefix(redex[1], redex[2][1])
            if kind == "call":
                method, store = self.frame(name, redex[1], [part[1] for part in redex[2]])
                return ("own", method.name, store, list(method.body), method.value, list(method.post))
            if kind == "own":
                return redex[4]
            if kind == "assign":
                cell(methods, redex[1])[1] = redex[2][1]
                return []
            if kind == "if":
                return redex[2] if redex[1][1] else redex[3]
            if kind == "while":
                return [("if", redex[1], [*redex[2], redex], [])]
            if kind in ("do", "serve"):
                return []
            raise Stop

        self.change(name, made)

    def serve(self, name, method, caller, values):
        """The answer or select of the object takes a message."""
        words = self.want(name)
        made, store = self.frame(name, method, values)
        served = ("serve", method, caller, store, list(made.body), made.value, list(made.post))

        def taken(redex, methods):
            if redex[0] == "answer":
                if method not in redex[1]:
                    raise Stop
                return [served]
            for guard, names, work in redex[1]:
                if guard[1] is True and names is not None and method in names:
                    return [served, *work]
            raise Stop

        if words[0] not in ("answer", "select"):
            raise Stop
        self.change(name, taken)

    def offered(self, name):
        """The methods that the object accepts now."""
        words = self.action(name)
        if words[0] == "answer":
            return set(words[1:])
        if words[0] == "select":
            return {method for guard, names, _ in redex_of(self.objects[name])[1] if guard[1] is True for method in names or []}
        return set()

    def offer(self, name, method):
        """The methods that the object accepts together with this one: those of its answer, or of the first open alternative that names it."""
        words = self.action(name) if name in self.objects else [""]
        if words[0] == "answer":
            return set(words[1:])
        if words[0] == "select":
            return next((set(names) for guard, names, _ in redex_of(self.objects[name])[1] if guard[1] is True and method in (names or [])), set())
        return set()

    def make(self, words):
        """Makes the transition of these words of a record, once. Raises Stop where it is not possible."""
        kind, name = words[0], number_of(words[1])
        if kind == "local":
            self.local(name)
        elif kind == "new":
            other = number_of(words[2])
            self.want(name, "new", words[3])
            if other in self.objects or len(self.want(name)) != 2:
                raise Stop
            self.objects[other] = Object(self.classes[words[3]])
            self.change(name, lambda redex, methods: ("value", ("object", other)))
        elif kind == "write":
            self.want(name, "write", *words[2:])
            self.change(name, lambda redex, methods: [])
        elif kind == "send":
            if number_of(words[2]) not in self.objects or self.want(name) != ["async", *words[2:]]:
                raise Stop
            self.mail.setdefault((name, number_of(words[2])), []).append((words[3], words[4:]))
            self.change(name, lambda redex, methods: [])
        elif kind == "answer":
            other = number_of(words[2])
            if self.want(other) != ["send", words[1], *words[3:]]:
                raise Stop
            values = [part[1] for part in redex_of(self.objects[other])[3]]
            # (a call does not overtake a message of the same pair that is offered)
            if any(method in self.offer(name, words[3]) for method, _ in self.mail.get((other, name), [])):
                raise Stop
            self.serve(name, words[3], other, values)
            self.change(other, lambda redex, methods: ("waits", name, words[3]))
        elif kind == "take":
            other = number_of(words[2])
            waiting = self.mail.get((other, name), [])
            offered = self.offer(name, words[3])
            place = next((at for at, (method, _) in enumerate(waiting) if method in offered), None)
            if place is None or waiting[place] != (words[3], words[4:]):
                raise Stop
            self.serve(name, words[3], None, [value_of(word) for word in words[4:]])
            del waiting[place]
        elif kind == "return":
            other = number_of(words[2])
            self.want(name, "return", words[2], words[3])
            self.want(other, "waits", words[1])
            value = redex_of(self.objects[name])[5]
            self.change(name, lambda redex, methods: [(*redex[:2], None, *redex[3:])] if redex[6] else [])
            self.change(other, lambda redex, methods: value)
        elif kind == "pick":
            self.want(name, "select")
            place = int(words[2]) - 1
            alternatives = redex_of(self.objects[name])[1]
            if place >= len(alternatives) or alternatives[place][0][1] is not True or alternatives[place][1] is not None:
                raise Stop
            self.change(name, lambda redex, methods: alternatives[place][2])
        elif kind == "fault":
            self.want(name, "fault", words[2])
            self.objects[name].error = words[2]
        else:
            raise Stop

    # ---- who can go on, and who waits

    def can_move(self, name):
        """Whether a transition of the object is possible."""
        words = self.action(name)
        if words[0] in ("local", "new", "async", "write", "fault", "return"):
            return True
        if words[0] == "select" and any(guard[1] is True and names is None for guard, names, _ in redex_of(self.objects[name])[1]):
            return True
        offered = self.offered(name)
        for other in self.objects:
            waiting = {method for method, _ in self.mail.get((other, name), [])} & offered
            called = self.action(other)
            if waiting or called[0] == "send" and called[1] == name_of(name) and called[2] in offered:
                return True
        return False

    def calls(self):
        """Of each object that is in a call, the object and the method that it calls."""
        found = {}
        for name in sorted(self.objects):
            words = self.action(name)
            if words[0] in ("send", "waits"):
                found[name] = (number_of(words[1]), words[2])
        return found


def value_of(word):
    if word in ("nil", "true", "false"):
        return {"nil": None, "true": True, "false": False}[word]
    return ("object", number_of(word)) if "." in word else int(word)


TRANSITIONS = {"local", "new", "write", "send", "answer", "take", "return", "pick", "fault"}


def transition_of(line):
    """The words of the transition that an event line shows, and how often it is made; None where it shows none."""
    words = WORD.findall(line)[1:]
    # (an event: of a node, of a link or a wire, or what a lossy wire does with a frame or an acknowledgement)
    at = 2 if words[0] == "turn" else 4 if words[1] == "ack" else 3
    words = words[at:]
    if not words or words[0] not in TRANSITIONS:
        return None
    if words[0] == "local":
        return words[:2], int(words[2])
    return words, 1


# ---- the text of a configuration

LEVEL_OF = {operator: level for level, operators in enumerate(LEVELS) for operator in operators}
PREFIX, POSTFIX = len(LEVELS), len(LEVELS) + 1
STATEMENTS = {"assign", "write", "string", "do", "async", "if", "while", "answer", "select", "serve"}


def listed(parts):
    words = ["("]
    for place, part in enumerate(parts):
        words += [","] * (place > 0) + part
    return words + [")"]


class Writer:
    """Writes terms as words, and keeps the methods under way that it meets."""

    def __init__(self):
        self.under_way = []

    def method(self, part, is_marked):
        self.under_way.append((part, is_marked))
        return ["{", part[1], "}"]

    def expression(self, part, level=0):
        kind = part[0]
        if kind == "marked":
            return self.method(part[1], True) if part[1][0] == "own" else ["[", *self.expression(part[1]), "]"]
        if kind == "own":
            return self.method(part, False)
        if kind == "value":
            return [shown(part[1])]
        if kind in ("self", "variable"):
            return [part[-1]]
        if kind == "new":
            return ["new", part[1]]
        if kind == "waits":
            return ["waits", name_of(part[1]), part[2]]
        if kind == "call":
            return [part[1], *listed([self.expression(it) for it in part[2]])]
        if kind == "send":
            own, words = POSTFIX, [*self.expression(part[1], POSTFIX), "!", part[2], *listed([self.expression(it) for it in part[3]])]
        elif kind == "prefix":
            own, words = PREFIX, [part[1], *self.expression(part[2], PREFIX)]
        else:
            own = LEVEL_OF[part[1]]
            # (comparisons do not chain)
            words = [*self.expression(part[2], own + (own == 2)), part[1], *self.expression(part[3], own + 1)]
        return words if own >= level else ["(", *words, ")"]

    def statements(self, parts):
        words = []
        for place, part in enumerate(parts):
            words += [";"] * (place > 0) + self.statement(part)
        return words

    def statement(self, part):
        kind = part[0]
        if kind == "marked":
            return self.method(part[1], True) if part[1][0] == "serve" else ["[", *self.statement(part[1]), "]"]
        if kind == "serve":
            return self.method(part, False)
        if kind == "assign":
            return [part[1], ":=", *self.expression(part[2])]
        if kind == "write":
            return ["write", *self.expression(part[1])]
        if kind == "string":
            return ["write", part[1]]
        if kind == "do":
            return self.expression(part[1])
        if kind == "async":
            return [*self.expression(part[1], POSTFIX), "!!", part[2], *listed([self.expression(it) for it in part[3]])]
        if kind == "if":
            other = ["else", *self.statements(part[3])] if part[3] else []
            return ["if", *self.expression(part[1]), "then", *self.statements(part[2]), *other, "fi"]
        if kind == "while":
            return ["while", *self.expression(part[1]), "do", *self.statements(part[2]), "od"]
        if kind == "answer":
            return ["answer", *listed([[name] for name in part[1]])]
        words = ["select"]
        for guard, names, work in part[1]:
            offered = ["answer", *listed([[name] for name in names])] if names is not None else []
            words += ["when", *self.expression(guard), *offered, "then", *self.statements(work)]
        return [*words, "end"]


def marked(rest):
    """The statements with their redex marked."""
    if not rest:
        return rest
    return at_first(rest, [], lambda redex, methods: [("marked", redex)] if redex[0] in STATEMENTS else ("marked", redex))


def stored(store):
    return [f"{name}={shown(value)}" for name, value in store]


def block(configuration, name):
    """The lines of an object."""
    object_ = configuration.objects[name]
    own = name_of(name)
    lines = [["object", own, object_.made.name, *stored(object_.variables)], ["at", own, *configuration.action(name)]]
    writer = Writer()
    lines.append(["body", own, ":", *writer.statements(marked(object_.rest))])
    while writer.under_way:
        part, is_marked = writer.under_way.pop()
        if part[0] == "own":
            _, method, store, body, value, post = part
            head = ["own", own, method]
        else:
            _, method, caller, store, body, value, post = part
            head = ["take", own, method] if caller is None else ["serve", own, method, name_of(caller)]
        result = ["result", *writer.expression(value)]
        words = [*writer.statements(body), *(["[", *result, "]"] if is_marked else result)]
        if post:
            words += ["post", *writer.statements(post)]
        lines.append([*head, *stored(store), ":", *words])
    return [" ".join(line) for line in lines]


def mail_line(configuration, pair):
    messages = [word for method, values in configuration.mail.get(pair, []) for word in (":", method, *values)]
    return " ".join(["mail", name_of(pair[0]), name_of(pair[1]), *messages])


def whole(configuration):
    """The lines of the whole configuration."""
    lines = [line for name in sorted(configuration.objects) for line in block(configuration, name)]
    return lines + [mail_line(configuration, pair) for pair in sorted(configuration.mail) if configuration.mail[pair]]


def changed(configuration, words):
    """The lines of what a transition changed."""
    names = [number_of(word) for word in words[1:3] if "." in word and words[0] in ("new", "answer", "return")] or [number_of(words[1])]
    lines = [line for name in names for line in block(configuration, name)]
    if words[0] == "send":
        lines.append(mail_line(configuration, (number_of(words[1]), number_of(words[2]))))
    if words[0] == "take":
        lines.append(mail_line(configuration, (number_of(words[2]), number_of(words[1]))))
    return lines


def verdict_words(configuration, name):
    """The next action of an object, in the words of a verdict."""
    if name not in configuration.objects:
        return ["none"]
    words = configuration.action(name)
    if words[0] in ("answer", "faulted"):
        return words[:1]
    if words[0] == "return":
        return ["return", words[2]]
    return words[:2] if words[0] == "waits" else words


def event_lines(record):
    """The lines of a record in the first form."""
    lines = record.splitlines()
    if lines and lines[0] == "record 2":
        lines = lines[1:]
        # (the number of the request that a line answers stands at its end)
        lines = [" ".join(words[:-2]) if len(words) > 2 and words[-2] == "by" and '"' not in words[-1] else line for line in lines for words in [line.split(" ")]]
    return lines


def root_of(lines):
    for line in lines:
        made = transition_of(line) if line[:1].isdigit() else None
        if made and made[1]:
            return number_of(made[0][1])
    return 0


def follow(program, record):
    """Of each line of the text of `explore watch` a list: the configuration after it, its own lines, and the lines of the whole
    configuration. The last has no configuration."""
    lines = event_lines(record)
    configuration = Configuration(parse(program), root_of(lines))
    yield ["watch", *whole(configuration)], configuration
    quiet = False
    for line in lines:
        if not line[:1].isdigit():
            quiet = line.startswith("end quiet")
            yield [line], configuration
            continue
        made = transition_of(line)
        told = ["event " + line]
        if made:
            words, times = made
            for _ in range(times):
                try:
                    configuration.make(words)
                except Stop:
                    number = line.split(" ")[0]
                    yield told, None
                    yield [" ".join(["no", number, *verdict_words(configuration, number_of(words[1]))])], None
                    return
            told += changed(configuration, words)
        yield told, configuration
    calls = configuration.calls()
    ends = [f"waits {name_of(name)} {configuration.objects[name].made.name} calls {name_of(other)} {method}" for name, (other, method) in calls.items()]
    seen = set()
    for name in calls:
        way, at = [], name
        while at in calls and at not in way:
            way.append(at)
            at = calls[at][0]
        if at == name and name not in seen:
            ends.append(" ".join(["cycle", *map(name_of, way)]))
            seen.update(way)
    moving = next((name for name in sorted(configuration.objects) if configuration.can_move(name)), None) if quiet else None
    yield [*ends, "yes" if moving is None else f"no end {name_of(moving)}"], None
