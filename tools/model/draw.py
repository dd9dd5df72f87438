"""Draws programs without class faults, placements and schedules, from a number."""
import random

NUMBERS = [0, 1, 2, 3, 7, 2**63 - 1]


class Drawn:
    """A program of up to five classes; the last is the root. Each class has one to three methods, of random types."""

    def __init__(self, dice):
        self.dice = dice
        self.classes = [f"C{place}" for place in range(dice.randint(1, 4))] + ["Main"]
        types = ["Int", "Int", "Bool", *self.classes]
        self.methods = {
            name: [
                (f"m{place}_{number}", [dice.choice(types) for _ in range(dice.randint(0, 3))], dice.choice([None, "Int", "Int", "Bool"]))
                for number in range(dice.randint(1, 3))
            ]
            for place, name in enumerate(self.classes)
        }
        self.variables = {name: [(f"v{number}", dice.choice(types)) for number in range(dice.randint(2, 6))] for name in self.classes}

    def text(self):
        return "".join(self.one_class(name) for name in self.classes)

    def one_class(self, name):
        dice, variables = self.dice, dict(self.variables[name])
        lines = [f"class {name}", *(f"var {it} : {type_}" for it, type_ in variables.items()), "var k : Int"]
        for method, types, result in self.methods[name]:
            parameters = [(f"p{place}", type_) for place, type_ in enumerate(types)]
            own = [("t", dice.choice(["Int", "Bool", *self.classes]))] if dice.random() < 0.4 else []
            scope = {**variables, **dict(parameters + own)}
            head = f"method {method}({', '.join(f'{it} : {type_}' for it, type_ in parameters)})" + (f" : {result}" if result else "")
            head += "".join(f" local {it} : {type_}" for it, type_ in own)
            body = self.statements(name, scope, dice.randint(0, 3), 1)
            end = f" result {self.expression(name, scope, result, 2)}" if result else ""
            end += f" post {self.statements(name, scope, dice.randint(0, 3), 1)}" if dice.random() < 0.5 else ""
            lines.append(f"{head} begin {body}{end} end")
        parts = [f"{it} := new {type_}" for it, type_ in variables.items() if name == "Main" and type_ in self.classes[:-1]]
        parts.append(self.statements(name, variables, dice.randint(2, 7), 2))
        if dice.random() < 0.7:
            body = self.statements(name, variables, dice.randint(1, 3), 2, waits=True) or "k := k"
            parts.append(f"k := 0; while k < {dice.randint(1, 4)} do {body}; k := k + 1 od")
        lines.append(f"body {'; '.join(part for part in parts if part)} end\n")
        return "\n".join(lines)

    def statements(self, name, scope, count, depth, waits=False):
        return "; ".join(self.statement(name, scope, depth, waits) for _ in range(count))

    def some_methods(self, name):
        names = [method for method, _, _ in self.methods[name]]
        return ", ".join(self.dice.sample(names, self.dice.randint(1, len(names))))

    def statement(self, name, scope, depth, waits):
        dice = self.dice
        draw = dice.random()
        if draw < (0.4 if waits else 0.12):
            return f"answer({self.some_methods(name)})"
        if draw < 0.5 and depth and dice.random() < 0.3:
            alternatives = []
            for _ in range(dice.randint(1, 3)):
                guard = "true" if dice.random() < 0.6 else self.expression(name, scope, "Bool", 1)
                offered = f" answer({self.some_methods(name)})" if dice.random() < 0.7 else ""
                alternatives.append(f"when {guard}{offered} then {self.statements(name, scope, dice.randint(0, 2), depth - 1)}")
            return f"select {' '.join(alternatives)} end"
        if draw < 0.6:
            variable = dice.choice(list(scope))
            return f"{variable} := {self.expression(name, scope, scope[variable], 2)}"
        if draw < 0.7:
            return f'write "s{dice.randint(0, 9)}"' if dice.random() < 0.2 else f"write {self.expression(name, scope, dice.choice(['Int', 'Bool', *self.classes]), 2)}"
        if draw < 0.78 and depth:
            other = f" else {self.statements(name, scope, dice.randint(1, 2), depth - 1)}" if dice.random() < 0.5 else ""
            return f"if {self.expression(name, scope, 'Bool', 2)} then {self.statements(name, scope, dice.randint(0, 2), depth - 1)}{other} fi"
        others = [(variable, type_) for variable, type_ in scope.items() if type_ in self.classes]
        if others:
            variable, type_ = dice.choice(others)
            method, types, _ = dice.choice(self.methods[type_])
            return f"{variable} {'!!' if dice.random() < 0.6 else '!'} {method}({self.arguments(name, scope, types, 1)})"
        method, types, _ = dice.choice(self.methods[name])
        return f"{method}({self.arguments(name, scope, types, 1)})" if dice.random() < 0.3 else f"write {dice.randint(0, 99)}"

    def arguments(self, name, scope, types, depth):
        return ", ".join(self.expression(name, scope, type_, depth) for type_ in types)

    def expression(self, name, scope, type_, depth):
        dice = self.dice
        variables = [variable for variable, its in scope.items() if its == type_]
        if depth and dice.random() < 0.25:
            called = [(variable, its) for variable, its in scope.items() if its in self.classes] + [(None, name)]
            variable, its = dice.choice(called)
            methods = [(method, types) for method, types, result in self.methods[its] if result == type_]
            if methods:
                method, types = dice.choice(methods)
                return f"{variable + ' ! ' if variable else ''}{method}({self.arguments(name, scope, types, depth - 1)})"
        if variables and dice.random() < 0.5:
            return dice.choice(variables)
        if type_ == "Int":
            if depth and dice.random() < 0.5:
                return f"({self.expression(name, scope, 'Int', depth - 1)} {dice.choice('+-*/%')} {self.expression(name, scope, 'Int', depth - 1)})"
            return f"- {self.expression(name, scope, 'Int', 0)}" if depth and dice.random() < 0.1 else str(dice.choice(NUMBERS))
        if type_ == "Bool":
            draw = dice.random()
            if depth and draw < 0.8:
                kind, operators = ("Int", ["<", "<=", ">", ">=", "==", "!="]) if draw < 0.5 else ("Bool", ["and", "or", "=="])
                if draw >= 0.7:
                    return f"not {self.expression(name, scope, 'Bool', 0)}"
                return f"({self.expression(name, scope, kind, depth - 1)} {dice.choice(operators)} {self.expression(name, scope, kind, depth - 1)})"
            return dice.choice(["true", "false"])
        if type_ == name and dice.random() < 0.5:
            return "self"
        return f"new {type_}" if type_ != "Main" and dice.random() < 0.3 else "nil"


def drawn_placement(dice, classes):
    """A placement of these classes, and the width and height of its mesh."""
    width, height = dice.choice([(1, 1), (2, 1), (2, 2), (3, 1), (3, 2), (1, 3)])
    lines = [f"mesh {width} {height}"]
    for name in classes:
        lines += dice.choice([[f"place {name} spread"], [f"place {name} at {dice.randrange(width * height)}"], [f"place {name} same"], []])
    return "\n".join(lines) + "\n", width, height


def drawn_schedule(dice, width, height, is_lossy):
    """A schedule of such a mesh, which is fair at its end; over lossy wires, if they are asked for."""
    nodes = range(width * height)
    links = [(one, other) for one in nodes for other in nodes if abs(one % width - other % width) + abs(one // width - other // width) == 1]
    lines = [f"quantum {dice.choice([1, 2, 3, 7, 20])}"] + ["wires lossy"] * is_lossy
    moves = ["link"] if not is_lossy else ["link", "send", "send", "ack", "lose", "twice", "late", "lose ack", "twice ack", "late ack"]
    for _ in range(dice.randint(0, 60)):
        if dice.random() < 0.4 or not links:
            lines.append(f"turn {dice.choice(nodes)} {dice.randint(1, 6)}")
        else:
            lines.append("{} {} {}".format(dice.choice(moves), *dice.choice(links)))
    return "\n".join([*lines, f"round {dice.choice([5, 20, 60])}"]) + "\n"


def drawn(seed):
    """The texts of a program, a placement and a schedule."""
    dice = random.Random(seed)
    program = Drawn(dice)
    placement, width, height = drawn_placement(dice, program.classes)
    return program.text(), placement, drawn_schedule(dice, width, height, dice.random() < 0.3)


class Race:
    """A small program with runs that differ: two to four objects write, race for an answer, choose, meet errors, get stuck, or leave messages.
    The methods of all classes have types by their names: a(Int), b() : Int, and c(C) for a class C."""

    def __init__(self, dice):
        self.dice = dice
        self.classes = ["A", "B"][: dice.randint(1, 2)]
        self.others = [dice.choice(self.classes) for _ in range(dice.choice([1, 2, 2, 2, 2, 3]))]
        # (objects of other classes may call the root back)
        self.methods = {**{name: dice.choice(["", "a", "ab", "ab", "ac", "abc"]) for name in self.classes}, "Main": dice.choice(["", "", "a", "b"])}
        self.friends = {**{name: dice.choice([*self.classes, "Main"]) for name in self.classes}, "Main": self.others[0]}

    def text(self):
        return "".join(self.one_class(name) for name in [*self.classes, "Main"])

    def one_class(self, name):
        dice, scope = self.dice, {"v": "Int"}
        if name == "Main":
            scope.update((f"x{place}", type_) for place, type_ in enumerate(self.others))
            parts = [f"{it} := new {type_}" for it, type_ in scope.items() if it != "v"]
            parts += [f"v := {dice.randint(0, 2)}"] * (dice.random() < 0.5)
            works = [self.statement(name, scope, 1) for _ in range(dice.randint(1, 3))] + [self.sent(name, scope, "!!") for _ in range(dice.randint(1, 3))]
            parts += dice.sample(works, len(works))
        else:
            scope.update({"o": self.friends[name]} if "c" in self.methods[name] else {})
            parts = [f"v := {dice.randint(0, 2)}"] * (dice.random() < 0.5)
            parts += [self.statement(name, scope, 1)] * (dice.random() < 0.2) + self.service(name, scope)
        variables = [f"var {it} : {type_}" for it, type_ in scope.items()]
        methods = [self.method(name, method, scope) for method in self.methods[name]]
        return "\n".join([f"class {name}", *variables, *methods, f"body {'; '.join(parts)} end\n"])

    def method(self, name, method, scope):
        dice, friend = self.dice, self.friends[name]
        head = {"a": "a(p : Int)", "b": "b() : Int", "c": f"c(q : {friend})"}[method]
        inner = {**scope, **{"a": {"p": "Int"}, "b": {}, "c": {"q": friend}}[method]}
        parts = {"a": ["write p"] * (dice.random() < 0.7), "b": ["v := v + 1"] * (dice.random() < 0.2), "c": ["o := q"]}[method]
        body = "; ".join(parts + [self.statement(name, inner, 0) for _ in range(dice.choice([0, 0, 1, 1, 2]))])
        end = f" result {self.number(inner)}" if method == "b" else ""
        end += f" post {self.statement(name, inner, 0)}" if dice.random() < 0.15 else ""
        return f"method {head} begin {body}{end} end"

    def service(self, name, scope):
        """The answers of a body; what it does where it has no methods."""
        dice, methods = self.dice, self.methods[name]
        if not methods:
            return [self.statement(name, scope, 1) for _ in range(dice.randint(1, 2))]
        draw = dice.random()
        if draw < 0.3:
            return [f"answer({', '.join(dice.sample(methods, dice.randint(1, len(methods))))})" for _ in range(dice.randint(1, 3))] + ["write v"] * (draw < 0.1)
        if draw < 0.7:
            return [f"while true do answer({', '.join(methods)}) od"]
        return [self.choice(name, scope) for _ in range(dice.randint(1, 2))]

    def choice(self, name, scope):
        dice, alternatives = self.dice, []
        for _ in range(dice.randint(1, 3)):
            guard = "true" if dice.random() < 0.8 else dice.choice(["v == 1", "v != 1", "false"])
            offered = f" answer({dice.choice(self.methods[name])})" if self.methods[name] and dice.random() < 0.7 else ""
            work = self.statement(name, scope, 0) if dice.random() < 0.6 else ""
            alternatives.append(f"when {guard}{offered} then {work}")
        return f"select {' '.join(alternatives)} end"

    def number(self, scope):
        name = "p" if "p" in scope and self.dice.random() < 0.6 else "v"
        draw = self.dice.random()
        return str(self.dice.randint(0, 9)) if draw < 0.65 else name if draw < 0.9 else f"{name} + 1" if draw < 0.95 else f"1 / {name}"

    def sent(self, name, scope, sign):
        """A call or a send, if the scope has an object that takes one."""
        dice = self.dice
        others = [(it, type_) for it, type_ in scope.items() if self.methods.get(type_)]
        if not others:
            return f"write {self.number(scope)}"
        it, type_ = dice.choice(others)
        method = dice.choice(self.methods[type_])
        if method == "b":
            return f"{it} !! b()" if sign == "!!" else dice.choice([f"write {it} ! b()", f"v := {it} ! b()", f"{it} ! b()"])
        return f"{it} {sign} {method}({self.number(scope) if method == 'a' else self.friend(self.friends[type_], name, scope)})"

    def friend(self, type_, name, scope):
        known = [it for it, its in scope.items() if its == type_] + ["self"] * (type_ == name)
        return self.dice.choice(known) if known and self.dice.random() < 0.95 else "nil" if type_ == "Main" else f"new {type_}"

    def statement(self, name, scope, depth):
        dice = self.dice
        draw = dice.random()
        if draw < (0.6 if name == "Main" else 0.3):
            return self.sent(name, scope, "!!" if dice.random() < (0.7 if name == "Main" else 0.4) else "!")
        if draw < 0.85:
            item = dice.choice(["self", "nil"] + [it for it, type_ in scope.items() if type_ != "Int"]) if dice.random() < 0.06 else self.number(scope)
            return f'write "s {dice.randint(0, 9)}"' if dice.random() < 0.1 else f"write {item}"
        if draw < 0.9 and depth:
            return f"if {dice.choice(['v == 1', 'v != 1', 'true'])} then {self.statement(name, scope, 0)} else {self.statement(name, scope, 0)} fi"
        if draw < 0.95 and depth:
            return self.choice(name, scope)
        return f"answer({dice.choice(self.methods[name])})" if self.methods[name] and draw < 0.97 else f"v := {self.number(scope)}"


def drawn_race(seed):
    """The text of a small program with runs that differ."""
    return Race(random.Random(seed)).text()


# Statements of the two objects of a `Pair`: in each body come two of them. Each object knows the other by the name a, if it was told.
PIECES = [
    "answer(hit)",
    "answer(tell)",
    "answer(hit, tell)",
    "n := a ! hit(1)",
    "a !! tell(1)",
    "write n",
    "n := 6 / n",
    "select when n > 0 answer(hit) then n := 0 when true answer(tell) then end",
    "select when true then n := 1 when true answer(hit, tell) then end",
    "a ! rest()",
    "answer(rest)",
    "answer(rest, hit)",
]
# How the root makes the two known to each other, and what it does last; it may go on for ever.
LINKS = ["p ! set(q); q ! set(p)", "p !! set(q); q !! set(p)", "p ! set(q)"]
LAST = ["", "; write p ! hit(3)", "; p !! tell(2)", "; q ! rest()", "; while true do self !! tick(); answer(tick) od", "; while true do od"]
# What one of the two may do last: it spins, by local transitions alone.
SPINS = ["while true do od", "while true do n := 1 - n od", "n := 2; while n > 0 do n := n % 3 + 1 od"]


class Pair:
    """A small program of two objects that know each other: they call each other, send, choose, divide and write. Some spin at last."""

    def __init__(self, dice):
        self.dice = dice

    def text(self):
        root = f"class Main var p : P var q : Q method tick() begin end body p := new P; q := new Q; {self.dice.choice(LINKS)}{self.dice.choice(LAST)} end\n"
        return self.one_class("P", "Q") + self.one_class("Q", "P") + root

    def one_class(self, name, other):
        post = self.dice.choice(["", " post n := k"])
        methods = [
            f"method set(x : {other}) begin a := x; n := 0 end",
            f"method hit(k : Int) : Int begin result k{post} end",
            "method tell(k : Int) begin n := k end",
            "method rest() begin end",
        ]
        last = f"; {self.dice.choice(SPINS)}" if self.dice.random() < 0.15 else ""
        body = f"body answer(set); {self.dice.choice(PIECES)}; {self.dice.choice(PIECES)}{last} end\n"
        return "\n".join([f"class {name}", f"var a : {other}", "var n : Int", *methods, body])


def drawn_pair(seed):
    """The text of a small program of two objects that know each other."""
    return Pair(random.Random(seed)).text()
