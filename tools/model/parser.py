"""Programs as trees: an independent reading of the grammar in docs/REFERENCE.md. It accepts programs without faults only.

Expressions: ('value', v), ('self',), ('variable', x), ('new', C), ('prefix', op, e), ('infix', op, e, f), ('call', m, args),
('send', e, m, args). Statements: ('assign', x, e), ('write', e), ('string', s), ('do', e), ('async', e, m, args), ('if', e, then, else),
('while', e, body), ('answer', names), ('select', alternatives), each alternative (guard, names or None, statements).
Values: an int, True, False, None for nil, and ('object', name).
"""
import re

TOKEN = re.compile(
    r'(?P<gap>[ \t\r\n]+|#[^\n]*)|(?P<word>[A-Za-z_]\w*)|(?P<integer>\d+)|(?P<string>"[ !#-~]*")'
    r"|(?P<sign>:=|!!|==|!=|<=|>=|[:;,()!<>+*/%-])"
)
KEYWORDS = set(
    "class var method local begin result post end body if then else fi while do od answer select when write new self nil true false "
    "not and or Int Bool".split()
)
CLOSING = {"end", "result", "post", "fi", "else", "od", "when"}
# The operators of each level, the loosest first. Those of the third level do not chain.
LEVELS = [("or",), ("and",), ("==", "!=", "<", "<=", ">", ">="), ("+", "-"), ("*", "/", "%")]


class Class:
    def __init__(self, name):
        self.name, self.variables, self.methods, self.body = name, [], {}, []


class Method:
    def __init__(self, name):
        self.name, self.parameters, self.locals, self.body, self.value, self.post = name, [], [], [], ("value", None), []


def tokens(text):
    found, at = [], 0
    while at < len(text):
        match = TOKEN.match(text, at)
        if not match:
            raise ValueError(f"no token at byte {at}")
        if match.lastgroup != "gap":
            word = match.group()
            found.append(("keyword" if word in KEYWORDS else match.lastgroup, word))
        at = match.end()
    return found + [("end of text", "")]


class Parser:
    def __init__(self, text):
        self.tokens, self.at = tokens(text), 0

    def kind(self):
        return self.tokens[self.at][0]

    def word(self):
        kind, word = self.tokens[self.at]
        return word if kind in ("keyword", "sign") else None

    def has(self, word):
        if self.word() != word:
            return False
        self.at += 1
        return True

    def eat(self, word):
        if not self.has(word):
            raise ValueError(f"{word} is wanted at token {self.at}")

    def take(self, kind):
        if self.kind() != kind:
            raise ValueError(f"{kind} is wanted at token {self.at}")
        self.at += 1
        return self.tokens[self.at - 1][1]

    def program(self):
        classes = []
        while self.kind() != "end of text":
            classes.append(self.one_class())
        return classes

    def type(self):
        if not self.has("Int") and not self.has("Bool"):
            self.take("word")

    def names(self):
        names = [self.take("word")]
        while self.has(","):
            names.append(self.take("word"))
        return names

    def declared(self):
        names = self.names()
        self.eat(":")
        self.type()
        return names

    def one_class(self):
        self.eat("class")
        made = Class(self.take("word"))
        while self.has("var"):
            made.variables += self.declared()
        while self.word() == "method":
            method = self.method()
            made.methods[method.name] = method
        self.eat("body")
        made.body = self.statements()
        self.eat("end")
        return made

    def method(self):
        self.eat("method")
        made = Method(self.take("word"))
        self.eat("(")
        if not self.has(")"):
            while True:
                made.parameters.append(self.take("word"))
                self.eat(":")
                self.type()
                if self.has(")"):
                    break
                self.eat(",")
        has_result = self.has(":")
        if has_result:
            self.type()
        while self.has("local"):
            made.locals += self.declared()
        self.eat("begin")
        made.body = self.statements()
        if has_result:
            self.eat("result")
            made.value = self.expression()
        if self.has("post"):
            made.post = self.statements()
        self.eat("end")
        return made

    def statements(self):
        found = []
        if self.word() not in CLOSING:
            found.append(self.statement())
            while self.has(";"):
                found.append(self.statement())
        return found

    def listed(self):
        self.eat("(")
        names = self.names()
        self.eat(")")
        return names

    def statement(self):
        if self.kind() == "word" and self.tokens[self.at + 1] == ("sign", ":="):
            name = self.take("word")
            self.eat(":=")
            return ("assign", name, self.expression())
        if self.has("write"):
            return ("string", self.take("string")) if self.kind() == "string" else ("write", self.expression())
        if self.has("if"):
            guard = self.expression()
            self.eat("then")
            then = self.statements()
            other = self.statements() if self.has("else") else []
            self.eat("fi")
            return ("if", guard, then, other)
        if self.has("while"):
            guard = self.expression()
            self.eat("do")
            body = self.statements()
            self.eat("od")
            return ("while", guard, body)
        if self.has("answer"):
            return ("answer", self.listed())
        if self.has("select"):
            alternatives = []
            while self.has("when"):
                guard = self.expression()
                names = self.listed() if self.has("answer") else None
                self.eat("then")
                alternatives.append((guard, names, self.statements()))
            self.eat("end")
            return ("select", alternatives)
        called = self.postfix()
        if self.has("!!"):
            name = self.take("word")
            return ("async", called, name, self.arguments())
        return ("do", called)

    def arguments(self):
        self.eat("(")
        found = []
        if not self.has(")"):
            found.append(self.expression())
            while self.has(","):
                found.append(self.expression())
            self.eat(")")
        return found

    def expression(self, level=0):
        if level == len(LEVELS):
            return self.prefix()
        found = self.expression(level + 1)
        while self.word() in LEVELS[level]:
            operator = self.word()
            self.at += 1
            found = ("infix", operator, found, self.expression(level + 1))
            if level == 2:
                break
        return found

    def prefix(self):
        for word in ("not", "-"):
            if self.has(word):
                return ("prefix", word, self.prefix())
        return self.postfix()

    def postfix(self):
        found = self.primary()
        while self.has("!"):
            name = self.take("word")
            found = ("send", found, name, self.arguments())
        return found

    def primary(self):
        if self.kind() == "integer":
            return ("value", int(self.take("integer")))
        for word, made in (("true", ("value", True)), ("false", ("value", False)), ("nil", ("value", None)), ("self", ("self",))):
            if self.has(word):
                return made
        if self.has("new"):
            return ("new", self.take("word"))
        if self.kind() == "word":
            name = self.take("word")
            return ("call", name, self.arguments()) if self.word() == "(" else ("variable", name)
        self.eat("(")
        found = self.expression()
        self.eat(")")
        return found


def parse(text):
    return Parser(text).program()
