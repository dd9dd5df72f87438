"""Object code files of the worst shapes for the reader and the verifier, each in any size: a name, and the bytes of about so many."""
import random, struct, subprocess, tempfile

import measure


def number(n):
    return struct.pack('>I', n)


def listed(items):
    return number(len(items)) + b''.join(items)


def texts(names):
    return listed([number(len(name)) + name for name in names])


def code(words, count, instructions):
    return number(words) + number(count) + instructions


def method(name, instructions, kinds=(), words=1, result=b'\0', params=0):
    """A method by its list of instructions."""
    return number(name) + number(params) + listed(list(kinds)) + result + code(words, len(instructions), b''.join(instructions))


def klass(name, body, kinds=(), methods=()):
    return number(name) + listed(list(kinds)) + listed(list(methods)) + body


def file(names, classes):
    return b'POOLU\1' + texts(names) + listed(classes)


def alone(words, count, instructions, names=(b'Main',), kinds=(), methods=(), before=()):
    """A file whose last class has this body."""
    return file(names, [*before, klass(0, code(words, count, instructions), kinds, methods)])


INT, BOOL = b'\1', b'\2'
NIL, SELF, POP, LOOP, RET, HALT = b'\3', b'\7', b'\13', b'\15', b'\17', b'\27'
TRUE, ZERO = b'\2\1', b'\1' + bytes(8)
# A method without result: a step, and nil.
NO_RESULT = [LOOP, NIL, RET]


def jump(at):
    return b'\4' + number(at)


def branch(at):
    return b'\14' + number(at)


def call(name):
    return b'\16' + number(name)


def new(name):
    return b'\20' + number(name)


def send(name, count):
    return b'\21' + number(name) + number(count)


def write_text(name):
    return b'\24' + number(name)


def answer(names):
    return b'\25' + listed([number(name) for name in names])


def select(alternatives):
    return b'\26' + listed(alternatives)


def plain(at):
    return b'\0' + number(at)


def answering(names, at):
    return b'\1' + listed([number(name) for name in names]) + number(at)


def repeated(size, words, piece, instructions, front=b'', fronts=0, **rest):
    """A piece of so many instructions again and again."""
    times = size // len(piece)
    return alone(words, fronts + times * instructions + 1, front + piece * times + HALT, **rest)


# One long body.

def steps(size):
    return repeated(size, 0, LOOP, 1)


def literals(size):
    return repeated(size, 1, ZERO + POP, 2)


def pushed(size):
    return repeated(size, 1, NIL + POP, 2)


def deep(size):
    """Operands pushed and taken on a stack of 63."""
    return repeated(size, 64, NIL + POP, 2, SELF * 63, 63)


def strings(size):
    """A string of 256 letters, written again and again."""
    return repeated(size, 0, write_text(1), 1, names=(b'Main', b'a' * 256))


def objects(size):
    """Objects of 256 classes."""
    names = [b'Main'] + [b'C%d' % i for i in range(255)]
    before = [klass(i, code(0, 1, HALT)) for i in range(1, 256)]
    piece = b''.join(new(1 + i * 97 % 255) + POP for i in range(255))
    return repeated(size, 1, piece, 510, names=names, before=before)


# Chains of silent instructions.

def chain(size, order):
    """A chain of jumps through all places, in this order."""
    count = size // 5
    order = [0, *order(count), count]
    to = [0] * count
    for here, there in zip(order, order[1:]):
        to[here] = there
    return alone(0, count + 1, b''.join(map(jump, to)) + HALT)


def chain_on(size):
    return chain(size, lambda count: range(1, count))


def chain_back(size):
    return chain(size, lambda count: range(count - 1, 0, -1))


def chain_drawn(size):
    def order(count):
        places = list(range(1, count))
        random.Random(1).shuffle(places)
        return places
    return chain(size, order)


def chain_unreached(size):
    """The longest chain: literals that are jumped over."""
    return alone(0, size + 2, jump(size + 1) + NIL * size + HALT)


def chains_halves(size):
    """The same, with a step in the middle."""
    half = size // 2
    return alone(0, 2 * half + 3, jump(2 * half + 2) + NIL * half + LOOP + NIL * half + HALT)


def circle(size):
    """A chain of all places that comes back at its end: refused."""
    return alone(0, size + 3, jump(size + 2) + NIL * size + jump(1) + HALT)


# Combs: a place after each tooth, and one for all.

def comb(size, depth, at):
    """Branches over a stack of this depth; the place is a function of the number of the branch and of all."""
    count = size // 7
    front = SELF * depth
    teeth = b''.join(TRUE + branch(at(i, count)) for i in range(count))
    return alone(depth + 1, depth + 2 * count + 1, front + teeth + HALT)


def comb_next(size):
    return comb(size, 63, lambda i, count: 63 + 2 * i + 2)


def comb_end(size):
    return comb(size, 63, lambda i, count: 63 + 2 * count)


def comb_flat(size):
    return comb(size, 0, lambda i, count: 2 * count)


def comb_drawn(size):
    draw = random.Random(2)
    return comb(size, 63, lambda i, count: 63 + 2 * draw.randint(i + 1, count))


def comb_far(size):
    """Each branch goes as far from the end as it stands from the front."""
    return comb(size, 63, lambda i, count: 63 + 2 * max(i + 1, count - i))


def selects(size):
    """Selects of 32 alternatives over a stack of 32, all to the next place."""
    piece_size = 32 * 2 + 5 + 32 * 5
    count = size // piece_size
    pieces = [TRUE * 32 + select([plain(32 + 33 * (i + 1))] * 32) for i in range(count)]
    return alone(64, 32 + 33 * count + 1, SELF * 32 + b''.join(pieces) + HALT)


# Long lists in an instruction.

METHODS = [b'm%d' % i for i in range(64)]


def with_methods(words, count, instructions):
    methods = [method(1 + i, NO_RESULT) for i in range(64)]
    return alone(words, count, instructions, names=[b'Main'] + METHODS, methods=methods)


def calls(size):
    """Calls of the last of 64 methods."""
    times = size // 6
    return with_methods(1, 2 * times + 1, (call(64) + POP) * times + HALT)


def sends(size):
    times = size // 11
    return with_methods(1, 3 * times + 1, (SELF + send(64, 0) + POP) * times + HALT)


def arguments(size):
    """Sends of eight arguments over a stack of 55."""
    names = [b'Main', b'm']
    methods = [method(1, NO_RESULT, [INT] * 8, words=9, params=8)]
    piece = SELF + NIL * 8 + send(1, 8) + POP
    times = size // len(piece)
    return alone(64, 55 + 11 * times + 1, SELF * 55 + piece * times + HALT, names=names, methods=methods)


def answers(size):
    """One answer with the last of 64 methods again and again."""
    return with_methods(0, 2, answer([64] * (size // 4)) + HALT)


def alternatives(size):
    """One select that is not reached, each of whose alternatives answers the last method."""
    piece = answering([64], 2)
    times = size // len(piece)
    return with_methods(0, 3, jump(2) + select([piece] * times) + HALT)


# Many parts.

def methods(size):
    """256 classes of 64 methods, with as much code in each as there is room for."""
    count = max(1, min(256, size // 6400))
    each = max(1, size // (count * 64) - 24)
    names = [b'C%d' % i for i in range(256)] + METHODS
    body = number(1) + number(each + 2) + LOOP * each + NIL + RET
    classes = []
    for i in range(count):
        lists = [number(256 + j) + bytes(9) + body for j in range(64)]
        classes.append(klass(i, code(0, 1, HALT), methods=lists))
    return file(names, classes)


def headings(size):
    """As many headings as there may be: the kinds of 32 locals each, all of the last class."""
    names = [b'C%d' % i for i in range(256)] + METHODS
    kind = b'\3' + number(255)
    count = max(1, min(256, size // (64 * (4 + 4 + 4 + 32 * 5 + 1 + 8 + 2))))
    heading = number(0) + listed([kind] * 32) + b'\0' + number(33) + number(2) + NIL + RET
    classes = [klass(255 - i, code(0, 1, HALT), methods=[number(256 + j) + heading for j in range(64)]) for i in range(count)]
    return file(names, classes)


def classes(size):
    """More classes than a file may have, whose names are drawn: the 257th is refused."""
    count = size // 20
    names = [b'C%d' % i for i in range(256)]
    order = list(range(256, count + 256))
    random.Random(3).shuffle(order)
    return file(names, [klass(i, code(0, 1, HALT)) for i in range(256)] + [number(i) + bytes(16) for i in order])


def names(size):
    """Names that no instruction names."""
    count = size // 8
    return alone(0, 1, HALT, names=[b'Main'] + [number(i) for i in range(count)])


def long_names(size):
    """Long names that differ at their ends alone."""
    count = size // 4100
    return alone(0, 1, HALT, names=[b'Main'] + [b'a' * 4092 + number(i) for i in range(count)])


def alike_names(size):
    """Names of eight bytes that all come to one group of the table of names."""
    count = size // 12
    with tempfile.TemporaryDirectory() as folder:
        words = [measure.compiled(folder, 'verify/alike.c'), str(count), str(max(0, (count // 9).bit_length()))]
        drawn = subprocess.run(words, check=True, stdout=subprocess.PIPE).stdout
    return alone(0, 1, HALT, names=[b'Main'] + [drawn[i:i + 8] for i in range(0, 8 * count, 8)])


def bad_byte(size):
    """A byte behind the end."""
    return steps(size) + b'\0'


SHAPES = {
    'steps': (steps, 'good'),
    'literals': (literals, 'good'),
    'pushed': (pushed, 'good'),
    'deep': (deep, 'good'),
    'strings': (strings, 'good'),
    'objects': (objects, 'good'),
    'chain_on': (chain_on, 'good'),
    'chain_back': (chain_back, 'good'),
    'chain_drawn': (chain_drawn, 'good'),
    'chain_unreached': (chain_unreached, 'good'),
    'chains_halves': (chains_halves, 'good'),
    'circle': (circle, 'Code 0 0'),
    'comb_next': (comb_next, 'good'),
    'comb_end': (comb_end, 'good'),
    'comb_flat': (comb_flat, 'good'),
    'comb_drawn': (comb_drawn, 'good'),
    'comb_far': (comb_far, 'good'),
    'selects': (selects, 'good'),
    'calls': (calls, 'good'),
    'sends': (sends, 'good'),
    'arguments': (arguments, 'good'),
    'answers': (answers, 'good'),
    'alternatives': (alternatives, 'good'),
    'methods': (methods, 'good'),
    'headings': (headings, 'good'),
    'classes': (classes, 'Header 256'),
    'names': (names, 'good'),
    'long_names': (long_names, 'good'),
    'bad_byte': (bad_byte, 'BadBytes'),
}

# Too slow for the greatest size: its time grows with the square of the size.
SLOW = {'alike_names': (alike_names, 'good')}
