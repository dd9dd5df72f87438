"""The notation of the rows of tests/tables, and the calls for a row of an accepted placement or schedule. The head of tests/calls explains the rows.

An accepted placement is called with programs that show its parts. A root class without a `body` is given, and each program has another body.

- A loop and a schedule of one round show the node of the root object, the nodes, and the links that are not cut.
- Objects are created, methods called and messages sent without end. The end line shows the objects, frames and cells of a node.
- Two objects of the first class, and of each class that is not placed `same`, show the place of the class. For the root class this is so if it is
  placed `spread`; else the objects above are of this class.
- For each route a line places an object at its node, and another at its goal. The first packet leaves on the link of the route.

An accepted schedule is called with a root object on node 0 that makes local transitions without end. So its turns show the quantum, and all
other events are idle. It is called once more with a turn behind it, on wires that may lose with a `send` too, and with so many turns that the
fault shows the number of events. Of a record with more than MOST events the first lines are compared, and the program is ended.
"""
import re

# The largest number of events of a record that is compared to its end, and the largest number of events of a schedule.
MOST, MOST_EVENTS = 10000, 2000000
# Statements that make local transitions without end.
LOOP = "while true do od"


def field(row, place):
    """The field of a row at this place, from 0. Empty if there is none."""
    return dict(enumerate(row.split(" | "))).get(place, "")


def framed(frame, row):
    """A frame with the fields of a row."""
    return re.sub(r"\[(\d+)\]", lambda found: field(row, int(found[1])), frame)


def repeated(found):
    return "".join(found[2].replace("$", str(number), 1) for number in range(int(found[1])))


def spell(notation):
    """The bytes that a notation describes."""
    text = re.sub(r"\[(\d+):([^\]]*)\]", repeated, notation).replace("~", "\n").replace("^", "\r")
    return re.sub(rb"\\x([0-9a-f]{2})", lambda found: bytes([int(found[1], 16)]), text.encode())


def calls(frames, row):
    """The calls of a row, each described by fields."""
    kind, about = field(frames[0], 0), field(frames[0], 1)
    if kind == "placement":
        return list(Placement(field(row, 1), field(row, 2), about).calls())
    if kind == "schedule":
        return list(calls_of_schedule(field(row, 1), field(row, 2), about))
    return [framed(frame, row) for frame in frames]


def record_of(events, end):
    """A record with these events and this end line, which has the number of events behind it."""
    return "".join(f"{line}~" for line in ["record 2", *(f"{number} {event}" for number, event in enumerate(events, 1)), f"{end} {len(events)}"])


def call(arguments, status, placement, schedule, program, output="", error=""):
    return " | ".join([arguments, str(status), placement, schedule, program, output, error])


class Placement:
    """An accepted placement: its expected parts, its text, and the classes up to the body of the root class."""

    def __init__(self, parts, text, classes):
        words, names = spell(parts).decode().split(), re.findall(r"\bclass (\w+)", spell(classes).decode())
        self.width, self.height, self.objects, self.frames, self.cells = map(int, words[:5])
        self.places, self.root = dict(zip(names, words[5:])), names[-1]
        links = words[5 + len(names) :]
        self.cuts = [tuple(map(int, link.split("-"))) for link in links if "-" in link]
        self.routes = [route.split(":") for route in links if ":" in route]
        self.text, self.classes, self.first = text, classes, names[0]
        # The node of the root object, the nodes, and the objects that it can have there.
        self.node = int(self.places[self.root]) if self.places[self.root].isdigit() else 0
        self.nodes, self.room = self.width * self.height, min(self.objects, self.frames)
        self.full = f"end full {'heap' if self.objects <= self.frames else 'frames'} {self.node}"

    def calls(self):
        yield self.record(3, "quantum 1~round 1", LOOP, self.round(), "end schedule")
        yield from self.calls_of_limits()
        for name, place in self.places.items():
            is_shown = place == "spread" if name == self.root else place != "same" or name == self.first
            if is_shown:
                yield self.call_of_place(name, place)
        for at, goal, to in self.routes:
            arrival = f"new {at}.0 {goal}.0 {self.first} by 1" if to == goal else "pass"
            events = [f"turn {at} post create {at}.0 {self.first} {goal}", f"link {at} {to} {arrival}"]
            lines = f"~place {self.root} at {at}~place {self.first} at {goal}"
            yield self.record(3, f"quantum 1~turn {at}~link {at} {to}", f"new {self.first}", events, "end schedule", lines)

    def record(self, status, schedule, body, events, end, lines=""):
        """The call for the record of a body, with these lines behind the placement."""
        return call("record P L S", status, self.text + lines, schedule, f"{self.classes} body {body} end", record_of(events, end))

    def run(self, body, end):
        """The call for a body that writes nothing, and that comes to a limit in the turns of its node."""
        return call("run P L S", 4, self.text, f"quantum 10000~turn {self.node} 100000", f"{self.classes} {body} end", f"{end}~")

    def round(self):
        """The events of a round in which the root object makes a local transition."""
        turns = [f"turn {node} {f'local {node}.0 1' if node == self.node else 'idle'}" for node in range(self.nodes)]
        return turns + [f"link {start} {end} idle" for start in range(self.nodes) for end in range(self.nodes) if self.has_link(start, end)]

    def has_link(self, start, end):
        rows, columns = abs(start // self.width - end // self.width), abs(start % self.width - end % self.width)
        return rows + columns == 1 and (start, end) not in self.cuts

    def calls_of_limits(self):
        # Each object of the root class creates the next one. Else the root object creates them all, with a local event before each and after the last.
        if self.places[self.root] == "spread":
            here = next(name for name, place in self.places.items() if place in ("same", str(self.node)))
            yield self.run(f"body while true do new {here} od", f"{self.full} {2 * self.room - 1}")
        else:
            yield self.run(f"body new {self.root}", f"{self.full} {self.room - 1}")
        # The root object has the first frame, and each call of `m` one more.
        turns = [10000] * ((self.frames - 1) // 10000) + [(self.frames - 1) % 10000]
        events = [f"turn {self.node} local {self.node}.0 {count}" for count in turns if count]
        schedule, program = f"quantum 10000~turn {self.node} 10", f"{self.classes} method m() begin m() end body m() end"
        yield call("record P L S", 4, self.text, schedule, program, record_of(events, f"end full frames {self.node}"))
        # There is a local event before each message, and one before the message for which no cell is left.
        yield self.run("method m() begin end body while true do self !! m() od", f"end full cells {self.node} {2 * self.cells + 1}")

    def call_of_place(self, name, place):
        """The call for two objects of a class, in three turns. If the first is of the root class, it creates the second one."""
        node, creates = self.node, f"{self.node}.{1 if name == self.root else 0}"
        local = f"turn {node} local {node}.0 1"
        if place.isdigit() and int(place) != node:
            events = [f"turn {node} post create {node}.0 {name} {place}", f"turn {node} idle", f"turn {node} idle"]
        else:
            is_next = place == "spread" and self.nodes > 1
            second = f"turn {node} post create {creates} {name} {(node + 1) % self.nodes}" if is_next else f"turn {node} new {creates} {node}.2 {name}"
            events = [f"turn {node} new {node}.0 {node}.1 {name}", *([second, local] if name == self.root else [local, second])]
            # (the placements of the rows leave room for the root object alone, or for three objects)
            if self.room == 1:
                return self.record(4, f"quantum 1~turn {node} 3", f"new {name}; new {name}", [], self.full)
        return self.record(3, f"quantum 1~turn {node} 3", f"new {name}; new {name}", events, "end schedule")


def event_line(quantum, event):
    """The line of an event on a mesh where the object on node 0 is at a loop."""
    if event == "0":
        return f"turn 0 local 0.0 {quantum}"
    act, _, nodes = event.rpartition(":")
    word = act or ("link" if "-" in nodes else "turn")
    return f"{word} {nodes} idle".replace("-", " ")


def calls_of_schedule(parts, text, mesh):
    """The calls for an accepted schedule, from its expected parts, its text and its placement."""
    words = spell(parts).decode().split()
    quantum, count, is_lossy = words[0], int(words[1]), "lossy" in words
    told, _, last = " ".join(word for word in words[2:] if word != "lossy").partition(" .. ")
    first = told.split()
    front = "record 2~" + "".join(f"{number} {event_line(quantum, event)}~" for number, event in enumerate(first, 1))
    program = f"class Main body {LOOP} end"
    if count > MOST:
        yield call(f"first {len(first)} record P L S", "3 -9", mesh, text, program, front)
    else:
        front += f"..{count} {event_line(quantum, last)}~" if last else ""
        yield call("record P L S", 3, mesh, text, program, f"{front}end schedule {count}~")
        lines, events = "~turn 0", [event_line(quantum, "0")]
        if is_lossy:
            lines, events = f"{lines}~send 1 0", [*events, "send 1 0 idle"]
        more = "".join(f"{number} {event}~" for number, event in enumerate(events, count + 1))
        yield call("record P L S", 3, mesh, text + lines, program, f"{front}{more}end schedule {count + len(events)}~")
    yield call("record P L S", 2, mesh, f"{text}~turn 0 {MOST_EVENTS}~turn 0", program, "", f"pool: schedule: TooManyEvents {count + MOST_EVENTS + 1}~")
