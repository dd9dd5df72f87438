"""Runs of a program: its errors, a placement and a schedule for it, a run that nobody steers, and one whose events a person chooses."""
import re
import time

from jobs import Limit

EVENTS = 20000        # the most events of a run that nobody steers
CHOSEN = 4000         # the most lines of a schedule by hand
ON = 3                # seconds after which it goes on no more by itself
SIDES = range(1, 9)
ROOM = "objects 4096\nframes 16384\ncells 16384\n"   # as much as a node may have


def mesh_of(nodes):
    """The mesh of so many nodes that is nearest to a square, as tools/run has it."""
    heights = [it for it in SIDES if nodes % it == 0 and it <= nodes // it <= 8]
    return (nodes // heights[-1], heights[-1]) if heights else None


def sizes():
    """Each number of nodes of which there is a mesh."""
    return [it for it in range(1, 65) if mesh_of(it)]


def refused(job, done, *files):
    """The place and the meaning of the fault that a program told, by tools/where: a dictionary, or None where it told of no fault."""
    line = (done.err.splitlines() or [""])[-1]
    if done.status != 2 or not re.match("pool: [a-z]+: ", line):
        return None
    kind = line.split(": ")[1]
    told = job.run([job.jobs.programs["where"], *files], given=line.encode() + b"\n").lines
    told = told or [line]
    placed = re.match(r"[a-z]+:(\d+)(?::(\d+))?: (\w+): (.*)", told[0])
    found = {"input": kind, "fault": line, "line": 0, "column": 0, "length": 0, "name": "", "sentence": told[0].split(": ", 1)[-1], "token": ""}
    if placed:
        token = told[1] if len(told) > 1 else ""
        found.update(line=int(placed[1]), column=int(placed[2] or 0), name=placed[3], sentence=placed[4], token=token, length=0 if token == "the end of the text" else len(token.encode()))
    return found


def placement_of(canonical, nodes):
    """A placement of a program for so many nodes, as tools/run makes it: the root class on node 0, a class with a single `new` on a node of its own, the others spread."""
    width, height = mesh_of(nodes)
    made, order, loops = {}, [], 0
    for line in re.sub(r'"[^"]*"', "", canonical).splitlines():
        words = line.split()
        if words[:1] == ["class"]:
            order.append(words[1])
        for at, word in enumerate(words):
            loops += (word == "while") - (word == "od")
            if word == "new":
                made[words[at + 1]] = made.get(words[at + 1], 0) + (2 if loops else 1)
    lines, alone = [f"mesh {width} {height}"], 0
    for name in order[:-1] if nodes > 1 else []:
        if made.get(name, 0) > 1:
            lines.append(f"place {name} spread")
        elif made.get(name):
            lines.append(f"place {name} at {1 + alone % (nodes - 1)}")
            alone += 1
    return "\n".join(lines + [f"place {order[-1]} at 0"]) + "\n"


def parts_of(width, height):
    return width * height + 2 * ((width - 1) * height + width * (height - 1))


def schedule_of(job, placement, seed):
    """A schedule of at most EVENTS events: rounds, behind the random rounds of tools/fair where there is a seed."""
    width, height = (int(it) for it in re.match(r"mesh (\d) (\d)", placement).groups())
    parts = parts_of(width, height)
    if seed is None:
        return f"quantum 100\nround {max(1, EVENTS // parts)}\n"
    head = job.write("mesh", f"mesh {width} {height}\n")
    drawn = job.run([job.jobs.programs["fair"], head, str(EVENTS * 3 // (parts * 7) // 4 + 1), str(seed)])
    if drawn.status:
        raise Limit("No random schedule was drawn.")
    lines, made = [], 0
    for line in drawn.lines:
        words = line.split()
        count = int(words[-1]) if len(words) == {"turn": 3, "link": 4}.get(words[0]) else 1
        if words[0] == "round":
            continue
        made += count if words[0] in ("turn", "link") else 0
        lines.append(line)
    return "\n".join(lines) + f"\nround {max(1, (EVENTS - made) // parts)}\n"


def written(record):
    """The items that a record's lines of writes have."""
    return [line.split(" ", 5)[5] for line in record.splitlines() if line.split(" ", 4)[3:4] == ["write"]]


END = {
    "quiet": "Quiet: after {0} events nothing can change any more.",
    "schedule": "Not at its end: the run was stopped after {0} events. It may have no end.",
    "full": "A node is full: it has no room for what the next event would make.",
}


def told_of(job, record, status, stuck=True):
    """What is told of a run besides its record: its end, and the objects that wait for good or met an error, each with its place."""
    last = record.rstrip("\n").rsplit("\n", 1)[-1].split(" ")
    found = {"status": status, "end": " ".join(last), "says": END[last[1]].format(last[-1]), "waits": [], "report": ""}
    if not stuck:
        return found
    report = job.pool("why", "program", "placement", "schedule")
    found["report"] = report.out
    if re.search(r"(?m)^\S+ \S+ (calls|creates|due|faulted)|^cycle", report.out) or len(report.lines) <= 2:
        job.write("record", record)
        # (what it says on the error stream is of the end of the run, but for a lonely root)
        it = job.run([job.jobs.programs["stuck"], "program", "placement", "schedule", "record"])
        found["waits"] = places(it.out)
        found["waits"] += [{"text": line.split(": ", 1)[1]} for line in it.err.splitlines() if "only the root object" in line]
    return found


def places(text):
    """The lines of tools/stuck: each with its place, and without the text of the program that it shows below an error."""
    found = []
    for line in text.splitlines():
        placed = re.match(r"program:(\d+):(\d+): (.*)", line)
        if placed:
            found.append({"line": int(placed[1]), "column": int(placed[2]), "text": placed[3]})
        elif re.match(r"\d+\.\d+ |deadlock|cycle", line):
            found.append({"text": line})
    return found


def record_of(found):
    """The record of the run that a search shows."""
    steps = [line[5:] for line in found.splitlines() if line.startswith("step ")]
    end = "schedule" if found.splitlines()[-1].startswith("end fault") else "quiet"
    return "".join(f"{i} turn 0 {it}\n" for i, it in enumerate(steps, 1)) + f"end {end} {len(steps)}\n"


def stopped(job, program, found):
    """The objects that wait at the end of a run that a search shows, and those that met an error, each with a sentence and its place in the program. Past a limit they are not told."""
    try:
        return sentences(job, program, found)
    except Limit:
        return []


def sentences(job, program, found):
    steps = [line.split(" ")[1:] for line in found.splitlines() if line.startswith("step ")]
    job.write("record", record_of(found))
    if re.search(r"(?m)^wrote stuck", found) and "\nwaits " not in found:
        # (of an outcome that is not allowed a search does not say who waits)
        found += job.explore("watch", "program", "record", most=16 << 20).out
    lines = [line[6:] for line in found.splitlines() if line.startswith("waits ")]
    classes = {it[2]: it[3] for it in steps if it[0] == "new"}
    classes["0.0"] = (re.findall(r"\bclass\s+(\w+)", re.sub(r"#.*|\".*?\"", "", program)) or [""])[-1]
    lines += [f"{it[1]} {classes.get(it[1], '')} faulted {it[2]}" for it in steps if it[0] == "fault"]
    if not lines:
        return []
    told = job.run([job.jobs.programs["place"], "program", "record"], given="\n".join(lines).encode() + b"\n")
    shown = []
    for line in told.lines if told.status == 0 else lines:
        placed = re.match(r"program:(\d+):(\d+): (.*)", line)
        text = placed[3] if placed else line
        if not placed and not re.match(r"\d+\.\d+ ", line):
            continue                     # (the text of the program below an error)
        words = text.split(" ")
        if words[2:3] == ["calls"]:
            text = f"{words[0]} {words[1]} waits for good: it calls {words[4]} of {words[3]} {classes.get(words[3], '')}".rstrip()
        elif words[2:] == ["awaits"]:
            text = f"{words[0]} {words[1]} waits at an answer or a select for a call or a message that does not come"
        shown.append({"text": text, **({"line": int(placed[1]), "column": int(placed[2])} if placed else {})})
    return shown + [{"text": line + (": it calls itself" if line.count(" ") == 1 else ": each calls the next, and the last calls the first")} for line in found.splitlines() if line.startswith("cycle ")]


def run(job, program, nodes, seed):
    """A run that nobody steers."""
    job.write("program", program)
    # (on one node no class need be placed, so the text of the program is not read before)
    if nodes == 1:
        placement = "mesh 1 1\n"
    else:
        printed = job.pool("print", "program")
        if printed.status:
            return {"error": refused(job, printed, "program")} if printed.status == 2 else trouble(printed)
        placement = placement_of(printed.out, nodes)
    schedule = schedule_of(job, placement, seed)
    job.write("schedule", schedule)
    job.write("placement", placement)
    done = job.pool("record", "program", "placement", "schedule")
    if done.status == 4:
        # (the least limits are the fastest; a run that meets them is made again with the greatest)
        placement += ROOM if nodes < 8 else ""
        job.write("placement", placement)
        done = job.pool("record", "program", "placement", "schedule")
    if done.status not in (0, 1, 3, 4):
        fault = refused(job, done, "program", "placement", "schedule")
        return {"error": fault} if fault else trouble(done)
    told = told_of(job, done.out, done.status)
    return {**told, "writes": written(done.out), "record": done.out, "placement": placement, "schedule": schedule}


def trouble(done):
    said = {7: "It needed more memory than the workbench allows.", 5: "An input was not read.", 6: "The output was not written."}
    if "rss limit" in done.err:
        return {"trouble": said[7]}
    return {"trouble": said.get(done.status) or f"The program ended with status {done.status}: {done.err.strip()[-300:]}"}


# ---------------------------------------------------------------- by hand


def events_of(placement, schedule):
    """Each event that there is on a mesh, in the order of the buttons."""
    found = re.search(r"(?m)^[ \t]*mesh[ \t]+([1-8])[ \t]+([1-8])[ \t\r]*$", placement)
    width, height = (int(found[1]), int(found[2])) if found else (0, 0)
    cut = {(int(a), int(b)) for a, b in re.findall(r"(?m)^[ \t]*cut[ \t]+(\d{1,2})[ \t]+(\d{1,2})[ \t\r]*$", placement)}
    nodes = range(width * height)
    links = [(a, b) for a in nodes for b in nodes if (abs(a - b) == width or abs(a - b) == 1 and a // width == b // width) and (a, b) not in cut]
    lossy = re.search(r"(?m)^[ \t]*wires[ \t]+lossy[ \t\r]*$", schedule)
    words = ["send {} {}", "link {} {}", "ack {} {}", "lose {} {}", "twice {} {}", "late {} {}", "lose ack {} {}", "twice ack {} {}", "late ack {} {}"] if lossy else ["link {} {}"]
    return [f"turn {it}" for it in nodes] + [word.format(a, b) for word in words for a, b in links]


def could(job, placement, schedule, events, count):
    """The events that would do something now, each with what it would do.

    All are put behind the schedule, one after another. The first that is not idle is the first that would do something, since an idle event changes
    nothing. Then the same is done with those behind it. A schedule of them that ends quiet before the first shows that nothing is possible.
    """
    found = []
    while events:
        job.write("trial", schedule + "\n".join(events) + "\n")
        done = job.pool("record", "program", "placement", "trial", most=16 << 20)
        lines = done.lines
        if done.status not in (0, 1, 3, 4):
            raise Limit(trouble(done)["trouble"])
        at = next((i for i, line in enumerate(lines[1 + count:-1]) if not line.endswith(" idle")), None)
        if at is None:
            if lines[-1].startswith("end full") and (at := len(lines) - 2 - count) < len(events):
                found.append({"event": events[at], "effect": "no room: " + lines[-1]})
                events = events[at + 1:]
                continue
            break
        event = events[at]
        found.append({"event": event, "effect": lines[1 + count + at].split(" ", 1)[1][len(event) + 1:]})
        events = events[at + 1:]
    return found


def by_hand(job, program, nodes, lossy, quantum, placement, schedule, on):
    """The state after a schedule by hand, and what could be next. Without a placement or a schedule they are begun. With `on`, it goes on as long as one event alone could be next."""
    job.write("program", program)
    if placement is None:
        printed = job.pool("print", "program")
        if printed.status:
            return {"error": refused(job, printed, "program")} if printed.status == 2 else trouble(printed)
        placement = placement_of(printed.out, nodes)
    if schedule is None:
        schedule = f"quantum {quantum}\n" + ("wires lossy\n" if lossy else "")
    elif schedule and not schedule.endswith("\n"):
        schedule += "\n"
    job.write("placement", placement)
    until, steps = time.monotonic() + ON, 0
    while True:
        if schedule.count("\n") > CHOSEN:
            return {"trouble": f"A schedule by hand has at most {CHOSEN} lines."}
        job.write("schedule", schedule)
        done = job.pool("record", "program", "placement", "schedule")
        if done.status not in (0, 1, 3, 4):
            fault = refused(job, done, "program", "placement", "schedule")
            return {"error": fault, "placement": placement, "schedule": schedule} if fault else trouble(done)
        count, end = len(done.lines) - 2, done.lines[-1].split(" ")[1]
        choices = could(job, placement, schedule, events_of(placement, schedule), count) if end == "schedule" else []
        if not on or len(choices) != 1 or choices[0]["effect"].startswith("no room") or steps and time.monotonic() > until:
            break
        steps += 1
        schedule += choices[0]["event"] + "\n"
    if end == "schedule" and not choices:
        # nothing would do something: one more event shows how the run ends
        job.write("schedule", schedule + "turn 0\n")
        done = job.pool("record", "program", "placement", "schedule")
        end = done.lines[-1].split(" ")[1]
    told = told_of(job, done.out, done.status, end != "schedule")
    if end == "schedule":
        told["says"] = f"After {count} event{'s' * (count != 1)}: choose the next one." if count else "Before the first event: choose one."
    job.write("record", done.out)
    shown = job.explore("watch", "program", "record", *([str(count), str(count)] if count else []))
    if shown.status not in (0, 1):
        return trouble(shown)
    return {**told, "writes": written(done.out), "record": done.out, "placement": placement, "schedule": schedule, "state": shown.out, "could": choices}
