"""Exercises: a folder has a folder for each. What its files `checks`, `solution` and `wrong` have is never sent to a browser.

    text.md     the exercise, in a few forms of Markdown; its first line is the title
    start       a program to begin with
    checks/     files, in the order of their names. Each is the text that is put behind the answer. Its last lines are comments `# expect ITEM*`,
                one for each output that is allowed, as for tools/grade
    solution, wrong-1, wrong-2, ..    a right answer and wrong ones, for those who write exercises; the workbench does not read them

An answer passes if for each check every run that ends writes one of the outputs, some run ends, and no run leads to an error or to an object that
waits in a call for good.
"""
import os
import re
import time

import questions
import runs

BOUND = 1000000
EXPECT = re.compile(r"# expect(?: (.*))?$")
OPEN = {"body": 2, "own": 3, "serve": 4, "take": 3}


class Exercise:
    def __init__(self, folder, name):
        self.name = name
        with open(f"{folder}/text.md", encoding="utf-8") as it:
            self.text = it.read()
        with open(f"{folder}/start", encoding="utf-8") as it:
            self.start = it.read()
        self.title = self.text.split("\n", 1)[0].lstrip("# ").strip()
        self.checks = []
        for file in sorted(os.listdir(f"{folder}/checks")):
            with open(f"{folder}/checks/{file}", encoding="utf-8") as it:
                self.checks.append(Check(it.read(), f"{folder}/checks/{file}"))
        if not self.checks:
            raise ValueError(f"{folder}/checks has no file")

    def shown(self):
        """What a browser gets."""
        return {"name": self.name, "title": self.title, "text": self.text, "start": self.start}


class Check:
    def __init__(self, text, name):
        self.text, self.outputs = text if text.endswith("\n") else text + "\n", []
        for line in reversed(self.text.splitlines()):
            found = EXPECT.match(line)
            if not found:
                break
            self.outputs.insert(0, found[1] or "")
        if not self.outputs:
            raise ValueError(f"{name}: its last lines are not comments '# expect ITEM*'")
        self.classes = re.findall(r"(?m)^\s*class\s+(\w+)", self.text)


def read(folder):
    """The exercises of a folder, by their names. The order is that of the file `order`, if there is one, and then that of the names."""
    order = []
    if os.path.isfile(f"{folder}/order"):
        with open(f"{folder}/order", encoding="utf-8") as it:
            order = it.read().split()
    names = sorted(it for it in os.listdir(folder) if os.path.isfile(f"{folder}/{it}/text.md"))
    names.sort(key=lambda it: order.index(it) if it in order else len(order))
    return {it: Exercise(f"{folder}/{it}", it) for it in names}


def kept(line, names):
    """A line of `explore watch` as the page may show it: of an object of the check nothing that it would do after its next step."""
    words = line.split(" ")
    if words[0] in OPEN and words[1] in names:
        head, _, rest = line.partition(" :")
        depth = 0
        for at, word in enumerate(rest.split(" ")):
            depth += (word == "[") - (word == "]")
            if word == "]" and depth == 0:
                return f"{head} :" + " ".join(rest.split(" ")[: at + 1])
        hole = re.search(r"\{ \w+ \}", rest)
        return f"{head} : {hole[0]}" if hole else f"{head} :"
    return line


def cut(watched, classes):
    """The text of `explore watch` without what the objects of these classes have still to do."""
    names = set(re.findall(rf"(?m)^object (\S+) (?:{'|'.join(classes)})(?: |$)", watched)) if classes else set()
    return "".join(kept(line, names) + "\n" for line in watched.splitlines())


def page_of(job, check, answer, found, title):
    """The page of a run that a search shows. Of the program it has the answer alone."""
    record = runs.record_of(found)
    job.write("record", record)
    watched = job.explore("watch", "program", "record", most=16 << 20)
    if watched.lines[-1:][0].startswith("no end"):   # some objects go on
        job.write("record", re.sub(r"end quiet (\d+)\n$", r"end schedule \1\n", record))
        watched = job.explore("watch", "program", "record", most=16 << 20)
    job.write("watched", cut(watched.out, check.classes))
    job.write("answer", answer)
    return job.run([job.jobs.programs["page"], "answer", "watched", title], most=24 << 20).out


def misfit(job, check, answer, done):
    """What is told of a fault: its place in the answer; or, where it is in the text of the check, the sentence alone."""
    found = runs.refused(job, done, "program")
    if not found:
        return runs.trouble(done)
    if found["line"] <= answer.count("\n"):
        return {"passed": False, "error": found}
    says = {"ClassTwice": f"Your program has a class {found['token']}, and the check has a class of this name, too: rename yours.",
            "UnknownClass": f"The check needs a class {found['token']}, and your program has none.",
            "UnknownMethod": f"The check calls a method {found['token']}, and your class has none of this name.",
            "ArgumentCount": f"The check calls {found['token']} with another number of arguments than your method has.",
            "NoResult": f"The check uses the result of {found['token']}, and your method has none.",
            "Unexpected": "Your program is not complete: it has no class, or its last class has no end."}
    return {"passed": False, "says": says.get(found["name"], f"The check uses your classes in another way ({found['name']}: {found['sentence']}). Compare the names, parameters and results with the text.")}


def steps(job, exercise, answer):
    """Tries an answer: gives lines of counts, and at last what is told of it."""
    answer = answer if answer.endswith("\n") or not answer else answer + "\n"
    for check in exercise.checks:
        job.write("program", answer + check.text)
        done = None
        for told in job.steps([job.jobs.programs["explore"], "grade", "program", str(BOUND), *check.outputs], counts=True):
            if isinstance(told, str):
                yield told
            else:
                done = told
        told = verdict(job, check, answer, done)
        if told:
            yield {"passed": False, **told}
            return
    yield {"passed": True, "says": "Passed: every run that ends does what the exercise asks, with any placement and schedule, and none leads to an error or a deadlock."}


def verdict(job, check, answer, done):
    """What is told where the answer does not pass this check; nothing where it does."""
    if done.status == 2:
        return misfit(job, check, answer, done)
    last = done.lines[-1].split(" ") if done.lines else ["", "", ""]
    if done.status == 3 and last[1] == "running":
        return {"says": "No run of your program ends: some object is busy for ever."}
    if done.status == 0:
        return None
    if done.status == 3:
        return {"says": f"Undecided. {questions.cause(done.lines)} Your program may make many more steps than the exercise needs."}
    if done.status != 1:
        return runs.trouble(done)
    wrote = next((line.split(" ", 2) for line in done.lines if line.startswith("wrote ")), None)
    kind = wrote[1] if wrote else last[1]
    items = wrote[2] if wrote and len(wrote) > 2 else ""
    fault = next((line.split(" ")[3] for line in reversed(done.lines) if line.startswith("step fault ")), "")
    if kind == "fault":
        says = f"Not passed: a run meets the run-time error {fault}" + (f", after it wrote {items}." if items else ".")
    elif kind == "stuck":
        says = "Not passed: a run comes to an object that waits in a call for good" + (f". It wrote {items}." if items else ", and nothing is written.")
    else:
        says = f"Not passed: a run writes {items}, which the exercise does not ask for." if items else "Not passed: a run ends and writes nothing."
    waits = [it if it.get("line", 0) <= answer.count("\n") else {"text": it["text"]} for it in runs.stopped(job, answer + check.text, done.out)]
    return {"says": says, "html": page_of(job, check, answer, done.out, "why it is not passed"), "others": bool(check.classes), "waits": waits}


def keep(file, who, name, passed):
    """Adds a line for a try to a file."""
    who = re.sub(r"\s+", " ", who).strip()[:80]
    with open(file, "a", encoding="utf-8") as it:
        it.write(f"{time.strftime('%Y-%m-%dT%H:%M:%S')}\t{who}\t{name}\t{'passed' if passed else 'not passed'}\n")
