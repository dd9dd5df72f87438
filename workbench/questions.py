"""The questions that `explore` answers about all runs of a program: one row each. The page shows what is in this table, and asks nothing else."""

def cause(lines):
    """Why an answer is unknown, by its line `reason`: a sentence or two, of an answer that is known an empty text."""
    told = {words[0]: words[1:] for words in (line.split(" ") for line in lines) if words[0] in ("reason", "mailbox", "end")}
    reason = told.get("reason")
    if not reason:
        return ""
    if reason[0] == "transitions":
        return f"The object {reason[1]} of class {reason[2]} computes on: the search followed 1,000,000 transitions in a row that need no choice."
    if reason[0] == "limit":
        return "The search met a limit of its own."
    full = "" if "mailbox" not in told else " Then {2} messages to the object {0} of class {1} were waiting; if it gets them faster than it takes them, no bound is large enough.".format(*told["mailbox"])
    return f"The search ended after {told['end'][-1]} configurations.{full} A larger bound may help."


class Question:
    """A question: its name, what the page calls it, the words of the call, what a person fills in, and a sentence for each end.

    In the words, `N` stands for the number of configurations, `J` for the number of an outcome, and `OUTPUTS` for the lines of outputs. The sentence
    is chosen by the second word of the last line; `{0}` is its number.
    """

    def __init__(self, name, label, words, says, fields=(), hint="", shown=True):
        self.name, self.label, self.words, self.says, self.fields, self.hint, self.shown = name, label, words.split(), says, fields, hint, shown

    def call(self, bound, which, outputs):
        words = []
        for word in self.words:
            if word == "OUTPUTS":
                words += outputs
            else:
                words.append({"P": "program", "N": str(bound), "J": str(which)}.get(word, word))
        return words

    def answer(self, done):
        """What a call told, as the page shows it."""
        last = done.lines[-1].split(" ")
        # (of a grade that is refused the one outcome is that of the run that is shown)
        wrote = [" ".join(line.split(" ")[2:]) for line in done.lines if line.startswith("wrote ") and self.name == "grade" and done.status == 1]
        return {"status": done.status, "kind": last[1], "says": self.says.get(last[1], self.says.get("else", "")).format(last[-1], cause(done.lines)), "text": done.out,
                "outcomes": [line[6:] for line in done.lines if line.startswith("wrote ")], "waits": [], "wrote": wrote[0] if wrote else None,
                "run": any(line.startswith("step ") for line in done.lines)}


ALL = "This holds for all runs, with any placement and schedule; the search kept {0} configurations."
OVER = "Unknown. {1}"
QUESTIONS = [
    Question("trouble", "Can it deadlock, or meet a run-time error?", "search P N", {
        "stuck": "Yes, it can deadlock: a run leads to an object that waits in a call for good.",
        "fault": "Yes, it can meet an error: a run leads to the object that stops there.",
        "finite": "No. In no run does an object wait in a call for good, and none meets a run-time error. " + ALL, "over": OVER}),
    Question("deadlock", "Can it deadlock?", "search stuck P N", {
        "stuck": "Yes, it can deadlock: a run leads to an object that waits in a call for good.",
        "finite": "No. In no run does an object wait in a call for good. Run-time errors were not looked for. " + ALL, "over": OVER}),
    Question("error", "Can it meet a run-time error?", "search fault P N", {
        "fault": "Yes, it can meet an error: a run leads to the object that stops there.",
        "finite": "No. In no run does an object meet a run-time error. Deadlocks were not looked for. " + ALL, "over": OVER}),
    Question("left", "Can anything be left at the end: an object at an answer, or a message?", "search stuck all P N", {
        "stuck": "Yes, something can be left: after a run these objects wait, or a message lies that nobody accepts. A server that waits at its answer is left, too.",
        "finite": "No, nothing can be left: where a run comes to its end, no object is at an answer, a select or in a call, and all messages were accepted. " + ALL, "over": OVER}),
    Question("outcomes", "What can it write, and how can it end?", "search writes P N", {
        "finite": "These are all outcomes. " + ALL,
        "over": "There may be more outcomes. {1}"}),
    Question("outcome", "A run with the outcome number J", "search run J P N", {
        "finite": "There is no such outcome.", "over": OVER, "else": "The run below has this outcome."}, fields=("which",), shown=False),
    Question("grade", "Does each run write one of the outputs below?", "grade P N OUTPUTS", {
        "finite": "Yes. Some run ends, and each that does writes one of them. No run leads to an error or to an object that waits in a call for good. " + ALL, "over": OVER,
        "running": "No run ends, and so none writes another output. None leads to an error or to an object that waits in a call for good.",
        "stuck": "No. A run leads to an object that waits in a call for good.", "fault": "No. A run leads to a run-time error.",
        "else": "No. A run ends and has written something else."}, fields=("outputs",),
        hint="One output in each line, with a space between its items; a string stands in quotes. An empty line is the output of a run that writes nothing."),
]
BY_NAME = {it.name: it for it in QUESTIONS}
