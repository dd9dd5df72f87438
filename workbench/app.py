"""The server of the workbench: it takes texts, has programs of the repository run on them, and gives JSON or a page."""
import json
import os
import re
import threading

import flask
from werkzeug.exceptions import HTTPException

import exercises
import questions
import runs
from jobs import Busy, Done, Gone, Limit

HERE = os.path.dirname(os.path.realpath(__file__))
TOP = os.path.dirname(HERE)

LARGEST_TEXT, LARGEST_REQUEST = 1 << 20, 1200 << 10
CODEMIRROR = "/usr/share/javascript/codemirror"
STATIC = {name: kind for kind, names in {
    "text/javascript": "main.js editor.js run.js hand.js ask.js exercises.js language.js share.js tools.js", "text/css": "workbench.css"}.items() for name in names.split()}
EDITOR = {"codemirror.js": ("lib/codemirror.js", "text/javascript"), "codemirror.css": ("lib/codemirror.css", "text/css"),
          "matchbrackets.js": ("addon/edit/matchbrackets.js", "text/javascript")}
EXAMPLES = "hello sum gcd error waiting doubling clerk unread counter buffer philosophers philosophers_in_order locks circle across lossy ring_of_twenty".split()
SAFE = "default-src 'self'; base-uri 'none'; form-action 'none'; frame-ancestors 'self'"
FRAME = "sandbox allow-scripts; default-src 'none'; script-src 'unsafe-inline'; style-src 'unsafe-inline'; frame-ancestors 'self'"
# The frame writes the page that the workbench hands it, and reads nothing else.
SHELL = """<!DOCTYPE html>
<html lang="en"><title>a run</title>
<script>
addEventListener('message', event => {
  if (event.source !== parent || typeof event.data !== 'string') return;
  document.open(); document.write(event.data); document.close();
}, { once: true });
parent.postMessage('ready', '*');
</script>
"""


class Wrong(Exception):
    """The request is refused; the text says why."""

    def __init__(self, says, status=400):
        super().__init__(says)
        self.says, self.status = says, status


# ---------------------------------------------------------------- what a request may say


def body():
    """The object that the request has."""
    if (flask.request.content_length or 0) > LARGEST_REQUEST:
        raise Wrong(f"The request has more than {LARGEST_REQUEST} bytes.", 413)
    if flask.request.mimetype != "application/json":
        raise Wrong("The body is no JSON (application/json).", 415)
    try:
        found = json.loads(flask.request.get_data().decode("utf-8"))
    except (ValueError, RecursionError):
        raise Wrong("The body is no JSON.")
    if not isinstance(found, dict):
        raise Wrong("The body is no object of JSON.")
    return found


def text(given, name, most=LARGEST_TEXT, default=None):
    """A text of the request."""
    found = given.get(name, default)
    if not isinstance(found, str):
        raise Wrong(f"{name} is no text.")
    try:
        if len(found.encode()) > most:
            raise Wrong(f"{name} has more than {most} bytes.", 413)
    except UnicodeEncodeError:
        raise Wrong(f"{name} is no text of Unicode.")
    return found


def number(given, name, least, most, default=None):
    found = given.get(name, default)
    if type(found) is not int or not least <= found <= most:
        raise Wrong(f"{name} is no number from {least} to {most}.")
    return found


def truth(given, name):
    found = given.get(name, False)
    if type(found) is not bool:
        raise Wrong(f"{name} is no truth value.")
    return found


def only(given, *names):
    for it in given:
        if it not in names:
            raise Wrong("The request has a word that the workbench does not know.")


def optional(given, name, take, *more):
    return None if given.get(name) is None else take(given, name, *more)


def nodes_of(given):
    found = number(given, "nodes", 1, 64, 1)
    if not runs.mesh_of(found):
        raise Wrong(f"There is no mesh of {found} nodes: it has W * H nodes, with W and H from 1 to 8.")
    return found


# ---------------------------------------------------------------- the application


def make(jobs, shown, programs, tries=None, proved=True):
    app = flask.Flask(__name__, static_folder=None)
    app.config["MAX_CONTENT_LENGTH"] = LARGEST_REQUEST
    lock = threading.Lock()

    def file(path, kind):
        response = flask.send_file(path, mimetype=kind, max_age=0, conditional=True)
        return response

    @app.before_request
    def own():
        """Refuses a request that another site's page made."""
        origin = flask.request.headers.get("Origin")
        if flask.request.method == "POST" and origin and origin.split("://")[-1] != flask.request.host:
            raise Wrong("The request comes from another site.", 403)

    @app.after_request
    def safe(response):
        response.headers.setdefault("Content-Security-Policy", SAFE)
        response.headers["X-Content-Type-Options"] = "nosniff"
        response.headers["Referrer-Policy"] = "no-referrer"
        response.headers.setdefault("Cache-Control", "no-store")
        return response

    def said(status, says, **headers):
        response = flask.jsonify({"refused": says})
        response.status_code = status
        response.headers.extend(headers)
        return response

    @app.errorhandler(Wrong)
    def wrong(it):
        return said(it.status, it.says)

    @app.errorhandler(Busy)
    def busy(_):
        return said(503, "The workbench is ending." if jobs.closing else "The workbench is busy: too many others are waiting. Try again in a few seconds.", **{"Retry-After": "3"})

    @app.errorhandler(Gone)
    def gone(_):
        return said(400, "The client has closed the connection.")

    @app.errorhandler(Limit)
    def limit(it):
        return flask.jsonify({"limit": str(it)})

    @app.errorhandler(HTTPException)
    def refused(it):
        says = {404: "There is no such page.", 405: "This page takes no such request.", 413: f"The request has more than {LARGEST_REQUEST} bytes."}
        return said(it.code or 400, says.get(it.code, "The request is refused."))

    def opened(long=False):
        return jobs.job(flask.request.environ.get("waitress.client_disconnected", lambda: False), long)

    # ---- pages

    @app.get("/")
    def index():
        return file(f"{HERE}/static/index.html", "text/html")

    @app.get("/static/<name>")
    def static(name):
        if name not in STATIC:
            raise Wrong("There is no such page.", 404)
        return file(f"{HERE}/static/{name}", STATIC[name])

    @app.get("/codemirror/<name>")
    def codemirror(name):
        if name not in EDITOR:
            raise Wrong("There is no such page.", 404)
        return file(f"{CODEMIRROR}/{EDITOR[name][0]}", EDITOR[name][1])

    @app.get("/favicon.ico")
    def icon():
        return "", 204

    @app.get("/frame")
    def frame():
        response = flask.Response(SHELL, mimetype="text/html")
        response.headers["Content-Security-Policy"] = FRAME
        return response

    @app.get("/api/setting")
    def setting():
        return flask.jsonify({
            "proved": proved, "sizes": runs.sizes(), "examples": examples, "exercises": [it.shown() for it in shown.values()], "tries": bool(tries),
            "questions": [{"name": it.name, "label": it.label, "fields": it.fields, "hint": it.hint, "shown": it.shown} for it in questions.QUESTIONS],
            "seconds": jobs.seconds, "memory": jobs.memory})

    # ---- jobs

    @app.post("/api/check")
    def check():
        given = body()
        only(given, "program")
        program = text(given, "program")
        with opened() as job:
            job.write("program", program)
            done = job.pool("print", "program")
            if done.status == 0:
                return flask.jsonify({"error": None})
            fault = runs.refused(job, done, "program")
            return flask.jsonify({"error": fault} if fault else runs.trouble(done))

    @app.post("/api/run")
    def run():
        given = body()
        only(given, "program", "nodes", "seed")
        program, nodes, seed = text(given, "program"), nodes_of(given), optional(given, "seed", number, 0, 99999999)
        with opened() as job:
            return flask.jsonify(runs.run(job, program, nodes, seed))

    @app.post("/api/hand")
    def hand():
        given = body()
        only(given, "program", "nodes", "lossy", "quantum", "placement", "schedule", "on")
        program, nodes = text(given, "program"), nodes_of(given)
        lossy, on, quantum = truth(given, "lossy"), truth(given, "on"), number(given, "quantum", 1, 10000, 20)
        placement, schedule = optional(given, "placement", text), optional(given, "schedule", text)
        with opened() as job:
            return flask.jsonify(runs.by_hand(job, program, nodes, lossy, quantum, placement, schedule, on))

    @app.post("/api/page")
    def page():
        given = body()
        only(given, "program", "placement", "schedule", "found", "title", "each")
        program, title = text(given, "program"), text(given, "title", 200, "a run")
        found, placement, schedule = (optional(given, it, text) for it in ("found", "placement", "schedule"))
        each = truth(given, "each")
        if found is None and (placement is None or schedule is None):
            raise Wrong("The request has no run.")
        title = re.sub(r"[\s\x00-\x1f\x7f]+", " ", title).lstrip("- ") or "a run"
        with opened() as job:
            job.write("program", program)
            if found is None:
                job.write("placement", placement)
                job.write("schedule", schedule)
                done = job.pool("record", "program", "placement", "schedule", most=8 << 20)
                if done.status not in (0, 1, 3, 4):
                    fault = runs.refused(job, done, "program", "placement", "schedule")
                    return flask.jsonify({"error": fault} if fault else runs.trouble(done))
                found = done.out
            job.write("found", found)
            done = job.run([programs["page"], *["--each"] * each, "program", "found", title], most=24 << 20)
            if done.status > 1:
                return flask.jsonify(runs.trouble(done))
            return flask.jsonify({"html": done.out})

    def streamed(job, told):
        """An answer in lines: counts while a job runs, and then what it told. The job ends with the answer, or with the connection."""
        def lines():
            try:
                for it in told:
                    yield json.dumps({"counts": it} if isinstance(it, str) else it) + "\n"
            except Limit as it:
                yield json.dumps({"limit": str(it)}) + "\n"
            except Gone:
                return
            finally:
                told.close()   # (it ends the program)
                job.close()
        response = flask.Response(lines(), mimetype="application/x-ndjson")
        response.headers["X-Accel-Buffering"] = "no"
        response.call_on_close(job.close)
        return response

    @app.post("/api/ask")
    def ask():
        given = body()
        only(given, "program", "question", "bound", "which", "outputs")
        program, name, bound = text(given, "program"), text(given, "question", 40), number(given, "bound", 1, 10000000, 1000000)
        question = questions.BY_NAME.get(name)
        if not question:
            raise Wrong("There is no such question.")
        which = number(given, "which", 1, 99999999, 1)
        outputs = text(given, "outputs", 60000, "").replace("\r", "").split("\n")
        if any("\0" in it for it in outputs):
            raise Wrong("outputs has a byte that no output has.")

        def told(job):
            job.write("program", program)
            for it in job.steps([programs["explore"], *question.call(bound, which, outputs)], counts=True):
                if not isinstance(it, Done):
                    yield it
                elif it.status in (0, 1, 3):
                    found = question.answer(it)
                    yield {**found, "waits": runs.stopped(job, program, it.out)} if found["run"] else found
                else:
                    fault = runs.refused(job, it, "program")
                    yield {"error": fault} if fault else runs.trouble(it)

        job = opened(True)
        return streamed(job, told(job))

    @app.post("/api/exercise")
    def exercise():
        given = body()
        only(given, "program", "exercise", "who")
        program, name, who = text(given, "program"), text(given, "exercise", 200), text(given, "who", 400, "")
        if name not in shown:
            raise Wrong("There is no such exercise.")

        def told(job):
            for it in exercises.steps(job, shown[name], program):
                if not isinstance(it, str) and tries:
                    with lock:
                        exercises.keep(tries, who, name, it["passed"])
                yield it

        job = opened(True)
        return streamed(job, told(job))

    examples = []
    for name in EXAMPLES:
        with open(f"{TOP}/examples/{name}/program", encoding="utf-8") as it:
            examples.append({"name": name, "program": it.read()})
    return app
