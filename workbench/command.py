"""The command tools/workbench: its words, what it finds, and the server."""
import argparse
import os
import signal
import sys
import time

import exercises
from jobs import Jobs

TOP = os.path.dirname(os.path.dirname(os.path.realpath(__file__)))
CODEMIRROR = "/usr/share/javascript/codemirror"


def stop(says, status=2):
    print(f"tools/workbench: {says}", file=sys.stderr)
    sys.exit(status)


def programs_of():
    """The programs and scripts that are run, and whether the programs are proved."""
    found = {name: f"{TOP}/tools/{name}" for name in ("where", "fair", "stuck", "place", "page")}
    for word, name in (("POOL", "pool"), ("EXPLORE", "explore")):
        if os.environ.get(word):
            found[name] = os.path.abspath(os.environ[word])
    proved = True
    for name in ("pool", "explore"):
        if name in found:
            if not os.access(found[name], os.X_OK):
                stop(f"{found[name]}: no program that can be run", 70)
        else:
            places = [f"{TOP}/.pool/{name}", f"{TOP}/bin/{name}", f"{TOP}/.pool/unproved/{name}"]
            found[name] = next((it for it in places if os.access(it, os.X_OK)), None)
            if not found[name]:
                stop(f"there is no {name}: ./{name} proves and builds it; `tools/unproved {'print' if name == 'pool' else 'search'} ..` compiles it in two minutes without proofs", 70)
        proved = proved and "/unproved/" not in found[name]
    return found, proved


class Words(argparse.ArgumentParser):
    def error(self, message):
        stop("usage: tools/workbench [--port 8000] [--address 127.0.0.1] [--exercises FOLDER] [--tries FILE] [--jobs N] [--seconds 10] [--memory 512]")


def main():
    words = Words(add_help=False)
    words.add_argument("--port", type=int, default=8000)
    words.add_argument("--address", default="127.0.0.1")
    words.add_argument("--exercises", default=f"{TOP}/examples/exercises")
    words.add_argument("--tries")
    words.add_argument("--jobs", type=int, default=len(os.sched_getaffinity(0)))
    words.add_argument("--seconds", type=int, default=10)
    words.add_argument("--memory", type=int, default=512)
    asked = words.parse_args()
    if not (0 <= asked.port <= 65535 and 1 <= asked.jobs <= 256 and 1 <= asked.seconds <= 3600 and 64 <= asked.memory <= 65536):
        words.error("")
    if not os.path.isfile(f"{CODEMIRROR}/lib/codemirror.js"):
        stop("there is no CodeMirror here; `apt-get install libjs-codemirror` installs it", 70)
    programs, proved = programs_of()
    try:
        shown = exercises.read(asked.exercises)
        if asked.tries:
            with open(asked.tries, "a", encoding="utf-8"):
                pass
    except (OSError, ValueError) as it:
        stop(it)
    # (these take long to read, so other words are refused before)
    import app as application
    import waitress
    jobs = Jobs(programs, proved, asked.jobs, asked.seconds, asked.memory)
    app = application.make(jobs, shown, programs, asked.tries and os.path.abspath(asked.tries), proved)
    try:
        server = waitress.create_server(app, host=asked.address, port=asked.port, threads=asked.jobs + jobs.line + 8, ident=None, connection_limit=2000, channel_timeout=120,
                                        channel_request_lookahead=1, max_request_body_size=8 << 20, asyncore_use_poll=True, backlog=1024)
    except OSError as it:
        jobs.end()
        stop(f"{asked.address}:{asked.port}: {it.strerror or it}", 70)
    until, idle = [], []

    def ends(*_):
        """At a signal: no job is begun any more; when the last one is done, or its time is over, or at a second signal, the server ends."""
        if jobs.closing:
            signal.setitimer(signal.ITIMER_REAL, 0)
            raise SystemExit
        jobs.closing = True
        until.append(time.monotonic() + 3 * asked.seconds + 8)
        signal.setitimer(signal.ITIMER_REAL, 0.3, 0.2)

    def looks(*_):
        # (the answer of the last job is still on its way the first time that no job is open)
        idle.append(not jobs.open)
        if idle[-3:] == [True] * 3 or time.monotonic() > until[0]:
            signal.setitimer(signal.ITIMER_REAL, 0)
            raise SystemExit

    signal.signal(signal.SIGALRM, looks)
    for it in (signal.SIGINT, signal.SIGTERM, signal.SIGHUP):
        signal.signal(it, ends)
    port = getattr(server, "effective_port", asked.port)
    host = f"[{asked.address}]" if ":" in asked.address else asked.address
    print(f"http://{host}:{port}/", flush=True)
    if not proved:
        print("tools/workbench: pool and explore were compiled without proofs; nothing that they write is claimed", file=sys.stderr, flush=True)
    try:
        server.run()
    finally:
        jobs.end()


if __name__ == "__main__":
    main()
