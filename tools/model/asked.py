"""Asks a built program about a text, and counts what is told right and wrong."""
import functools
import os
import subprocess
import sys
import tempfile
import threading
from concurrent.futures import ProcessPoolExecutor

TOP = os.path.dirname(os.path.dirname(os.path.dirname(os.path.realpath(__file__))))
# So many cases of tables are tried at once, and each call of them may take so many seconds.
JOBS, PATIENCE = 4, 600

# How many comparisons were right, and how many were not.
counts = {True: 0, False: 0}


def told(is_right, text):
    counts[bool(is_right)] += 1
    if not is_right:
        print(f"FAILED {text}"[:2000], flush=True)
    return is_right


def ended():
    """Writes the last line of a check, and gives its status: 0 where comparisons were right and none was not."""
    print(f"{counts[True]} passed, {counts[False]} failed")
    return 0 if counts[True] and not counts[False] else 1


def program(given, name):
    """The path of a program: of the one that is given, or of `pool` or `explore` of the repository. Ends the script where it does not run, and
    where it is not built: it says what to type."""
    path, script = os.path.abspath(given or f"{TOP}/{name}"), os.path.relpath(os.path.realpath(sys.argv[0]), TOP)
    if not given and subprocess.run(["sh", "-c", 'top=$1; name=$2; set --; . "$top/tools/script.sh"; stop_unbuilt "$name" ", or name built programs as its words."', os.path.realpath(sys.argv[0]), TOP, name]).returncode:
        sys.exit(2)
    try:
        status = subprocess.run([path], stdin=subprocess.DEVNULL, capture_output=bool(given)).returncode
    except OSError:
        status = None
    # (without words the program ends with this status)
    if status != 64:
        print(f"{script}: {path} is no such program", file=sys.stderr)
        sys.exit(2)
    # (the script at the top has built the program, and only runs it)
    return f"{TOP}/.pool/{name}" if os.path.realpath(path) == f"{TOP}/{name}" else path


def pool_and_tables(script, words, folder):
    """The path of `pool`, and the names of tables in this folder: those among the words of a script, or all. Ends the script where a word is
    wrong."""
    names = sorted(name.removesuffix(".txt") for name in os.listdir(f"{TOP}/{folder}") if name.endswith(".txt"))
    paths = [word for word in words if word not in names]
    if len(paths) > 1:
        print(f"usage: {script} [POOL] [TABLE..]", file=sys.stderr)
        sys.exit(2)
    return program(paths[0] if paths else None, "pool"), [word for word in words if word in names] or names


def short(text):
    """A text as a failure tells it."""
    return repr(text if len(text) <= 400 else text[:200] + b" [..] " + text[-200:])[1:]


def call(pool, folder, words, lines=None, **texts):
    """Runs `pool` with these words in a folder whose files have these names and texts. With a number of lines it is ended behind the first line and
    so many more."""
    for name, text in texts.items():
        with open(f"{folder}/{name}", "wb") as it:
            it.write(text)
    if lines is None:
        return subprocess.run([pool, *words], cwd=folder, stdin=subprocess.DEVNULL, capture_output=True, timeout=PATIENCE)
    with subprocess.Popen([pool, *words], cwd=folder, stdin=subprocess.DEVNULL, stdout=subprocess.PIPE, stderr=subprocess.DEVNULL) as process:
        alarm = threading.Timer(PATIENCE, process.kill)
        alarm.start()
        output = b"".join(process.stdout.readline() for _ in range(lines + 1))
        alarm.cancel()
        process.kill()
    return subprocess.CompletedProcess(words, process.returncode, output, b"")


def tried(pool, folder, case):
    """What differs in a case, or nothing. It runs in a folder of its own."""
    try:
        with tempfile.TemporaryDirectory(dir=folder) as own:
            return case.difference(pool, own)
    except subprocess.TimeoutExpired:
        return f"a call has not ended after {PATIENCE} seconds"


def try_cases(pool, cases):
    """Tries the cases of tables: each has its name, its row, and a function that gives what differs."""
    with tempfile.TemporaryDirectory() as folder, ProcessPoolExecutor(JOBS) as jobs:
        for case, difference in zip(cases, jobs.map(functools.partial(tried, pool, folder), cases, chunksize=4)):
            told(not difference, f"{case.name}: {case.row[:200]}\n    {difference}")


class Tried:
    """A program in a folder, and the commands of `explore` on it."""

    def __init__(self, arguments, folder, name, program):
        self.explore, self.folder, self.name, self.program = arguments.explore, folder, name, program
        with open(f"{folder}/program", "w", encoding="ascii") as it:
            it.write(program)

    def asks(self, *words, command="search"):
        """The lines of a command, and its status. A last line that is not ended, or a line on the error stream, has no place here."""
        try:
            done = subprocess.run([self.explore, command, *map(str, words)], cwd=self.folder, capture_output=True, text=True, timeout=600)
        except subprocess.TimeoutExpired:
            told(False, f"{self.name}: {command} {words} has not ended after ten minutes")
            return [""], None
        is_right = not done.stderr and done.stdout.endswith("\n")
        told(is_right, f"{self.name}: {command} {words} ends with {done.returncode}, {done.stdout[-100:]!r}, {done.stderr[-1000:]!r}")
        return (done.stdout.splitlines() if is_right else []) or [""], done.returncode
