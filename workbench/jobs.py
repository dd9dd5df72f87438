"""Jobs: each has a folder of its own, and runs programs of the repository there, under limits.

At most so many jobs run at once, and a short line waits; past it a job is refused (`Busy`). A job ends when its client has gone (`Gone`) or a
program meets a limit (`Limit`). Its folder and its processes go with it. If the server itself is killed, a second process, the caretaker, ends
all processes and removes all folders: each process has the name of the common folder in its environment.
"""
import collections
import os
import pty
import select
import shutil
import signal
import subprocess
import sys
import tempfile
import termios
import threading
import time

MARK = "POOL_WORKBENCH"
# Sets the limits of a process, and becomes the program. The soft limit of processor time sends a signal that tells it from others.
LIMITED = 'ulimit -S -t "$1"; ulimit -H -t $(($1 + 1)); ulimit -v "$2"; ulimit -f "$3"; ulimit -c 0; nice=$4; shift 4; exec nice -n "$nice" "$@"'
LARGEST_FILE = 64 << 20


class Busy(Exception):
    """The job is refused, since others wait."""


class Gone(Exception):
    """The client has closed its connection."""


class Limit(Exception):
    """A program met a limit; the text says which."""


class Done:
    """What a program told: its status, its two streams, and whether its output was cut."""

    def __init__(self, status, out, err):
        self.status, self.out, self.err = status, out, err

    @property
    def lines(self):
        return self.out.splitlines()


def marked(folder):
    """The processes that have the folder in their environment."""
    found, mark = [], f"{MARK}={folder}".encode()
    for name in os.listdir("/proc"):
        if name.isdigit():
            try:
                with open(f"/proc/{name}/environ", "rb") as it:
                    if mark in it.read().split(b"\0"):
                        found.append(int(name))
            except OSError:
                pass
    return found


def sweep(folder):
    """Ends all processes of the folder, and removes it."""
    while left := [it for it in marked(folder) if it != os.getpid()]:
        for number in left:
            try:
                os.kill(number, signal.SIGKILL)
            except ProcessLookupError:
                pass
        time.sleep(0.02)
    shutil.rmtree(folder, ignore_errors=True)


class Lane:
    """So many places, and a line of those that wait for one, in their order."""

    def __init__(self, places, line):
        self.lock, self.free, self.most, self.line = threading.Lock(), places, line, collections.deque()

    def enter(self, gone, seconds):
        with self.lock:
            if self.free and not self.line:
                self.free -= 1
                return
            if len(self.line) >= self.most:
                raise Busy
            turn = threading.Event()
            self.line.append(turn)
        until = time.monotonic() + seconds
        while not turn.wait(0.1):
            left = gone()
            if left or time.monotonic() > until:
                with self.lock:
                    if not turn.is_set():
                        self.line.remove(turn)
                        raise Gone if left else Busy
        return

    def leave(self):
        with self.lock:
            if self.line:
                self.line.popleft().set()
            else:
                self.free += 1


class Jobs:
    def __init__(self, programs, proved, at_once, seconds, memory, line=128):
        self.programs, self.at_once, self.seconds, self.memory = programs, at_once, seconds, memory
        self.all = Lane(at_once, line)
        # (searches leave at least half of the places to short jobs)
        self.long = Lane(max(1, at_once // 2), line)
        # (the checks of an unproved program reserve addresses without end, so there the memory in use is limited, by a word to these checks)
        self.addresses = str(memory * 1024) if proved else "unlimited"
        self.more = {} if proved else {"ASAN_OPTIONS": f"hard_rss_limit_mb={memory}:quarantine_size_mb=16"}
        self.line, self.lock, self.open, self.closing = line, threading.Lock(), set(), False
        self.folder = tempfile.mkdtemp(prefix="pool-workbench-")
        self.caretaker = subprocess.Popen([sys.executable, os.path.abspath(__file__), self.folder], stdin=subprocess.PIPE, stdout=subprocess.DEVNULL,
                                          start_new_session=True, cwd="/")

    def job(self, gone=lambda: False, long=False):
        """Takes a place and gives a job, which the caller closes."""
        if self.closing:
            raise Busy
        lanes = [self.long, self.all] if long else [self.all]
        entered = []
        try:
            for lane in lanes:
                lane.enter(gone, 3 * self.seconds)
                entered.append(lane)
            job = Job(self, gone, entered, 10 if long else 5)
        except BaseException:
            for lane in entered:
                lane.leave()
            raise
        with self.lock:
            self.open.add(job)
        return job

    def end(self):
        """Ends all jobs, and waits for the caretaker to clear up."""
        self.closing = True
        self.caretaker.stdin.close()
        self.caretaker.wait()


class Job:
    def __init__(self, jobs, gone, lanes, nice):
        self.jobs, self.gone, self.lanes, self.nice, self.closed = jobs, gone, lanes, nice, False
        self.folder = tempfile.mkdtemp(dir=jobs.folder)
        self.until = time.monotonic() + 3 * jobs.seconds + 5
        self.environment = {
            "PATH": "/usr/local/bin:/usr/bin:/bin", "LANG": "C.UTF-8", "HOME": self.folder, "TMPDIR": self.folder, "PYTHONDONTWRITEBYTECODE": "1",
            MARK: jobs.folder, "POOL": jobs.programs["pool"], "EXPLORE": jobs.programs["explore"], **jobs.more,
        }

    def __enter__(self):
        return self

    def __exit__(self, *_):
        self.close()

    def close(self):
        if not self.closed:
            self.closed = True
            shutil.rmtree(self.folder, ignore_errors=True)
            with self.jobs.lock:
                self.jobs.open.discard(self)
            for lane in self.lanes:
                lane.leave()

    def write(self, name, text):
        """Writes a file of the job. The name is one of the server's own words."""
        with open(f"{self.folder}/{name}", "wb") as it:
            it.write(text.encode() if isinstance(text, str) else text)
        return name

    def pool(self, *words, **more):
        return self.run([self.jobs.programs["pool"], *words], **more)

    def explore(self, *words, **more):
        return self.run([self.jobs.programs["explore"], *words], **more)

    def run(self, words, **more):
        """Runs a program to its end."""
        for told in self.steps(words, **more):
            if isinstance(told, Done):
                return told
        raise AssertionError("a program has no end")

    def steps(self, words, given=b"", most=4 << 20, counts=False):
        """Runs a program. With counts, its error stream is a terminal: gives each line of counts that it shows there, or "" after a while; at last what it told."""
        seconds = self.jobs.seconds
        limits = [str(seconds), self.jobs.addresses, str(LARGEST_FILE // 512), str(self.nice)]
        back = front = None
        if counts:
            back, front = pty.openpty()
            attributes = termios.tcgetattr(front)
            attributes[1] &= ~termios.OPOST
            termios.tcsetattr(front, termios.TCSANOW, attributes)
            termios.tcsetwinsize(front, (24, 200))
        process = None
        try:
            process = subprocess.Popen(["/bin/sh", "-c", LIMITED, "limits", *limits, *words], cwd=self.folder, env=self.environment, start_new_session=True,
                                       stdin=subprocess.PIPE if given else subprocess.DEVNULL, stdout=subprocess.PIPE, stderr=front if counts else subprocess.PIPE)
            if counts:
                os.close(front)
                front = None
            yield from self.read(process, back if counts else process.stderr.fileno(), given, most, counts)
        finally:
            for fd in (back, front):
                if fd is not None:
                    os.close(fd)
            if process:
                self.finish(process)

    def read(self, process, errors, given, most, counts):
        out, err = process.stdout.fileno(), errors
        told, poll, told_at = {out: bytearray(), err: bytearray()}, select.poll(), time.monotonic()
        for fd in told:
            poll.register(fd, select.POLLIN)
        if given:
            os.set_blocking(process.stdin.fileno(), False)
            poll.register(process.stdin.fileno(), select.POLLOUT)
        open_ends = set(told)
        while open_ends:
            for fd, _ in poll.poll(100):
                if given and fd == process.stdin.fileno():
                    given = self.feed(process, poll, given)
                    continue
                try:
                    got = os.read(fd, 1 << 16)
                except OSError:
                    got = b""   # (the end of a terminal)
                if not got:
                    poll.unregister(fd)
                    open_ends.discard(fd)
                told[fd] += got
                if len(told[fd]) > most:
                    raise Limit(f"It wrote more than {most >> 20} MiB, and was stopped.")
                if counts and fd == err:
                    lines = [it for it in bytes(told[err]).decode(errors="replace").replace("\x1b[K", "").split("\r") if it.strip()]
                    if lines and got and not lines[-1].startswith("pool: "):
                        told_at = time.monotonic()
                        yield lines[-1].strip()
            if self.gone():
                raise Gone
            if time.monotonic() > self.until:
                raise Limit(f"It was not at its end after {3 * self.jobs.seconds + 5} s, and was stopped.")
            if counts and time.monotonic() > told_at + 1:
                told_at = time.monotonic()
                yield ""
        status = self.status_of(process)
        if status == 128 + signal.SIGXCPU:
            raise Limit(f"It used {self.jobs.seconds} s of the processor, the most that the workbench allows, and was stopped.")
        if status == 128 + signal.SIGXFSZ:
            raise Limit(f"It wrote more than {LARGEST_FILE >> 20} MiB, and was stopped.")
        yield Done(status, *(bytes(it).decode(errors="replace") for it in (told[out], told[err])))

    def status_of(self, process):
        """Waits for the end of a program, and leaves it to `finish` to take it away: till then its number belongs to nobody else."""
        while not (end := os.waitid(os.P_PID, process.pid, os.WEXITED | os.WNOWAIT | os.WNOHANG)):
            if time.monotonic() > self.until:
                raise Limit(f"It was not at its end after {3 * self.jobs.seconds + 5} s, and was stopped.")
            time.sleep(0.001)
        return end.si_status if end.si_code == os.CLD_EXITED else 128 + end.si_status

    @staticmethod
    def feed(process, poll, given):
        """Hands on some of the standard input; gives the rest."""
        try:
            given = given[os.write(process.stdin.fileno(), given):]
        except OSError:
            given = b""
        if not given:
            poll.unregister(process.stdin.fileno())
            process.stdin.close()
        return given

    @staticmethod
    def finish(process):
        """Ends the program with all that it started."""
        try:
            os.killpg(process.pid, signal.SIGKILL)
        except ProcessLookupError:
            pass
        process.wait()
        for stream in (process.stdin, process.stdout, process.stderr):
            if stream:
                try:
                    stream.close()
                except OSError:
                    pass


def caretaker(folder):
    """Waits until the server is gone, and clears up."""
    for number in (signal.SIGINT, signal.SIGTERM, signal.SIGHUP):
        signal.signal(number, signal.SIG_IGN)
    while os.read(0, 1024):
        pass
    sweep(folder)


if __name__ == "__main__":
    caretaker(sys.argv[1])
