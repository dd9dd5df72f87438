"""What scripts of this folder share: the program, C programs built with gcc -O2, measured runs, and the history of figures.

Each script that imports this module takes the word `--note`, wherever it stands. It then appends its figures to bench/history.tsv, a row for
each: date, commit, script, row, value, unit. The first of them is the speed of the machine, in seconds for a loop of Python.
"""
import atexit, collections, datetime, functools, os, subprocess, sys, time

HERE = os.path.dirname(os.path.realpath(__file__))
TIMES = 3
HISTORY = os.path.join(HERE, 'history.tsv')
LOOP = '10,000,000 turns of a loop of Python'

# The status, the seconds of the clock and of the processor (user and system), and the peak memory in MiB.
Run = collections.namedtuple('Run', 'status clock used memory')


def program_of(words, name='pool'):
    """The path of the program that the words name, or of the one of this name that its script has built. Where it has not, the script ends, and says
    what to type."""
    if len(words) > 1:
        path = os.path.realpath(words[1])
        if not os.path.isfile(path) or not os.access(path, os.X_OK):
            sys.exit(f'{words[0]}: there is no program {words[1]}')
        return path
    script = os.path.join(HERE, '..', name)
    asks = 'top=$1; name=$2; set --; . "$top/tools/script.sh"; stop_unbuilt "$name" ", or name built programs as its words."'
    if subprocess.run(['sh', '-c', asks, os.path.realpath(words[0]), os.path.dirname(HERE), name]).returncode:
        sys.exit(2)
    if subprocess.run([script], stdin=subprocess.DEVNULL, stdout=subprocess.DEVNULL, stderr=subprocess.DEVNULL).returncode != 64:
        sys.exit(f'{words[0]}: ./{name} does not run')
    return os.path.join(HERE, '..', '.pool', name)


def compiled(folder, source, *flags):
    """The path of a C program of this folder, built into the given one."""
    path = os.path.join(folder, source.replace('/', '-') + ''.join(flags))
    subprocess.run(['gcc', '-O2', *flags, '-o', path, os.path.join(HERE, source)], check=True)
    return path


def files(folder, **texts):
    """The paths of files with these texts."""
    paths = []
    for name, text in texts.items():
        paths.append(os.path.join(folder, name))
        with open(paths[-1], 'wb') as f:
            f.write(text)
    return paths


def measured(folder, words, out, err=os.devnull):
    """One run of these words, with the output and the error lines in files."""
    launcher = os.path.join(folder, 'measure.c')
    if not os.path.exists(launcher):
        compiled(folder, 'measure.c')
    with open(err, 'wb') as errors:
        told = subprocess.run([launcher, out, *words], check=True, stdout=subprocess.PIPE, stderr=errors)
    status, clock, used, memory = told.stdout.split()
    return Run(int(status), float(clock), float(used), int(memory) / 1024)


def best(runs):
    """The least seconds of some runs, and the greatest peak memory."""
    return Run(runs[-1].status, min(r.clock for r in runs), min(r.used for r in runs), max(r.memory for r in runs))


def best_of_three(folder, words, out, err=os.devnull):
    return best([measured(folder, words, out, err) for _ in range(TIMES)])


def load():
    return 'load %.1f %.1f %.1f on %d processors; %s: %.2f s' % (*os.getloadavg(), os.cpu_count(), LOOP, loop_of_python())


@functools.cache
def loop_of_python():
    """The seconds of the processor for 10,000,000 turns of an empty loop of Python: how fast the machine is, the least of three."""
    spent = []
    for _ in range(TIMES):
        started = time.process_time()
        # (outside of a function, as in a script of one line)
        exec('for i in range(10_000_000): pass', {})
        spent.append(time.process_time() - started)
    return min(spent)


def note(row, value, unit, digits=3):
    """Keeps a figure for the history, if the script was called with `--note`."""
    if NOTES is not None:
        NOTES.append((row, f'{value:.{digits}f}'.rstrip('0').rstrip('.') if isinstance(value, float) else str(value), unit))


def note_run(name, run):
    """Keeps the time and the memory of a measured run."""
    note(f'{name}: time', run.used, 's')
    note(f'{name}: memory', run.memory, 'MiB', 1)


def append_notes(script, notes):
    commit = subprocess.run(['git', '-C', HERE, 'rev-parse', '--short=8', 'HEAD'], stdout=subprocess.PIPE, stderr=subprocess.DEVNULL, text=True).stdout.strip()
    with open(HISTORY, 'a', encoding='utf-8') as it:
        for row in notes:
            it.write('\t'.join([datetime.date.today().isoformat(), commit or 'none', script, *row]) + '\n')


def script_name(path):
    """The name of a script as pages have it: bench/search for bench/search/run."""
    return os.path.relpath(os.path.realpath(path), os.path.dirname(HERE)).removesuffix('/run')


NOTES = None
if '--note' in sys.argv[1:]:
    sys.argv.remove('--note')
    NOTES = []
    note(LOOP, loop_of_python(), 's')
    # (a run that was stopped has some figures, and the first line alone is none)
    atexit.register(lambda: len(NOTES) > 1 and append_notes(script_name(sys.argv[0]), NOTES))
