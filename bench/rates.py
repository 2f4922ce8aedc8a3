"""Runs the program of crates/hx_rates, which measures parts of the exchange, and reads what it prints."""
import os, statistics, subprocess, sys

import measuring
from measuring import TOP

CRATE = os.path.join(TOP, 'crates', 'hx_rates')


def built():
    """The program, which is proved and built first where it is missing or old."""
    subprocess.run([os.path.join(TOP, 'tools', 'prove'), 'hx_rates'], check=True)
    with open(os.path.join(CRATE, 'stdin'), 'rb') as tape:
        subprocess.run(['rt', 'run', '--', 'small'], cwd=CRATE, stdin=tape, stdout=subprocess.DEVNULL, check=True)
    return os.path.join(CRATE, 'out', 'hx_rates')


def asked(text, *more):
    """What the command line asks for: a program, how often it is run, and whether a little is enough."""
    runs = ('--runs', {'type': int, 'default': 3, 'help': 'how often each thing is measured (3)'})
    words = measuring.asked(text, runs, *more, program=None,
                            which='a built hx_rates; unless it is given, it is proved and built first')
    words.program = words.program or built()
    words.runs = 1 if words.small else words.runs
    return words


def run(program, words, tape=b''):
    """What one run did: its name, the count, the unit, and the nanoseconds, of each thing that it measured."""
    ended = subprocess.run([program, *map(str, words)], input=tape, capture_output=True)
    if ended.returncode != 0:
        sys.exit('hx_rates %s: %s' % (' '.join(map(str, words)), ended.stderr.decode()))
    done = [row.split(': ') for row in ended.stdout.decode().splitlines() if ': ' in row]
    times = ended.stderr.decode().split()
    return [(what, int(count.split()[0]), count.split()[1], int(took)) for (what, count), took in zip(done, times)]


def summary(runs):
    """Of several runs: the name, the unit, and the least and the median nanoseconds for each of that unit."""
    for each in zip(*runs):
        what, count, unit, _ = each[0]
        times = [took / count for *_, took in each]
        yield what, unit, min(times), statistics.median(times)


def tell(runs, name=None):
    """Prints a line for each thing that was measured."""
    for what, unit, least, median in summary(runs):
        print('%-36s least %9.0f ns, median %9.0f ns for each of the %s' % (name or what, least, median, unit), flush=True)


def show(program, words, runs, tape=b'', name=None):
    """Measures in `runs` runs, and prints a line for each thing."""
    tell([run(program, words, tape) for _ in range(runs)], name)
