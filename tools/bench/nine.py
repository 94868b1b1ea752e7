#!/usr/bin/env python3
"""Runs nine tasks and compares what they store, or times them: nine.py check|time PROGRAM [OPTION..].

A task is a script of this folder. Its inputs are made from a seed: visits and pages with columns between tabs, or the lines
of a text. PROGRAM runs the script in a fresh folder, whose output has to be marked and to hold the lines that are computed
here from what the task means: in order for order and top10, as a bag elsewhere.

`check` runs each task by one worker and by four, with splits so small that there are many tasks, and says which runs store
otherwise. `time` prints a table for docs/SPEED.md: for each number of workers the wall seconds and the processor seconds of
the best turn, and the greatest peak of memory in MiB. The status is 1 where a run stores otherwise.
"""

import argparse
import collections
import contextlib
import datetime
import itertools
import os
import pathlib
import random
import re
import shutil
import subprocess
import sys
import tempfile
import typing

HERE = pathlib.Path(__file__).resolve().parent
MIB = 1 << 20
MOST_SECONDS = 60
CHECKED = (1, 4)
SPLIT = 100_000

BATCH = 10_000
DAYS = 30
TOPICS = "art cars chess cinema cooking fashion garden hiking history law math music news physics sport travel".split()
SYLLABLES = [consonant + vowel for vowel in "aeiouéöy" for consonant in "bcdfghjklmnprstv"]
BETWEEN = {" ": 84, ", ": 8, ". ": 4, " (": 1, ") ": 1, ' "': 1, "* ": 1}


# The inputs.


def weights(count, steepness):
    """The chances of so many things by Zipf's law, added up."""
    return list(itertools.accumulate(rank**-steepness for rank in range(1, count + 1)))


def reader(number):
    return f"r{number * 7901 % 99_991}"


def address(number):
    """Another address for each number; their order is not that of the numbers."""
    mixed = number * 0x85EBCA6B % 2**32
    return f"http://n{mixed % 997}.test/{mixed:x}"


def word(number):
    """Another word for each number, the shortest first."""
    ahead, last = divmod(number, len(SYLLABLES))
    return (word(ahead - 1) if ahead else "") + SYLLABLES[last]


def visit_lines(chance, readers, addresses):
    """Lines of a reader, an address, a second and a size; few readers and addresses are most of them."""
    reader_weights, address_weights = weights(readers, 1.0), weights(addresses, 0.7)
    while True:
        who = chance.choices(range(readers), cum_weights=reader_weights, k=BATCH)
        what = chance.choices(range(addresses), cum_weights=address_weights, k=BATCH)
        for a_reader, an_address in zip(who, what):
            second = chance.randrange(DAYS * 24 * 3600)
            size = min(2_000_000, int(200 * chance.paretovariate(0.8)))
            yield f"{reader(a_reader)}\t{address(an_address)}\t{second}\t{size}\n".encode()


def page_lines(chance, count):
    """Lines of an address, a topic and a place; each address stands once."""
    for number in chance.sample(range(count), count):
        yield f"{address(number)}\t{chance.choice(TOPICS)}\t{chance.randrange(100_000)}\n".encode()


def text_lines(chance, vocabulary):
    """Lines of 4 to 18 words."""
    words, word_weights = [word(number) for number in range(vocabulary)], weights(vocabulary, 1.05)
    marks, mark_weights = list(BETWEEN), list(itertools.accumulate(BETWEEN.values()))
    while True:
        length = chance.randint(4, 18)
        chosen = chance.choices(words, cum_weights=word_weights, k=length)
        between = chance.choices(marks, cum_weights=mark_weights, k=length)
        yield "".join(itertools.chain(*zip(chosen, between))).encode() + b"\n"


def fill(path, limit, lines):
    """Writes lines while they are at most so many bytes together."""
    with path.open("wb") as file:
        for each in lines:
            limit -= len(each)
            if limit < 0:
                break
            file.write(each)


def make_visits(chance, size, folder):
    """Some three visits to an address, and at most 50,000 readers."""
    fill(folder / "visits", size, visit_lines(chance, min(50_000, size // 524), size // 116))


def make_visits_and_pages(chance, size, folder):
    """Four bytes of visits for one of pages; some visits are to no page, and some pages have no visit."""
    visits, pages = size - size // 5, size // 5 // 40
    fill(folder / "pages", size // 5, page_lines(chance, pages))
    fill(folder / "visits", visits, visit_lines(chance, min(50_000, visits // 524), pages * 115 // 100))


def make_text(chance, size, folder):
    fill(folder / "text", size, text_lines(chance, min(200_000, size // 52)))


# The answers: the rows of each task.


def fields(path):
    with path.open("rb") as file:
        for each in file:
            yield each.rstrip(b"\n").split(b"\t")


def visits(folder):
    return ((who, what, int(second), int(size)) for who, what, second, size in fields(folder / "visits"))


def filtered(folder):
    return (row for row in visits(folder) if row[3] > 1000)


def projected(folder):
    return ((who, second // 3600, second % 60, size * 8 - 1000) for who, _, second, size in visits(folder))


def reader_sums(folder):
    sizes = collections.defaultdict(list)
    for who, _, _, size in visits(folder):
        sizes[who].append(size)
    return ((who, len(each), sum(each)) for who, each in sizes.items())


def address_bounds(folder):
    seconds, sizes = collections.defaultdict(list), collections.defaultdict(list)
    for _, what, second, size in visits(folder):
        seconds[what].append(second)
        sizes[what].append(size)
    return ((what, len(each), min(each), max(sizes[what])) for what, each in seconds.items())


def distinct_pairs(folder):
    return {(who, what) for who, what, _, _ in visits(folder)}


def known_visits(folder):
    pages = {what: (topic, place) for what, topic, place in fields(folder / "pages")}
    return ((who, what, *pages[what], size) for who, what, _, size in visits(folder) if what in pages)


def ranking(folder):
    return sorted(visits(folder), key=lambda row: (-row[3], *row))


def first_ten(folder):
    return ranking(folder)[:10]


def word_counts(folder):
    words = re.split(rb'[ ",()*\n]+', (folder / "text").read_bytes())
    return collections.Counter(filter(None, words)).items()


class Task(typing.NamedTuple):
    make: typing.Callable
    answer: typing.Callable
    in_order: bool = False


TASKS = {
    "filter": Task(make_visits, filtered),
    "project": Task(make_visits, projected),
    "group_sum": Task(make_visits, reader_sums),
    "group_high": Task(make_visits, address_bounds),
    "distinct": Task(make_visits, distinct_pairs),
    "join": Task(make_visits_and_pages, known_visits),
    "order": Task(make_visits, ranking, in_order=True),
    "wordcount": Task(make_text, word_counts),
    "top10": Task(make_visits, first_ten, in_order=True),
}


# The runs.


def line(row):
    return b"\t".join(it if isinstance(it, bytes) else b"%d" % it for it in row) + b"\n"


def lines_of(text, in_order):
    """The lines of a text, sorted where their order means nothing; behind the last line end stands an empty one."""
    lines = text.split(b"\n")
    return lines if in_order else sorted(lines)


class Inputs:
    """The inputs of a size, made when a task first wants them, and the answers."""

    def __init__(self, folder, mib, seed):
        self.folder, self.mib, self.seed = folder, mib, seed

    def of(self, task):
        folder = self.folder / task.make.__name__
        if not folder.exists():
            folder.mkdir()
            task.make(random.Random(self.seed), self.mib * MIB, folder)
        return folder

    def wanted(self, task):
        return lines_of(b"".join(map(line, task.answer(self.of(task)))), task.in_order)


@contextlib.contextmanager
def fresh_folder(name, inputs):
    """A folder with the inputs and the script of a task, and nothing else."""
    with tempfile.TemporaryDirectory() as folder:
        place = pathlib.Path(folder)
        for path in inputs.of(TASKS[name]).iterdir():
            (place / path.name).hardlink_to(path)
        shutil.copy(HERE / f"{name}.pig", place / "script.pig")
        yield place


def run(words, place, most_seconds=None):
    return subprocess.run(words, cwd=place, stdout=subprocess.PIPE, stderr=subprocess.STDOUT, timeout=most_seconds)


def difference(ended, place, wanted, in_order):
    """What a run left otherwise than wanted, or None."""
    if ended.returncode:
        return f"ends with {ended.returncode}: {ended.stdout.decode(errors='replace')}"
    if not (place / "out" / "_SUCCESS").exists():
        return "leaves its output without a marker"
    found = lines_of(b"".join(part.read_bytes() for part in sorted((place / "out").glob("part-*"))), in_order)
    if found == wanted:
        return None
    first, due = next((it, that) for it, that in itertools.zip_longest(found, wanted) if it != that)
    return f"stores {len(found) - 1} lines and not those {len(wanted) - 1}: {first} and not {due}"


def checked(program, name, workers, wanted, inputs):
    """What a run over small splits left otherwise than wanted, or None."""
    with fresh_folder(name, inputs) as place:
        words = [program, "run", "--workers", str(workers), "--split", str(SPLIT), "script.pig"]
        return difference(run(words, place, MOST_SECONDS), place, wanted, TASKS[name].in_order)


def timed(program, name, workers, wanted, inputs):
    """What a run left otherwise than wanted, or None; its wall and processor seconds and its peak in KiB."""
    with fresh_folder(name, inputs) as place:
        meter = [sys.executable, "-S", "-E", HERE / "meter.py", "figures"]
        ended = run([*meter, program, "run", "--workers", str(workers), "script.pig"], place)
        found = difference(ended, place, wanted, TASKS[name].in_order)
        return found, [float(it) for it in (place / "figures").read_text().split()]


def check_all(options, inputs):
    """Runs each task by each number of workers; how many runs store otherwise."""
    off = 0
    for name in options.tasks:
        wanted = inputs.wanted(TASKS[name])
        for workers in CHECKED:
            found = checked(options.program, name, workers, wanted, inputs)
            if found:
                print(f"{name} by {workers} workers {found}")
                off += 1
    runs = len(options.tasks) * len(CHECKED)
    print(f"{runs - off} of {runs} runs of the nine store their lines")
    return off


def machine():
    """How many processors this machine has, and which."""
    named = re.search(r"model name\s*: (.*)", pathlib.Path("/proc/cpuinfo").read_text())
    return f"{os.cpu_count()} processors" + (f" ({named[1]})" if named else "")


def row(cells):
    print("|", " | ".join(cells), "|", flush=True)


def time_all(options, inputs):
    """Prints the table; how many runs store otherwise, whose figures it passes over."""
    off = 0
    print(f"{options.mib} MiB, the best of {options.turns}, {datetime.date.today()}, {machine()}\n")
    row(["task", *itertools.chain(*((f"by {it}: wall s", "CPU s", "peak MiB") for it in options.workers))])
    print("|---" * (1 + 3 * len(options.workers)) + "|")
    for name in options.tasks:
        wanted = inputs.wanted(TASKS[name])
        turns = {workers: [] for workers in options.workers}
        # (the numbers of workers take turns, so that a busy minute falls on all of them)
        for _, workers in itertools.product(range(options.turns), options.workers):
            found, figures = timed(options.program, name, workers, wanted, inputs)
            if found:
                print(f"{name} by {workers} workers {found}", file=sys.stderr)
                off += 1
            else:
                turns[workers].append(figures)
        row([name, *itertools.chain(*map(best, turns.values()))])
    return off


def best(turns):
    """The wall and processor seconds of the best turn, and the greatest peak in MiB."""
    if not turns:
        return ["", "", ""]
    wall, processors, _ = min(turns)
    return [f"{wall:.3f}", f"{processors:.2f}", f"{max(peak for _, _, peak in turns) / 1024:.0f}"]


def program(path):
    if not os.access(path, os.X_OK):
        raise argparse.ArgumentTypeError(f"{path} is no program")
    return pathlib.Path(path).resolve()


def read_options():
    parser = argparse.ArgumentParser(description=__doc__, formatter_class=argparse.RawDescriptionHelpFormatter)
    uses = parser.add_subparsers(required=True)
    checking, timing = uses.add_parser("check"), uses.add_parser("time")
    checking.set_defaults(use=check_all)
    timing.set_defaults(use=time_all)
    for use, mib in ((checking, 1), (timing, 64)):
        use.add_argument("program", type=program)
        use.add_argument("--mib", type=int, default=mib, help="how large the inputs of a task are together")
        use.add_argument("--seed", type=int, default=1)
        use.add_argument("--tasks", nargs="+", choices=TASKS, default=list(TASKS), metavar="TASK")
    timing.add_argument("--workers", type=int, nargs="+", default=[1, 4])
    timing.add_argument("--turns", type=int, default=3)
    return parser.parse_args()


def main():
    options = read_options()
    with tempfile.TemporaryDirectory() as folder:
        off = options.use(options, Inputs(pathlib.Path(folder), options.mib, options.seed))
    return 1 if off else 0


sys.exit(main())
