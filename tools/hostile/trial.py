"""A case: a script with its inputs, and what the language says that a run of it does. Runs it within limits and compares."""

import os
import pathlib
import resource
import shutil
import signal
import subprocess
import sys
import tempfile
import time
from dataclasses import dataclass, field

MIB = 1 << 20
MARKER = "_SUCCESS"
WANTING = b"pig: out of memory\n"

sys.setrecursionlimit(10_000)  # for folders in folders


@dataclass
class Case:
    """What is not said is not compared: `printed` of a run that ends well, and the console's numbers of read and shuffled."""

    name: str
    script: bytes
    status: int | tuple = 0  # several where the language leaves it open
    printed: bytes | None = None
    inputs: dict = field(default_factory=dict)  # bytes, or what makes the input at a path
    stored: dict = field(default_factory=dict)  # the lines of each output, in the order of the STOREs
    ordered: bool = False
    verb: str = "run"
    options: tuple = ()
    named: bytes = b"script.pig"
    console: str | None = None  # a device in the place of the console
    file_size: int | None = None
    seconds: float = 10  # of the clock, or, on a busy machine, of the processors
    mib: int = 1024  # of address space
    stack: float | None = None  # MiB that the first thread has; the others have 2 MiB
    why: str = ""  # of the status where it is not plain, and of limits other than those above


@dataclass
class Run:
    status: int
    printed: bytes
    errors: bytes
    seconds: float
    peak: float  # MiB
    ended: bool


def limits(mib, file_size=None, stack=None):
    def before():
        if stack is not None:
            resource.setrlimit(resource.RLIMIT_STACK, (int(stack * MIB),) * 2)
        if mib is not None:
            resource.setrlimit(resource.RLIMIT_AS, (int(mib * MIB),) * 2)
        if file_size is not None:
            resource.setrlimit(resource.RLIMIT_FSIZE, (file_size,) * 2)
    return before


def run(program, words, place, mib=None, seconds=100, console=None, file_size=None, stack=None):
    """Runs the program in a folder, with so much address space; a status above 128 is a signal."""
    with tempfile.NamedTemporaryFile() as figures, tempfile.TemporaryFile() as out, tempfile.TemporaryFile() as err:
        began = time.monotonic()
        timed = ["/usr/bin/time", "-q", "-f", "%M %U %S", "-o", figures.name, program, *words]
        process = subprocess.Popen(timed, cwd=place, stdin=subprocess.DEVNULL, stdout=open(console, "wb") if console else out,
                                   stderr=err, start_new_session=True, restore_signals=False,
                                   preexec_fn=limits(mib, file_size, stack))
        try:
            status, ended = process.wait(seconds), True
        except subprocess.TimeoutExpired:
            os.killpg(process.pid, signal.SIGKILL)
            status, ended = process.wait(), False
        took = time.monotonic() - began
        out.seek(0)
        err.seek(0)
        peak, user, system = map(float, figures.read().split() or [0] * 3)
        return Run(status, out.read(), err.read(), min(took, user + system), peak / 1024, ended)


def make(inputs, place):
    for path, content in inputs.items():
        at = os.path.join(os.fsencode(place), os.fsencode(path))
        os.makedirs(os.path.dirname(at), exist_ok=True)
        if callable(content):
            content(at)
        else:
            with open(at, "wb") as file:
                file.write(content)


def parts(folder):
    return b"".join(part.read_bytes() for part in sorted(folder.glob("part-*"), key=lambda path: path.name))


def marked(folder):
    return (folder / MARKER).exists()


def holds(folder, lines, ordered):
    """Whether a folder has just these lines, as a list or as a bag."""
    told = parts(folder)
    if told and not told.endswith(b"\n"):
        return False
    told = told.split(b"\n")[:-1]
    return told == list(lines) if ordered else sorted(told) == sorted(lines)


def outputs(place, before, expected):
    """The folders that a run made: those that are expected, and each other one in which no folder was made."""
    made = {path for path in place.rglob("*") if path not in before and path.is_dir()}
    above = {parent for path in made for parent in path.parents}
    wanted = {place / path for path in expected}
    return sorted(path for path in made if path in wanted or path not in above)


def faults(case, place, before, told):
    """What a run did otherwise than it may."""
    allowed = case.status if isinstance(case.status, tuple) else (case.status,)
    if not told.ended:
        yield "does not end"
        return
    if told.status > 128:
        yield f"ends by signal {told.status - 128}"
    elif told.status not in allowed:
        yield f"status {told.status} {told.printed[:80]!r}, not {case.status}"
    if told.errors:
        yield f"says {told.errors[:80]!r}"
    if told.seconds > case.seconds:
        yield f"takes {told.seconds:.1f} s"
    if told.peak > case.mib:
        yield f"takes {told.peak:.0f} MiB"
    if case.printed is not None and told.status in allowed and told.printed != case.printed:
        yield f"prints {told.printed[:80]!r}, not {case.printed[:80]!r}"
    made = outputs(place, before, case.stored)
    unmarked = [path for path in made if not marked(path)]
    if len(unmarked) > (told.status in (6, 9) or told.status > 128):
        yield f"leaves {unmarked[0].name} without a marker"
    for path in made:
        name = str(path.relative_to(place))
        if name not in case.stored:
            if path not in unmarked:
                yield f"makes {name}"
        elif path not in unmarked and not holds(path, case.stored[name], case.ordered):
            yield f"stores otherwise in {name}"
    if told.status in (0, 10) and case.verb == "run":
        if len(made) != len(case.stored):
            yield f"makes {len(made)} folders, not {len(case.stored)}"
        if told.status == 0:
            wanted = [b"stored %s %d" % (os.fsencode(path), len(lines)) for path, lines in case.stored.items()]
            *stored, last = told.printed.split(b"\n")[:-1] or [b""]
            total = sum(map(len, case.stored.values()))
            if stored != wanted or last.split()[:1] != [b"done"] or last.split()[-1] != b"%d" % total:
                yield f"prints {told.printed[:80]!r}"


def tried(program, case, left=None):
    """Runs a case in a folder of its own: its run, and what is off. Whether each folder that it made is marked goes to `left`."""
    with tempfile.TemporaryDirectory() as folder:
        place = pathlib.Path(folder)
        make({b"script.pig": case.script, **case.inputs}, place)
        before = set(place.rglob("*"))
        words = [case.verb, *case.options, case.named]
        told = run(program, words, place, case.mib, 10 * case.seconds, case.console, case.file_size, case.stack)
        off = list(faults(case, place, before, told))
        if left is not None:
            left.extend(marked(path) for path in outputs(place, before, case.stored))
        shutil.rmtree(os.fsencode(folder), ignore_errors=True)
        place.mkdir()
        return told, off


def over(fields, body, last, inputs, **rest):
    """A case whose script loads `i`, ends in a STORE of `last`, and has statements between."""
    script = f"a = LOAD 'i' AS ({fields});\n{body}\nSTORE {last} INTO 'o';\n".encode()
    more = rest.pop("more", {})
    return rest | {"script": script, "inputs": {"i": inputs} | more}
