"""Runs that SIGKILL ends in the middle of their STOREs: what stands, and what the next run says."""

import os
import pathlib
import random
import shutil
import signal
import subprocess
import tempfile
import time

import trial

STORES = ["first", "second", "third"]
ROWS = 6000
KILLS = 30
OPTIONS = ["--split", "16", "--workers", "4"]


def lay(place):
    rows = [b"%d\t%d" % (n, n * n) for n in range(ROWS)]
    script = "a = LOAD 'i' AS (x:int, y:int);" + "".join(f"STORE a INTO '{name}';" for name in STORES)
    trial.make({b"script.pig": script.encode(), b"i": b"\n".join(rows) + b"\n"}, place)
    return rows


def standing(place):
    return [place / name for name in STORES if (place / name).exists()]


def again(program, place):
    return trial.run(program, ["run", *OPTIONS, "script.pig"], place)


def killed(program, place, behind):
    """Starts a run, and kills it so many seconds behind its first folder; whether it was still running."""
    process = subprocess.Popen([program, "run", *OPTIONS, "script.pig"], cwd=place, stdout=subprocess.DEVNULL)
    while process.poll() is None and not standing(place):
        time.sleep(0.0002)
    time.sleep(behind)
    process.send_signal(signal.SIGKILL)
    return process.wait() == -signal.SIGKILL


def storing(program, place):
    """How long a run makes folders, in seconds."""
    process = subprocess.Popen([program, "run", *OPTIONS, "script.pig"], cwd=place, stdout=subprocess.DEVNULL)
    while process.poll() is None and not standing(place):
        time.sleep(0.0002)
    began = time.monotonic()
    process.wait()
    return time.monotonic() - began


def faults(program, place, rows, tally):
    left = standing(place)
    unmarked = [path for path in left if not trial.marked(path)]
    tally["whole"] += len(left) - len(unmarked)
    tally["unmarked"] += len(unmarked)
    if left != [place / name for name in STORES[:len(left)]] or unmarked not in ([], left[-1:]):
        yield f"leaves {[path.name for path in left]}, unmarked {[path.name for path in unmarked]}"
    for path in left:
        if path not in unmarked and not trial.holds(path, rows, False):
            yield f"marks {path.name}, which is not whole"
    if left:
        told = again(program, place)
        if (told.status, told.printed) != (5, b"pig: output exists %s\n" % os.fsencode(left[0].name)):
            yield f"the next run ends with {told.status} {told.printed!r}"
    for path in unmarked:
        shutil.rmtree(path)
    for path in left:
        if path not in unmarked:
            path.rename(place / f"kept_{path.name}")
    told = again(program, place)
    if told.status != 0 or not all(trial.marked(place / name) and trial.holds(place / name, rows, False) for name in STORES):
        yield f"the run behind that ends with {told.status} {told.printed!r}"


def tries(program):
    off, tally = 0, {"whole": 0, "unmarked": 0, "early": 0}
    chance = random.Random(53)
    with tempfile.TemporaryDirectory() as folder:
        lay(folder)
        took = storing(program, pathlib.Path(folder))
        parts = sum(1 for _ in (pathlib.Path(folder) / STORES[0]).glob("part-*"))
    done = 0
    while done < KILLS:
        with tempfile.TemporaryDirectory() as folder:
            place = pathlib.Path(folder)
            rows = lay(place)
            if not killed(program, place, chance.uniform(0, took)):
                tally["early"] += 1  # (it had ended)
                if tally["early"] > 10 * KILLS:
                    print("kills: no run is killed in time")
                    return 1
                continue
            done += 1
            for fault in faults(program, place, rows, tally):
                off += 1
                print(f"kill {done}: {fault}", flush=True)
    print(f"{done} runs killed, of three STOREs of {parts} parts each ({took:.2f} s): {tally['whole']} folders marked and whole, "
          f"{tally['unmarked']} not marked; kills: {off} off", flush=True)
    return off
