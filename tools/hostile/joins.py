"""A JOIN of n rows of one key on both sides: n times n rows. How long, how much, and what stands where memory is wanting."""

import trial
from scripts import one

FORMS = {
    "counted": ("r = GROUP r ALL; r = FOREACH r GENERATE COUNT_STAR(r);", lambda n: [b"%d" % (n * n)]),
    "filtered": ("r = FILTER r BY $1 == 7 AND $3 == 9;", lambda n: [b"k\t7\tk\t9"]),
    "limited": ("r = LIMIT r 5; r = GROUP r ALL; r = FOREACH r GENERATE COUNT_STAR(r);", lambda n: [b"5"]),
    "stored": ("", lambda n: [b"k\t%d\tk\t%d" % (x, y) for x in range(n) for y in range(n)]),
}
SIZES = [1000, 2000, 3000, 4000]
LIMITS = [8, 16, 32, 64, 128, 256, 512, 1024]


def case(form, n, status, mib):
    body, lines = FORMS[form]
    rows = b"".join(b"k\t%d\n" % x for x in range(n))
    return one(f"{n} equal keys joined and {form}", f"b = FILTER a BY true; r = JOIN a BY k, b BY k; {body}", lines(n),
               fields="k:chararray, x:int", inputs=rows, status=status, mib=mib, seconds=60)


def tries(program):
    off = 0
    print("| rows a side | form | status | seconds | peak, MiB |\n|---|---|---|---|---|")
    for form in FORMS:
        for n in SIZES if form != "stored" else SIZES[:2]:
            told, faults = trial.tried(program, case(form, n, (0, 9), 2048))
            off += bool(faults)
            print(f"| {n} | {form} | {told.status} | {told.seconds:.2f} | {told.peak:.0f} |{' off: ' + '; '.join(faults) if faults else ''}", flush=True)
    for form in ("counted", "stored"):
        n = 4000 if form == "counted" else 2000
        ends = []
        for mib in LIMITS:
            told, faults = trial.tried(program, case(form, n, (0, 9), mib))
            off += bool(faults)
            ends.append(f"{mib} MiB: {told.status}")
            for fault in faults:
                print(f"{n} equal keys joined and {form}, within {mib} MiB: {fault}")
        print(f"{n} rows a side, {form}, by address space: {', '.join(ends)}", flush=True)
    print(f"joins: {off} off", flush=True)
    return off
