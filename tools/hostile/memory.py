"""Three scripts within less and less address space: each run ends with the right lines, or with 9 and each marked folder whole."""

import collections

import trial
from trial import Case


def word(n):
    return b"w%d" % (n * n % 5003)


def scripts():
    words = [word(n) for n in range(120_000)]
    text = b"".join(b" ".join(words[n:n + 8]) + b"\n" for n in range(0, len(words), 8))
    counts = collections.Counter(words)
    listed = [b"%s\t%d" % (text, count) for text, count in counts.items()]
    total = [b"%d\t%d" % (len(counts), len(words))]
    yield Case("word_count", b"""a = LOAD 'i' AS (line:chararray); w = FOREACH a GENERATE FLATTEN(TOKENIZE(line)) AS word; g = GROUP w BY word;
        c = FOREACH g GENERATE group AS word, COUNT(w) AS n; STORE c INTO 'counts'; t = GROUP c ALL;
        s = FOREACH t GENERATE COUNT(c), SUM(c.n); STORE s INTO 'total';""",
               inputs={"i": text}, stored={"counts": listed, "total": total})
    users = b"".join(b"u%d\t%d\n" % (n, n % 100) for n in range(20_000))
    visits = b"".join(b"u%d\tp%d\n" % (n * 7 % 40_000, n) for n in range(60_000))
    rows = [b"u%d\tp%d\t%d" % (user, n, user % 100) for n in range(60_000) if (user := n * 7 % 40_000) < 20_000]
    some = [row for row in rows if row.endswith(b"\t7")]
    yield Case("join", b"""u = LOAD 'u' AS (user:chararray, age:int); v = LOAD 'v' AS (user:chararray, page:chararray);
        j = JOIN v BY user, u BY user; r = FOREACH j GENERATE v::user, page, age; STORE r INTO 'visits';
        s = FILTER r BY age == 7; STORE s INTO 'some';""",
               inputs={"u": users, "v": visits}, stored={"visits": rows, "some": some})
    numbers = [n * 7919 % 100_003 for n in range(100_000)]
    top = [b"%d\trow%d" % (number, n) for number, n in sorted(((number, n) for n, number in enumerate(numbers)), reverse=True)[:1000]]
    yield Case("order_and_limit", b"""a = LOAD 'i' AS (x:int, s:chararray); o = ORDER a BY x DESC; l = LIMIT o 1000; STORE l INTO 'top';""",
               inputs={"i": b"".join(b"%d\trow%d\n" % (number, n) for n, number in enumerate(numbers))}, stored={"top": top}, ordered=True)


def starts(program, mib):
    """Whether the system can load the program at all: then it says that it was given no words."""
    return trial.run(program, [], "/", mib).status == 1


def steps(program, case):
    """Half-MiB steps from what the program is loaded in to a quarter past what the script ran in last, or so."""
    least = next(mib for mib in (n / 4 for n in range(1, 4000)) if starts(program, mib))
    enough = least
    while trial.tried(program, within(case, enough))[0].status != 0:
        enough *= 1.5
    width = max(0.125, (enough * 1.3 - least) / 150)
    return [least + n * width for n in range(151)]


def within(case, mib):
    return Case(**vars(case) | {"mib": mib, "status": (0, 9), "options": ("--split", "65536", "--workers", "4")})


def tries(program):
    off = 0
    print("| script | MiB | runs | status 0 | status 9 | of these with no folder, some marked, some unmarked | off |\n|---|---|---|---|---|---|---|")
    for case in scripts():
        tally = collections.Counter()
        sizes = steps(program, case)
        for mib in sizes:
            left = []
            told, faults = trial.tried(program, within(case, mib), left)
            tally[told.status] += 1
            if told.status == 9:
                tally["none"] += not left
                tally["marked"] += any(left)
                tally["unmarked"] += not all(left)
            tally["off"] += bool(faults)
            for fault in faults:
                print(f"{case.name} within {mib:.2f} MiB: {fault}", flush=True)
        off += tally["off"]
        print(f"| {case.name} | {sizes[0]:.1f} to {sizes[-1]:.1f} | {len(sizes)} | {tally[0]} | {tally[9]} "
              f"| {tally['none']}, {tally['marked']}, {tally['unmarked']} | {tally['off']} |", flush=True)
    print(f"memory: {off} off", flush=True)
    return off
