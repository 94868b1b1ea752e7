"""Inputs at the limits and past them, lines and splits, and keys that all rows share or none."""

import os

from trial import MIB
from scripts import one

INPUT = b"pig: too large: input\n"
TASKS = b"pig: too large: tasks\n"


def sparse(size):
    """So many NULs, which take no room on the disk."""
    def make(at):
        with open(at, "wb") as file:
            file.truncate(size)
    return make


def filled(byte, size):
    def make(at):
        with open(at, "wb") as file:
            for _ in range(size // MIB):
                file.write(byte * MIB)
            file.write(byte * (size % MIB))
    return make


def folder(files):
    def make(at):
        os.mkdir(at)
        for name, content in files.items():
            path = os.path.join(at, os.fsencode(name))
            if content is None:
                os.mkdir(path)
            else:
                with open(path, "wb") as file:
                    file.write(content)
    return make


def counted(name, body, count, fields="x", **rest):
    return one(name, f"{body} r = GROUP r ALL; r = FOREACH r GENERATE COUNT_STAR(r);", [b"%d" % count], fields=fields, **rest)


ALL = "r = FILTER a BY true;"


def sizes():
    whole = 64 * MIB
    yield counted("input_64_mib_of_nuls", ALL, 1, inputs=sparse(whole))
    yield one("input_64_mib_of_nuls_measured", "r = FOREACH a GENERATE SIZE(x);", [b"%d" % whole], fields="x", inputs=sparse(whole))
    yield counted("input_64_mib_of_lines", ALL, whole, inputs=filled(b"\n", whole))
    yield counted("input_64_mib_twice", "b = LOAD 'i' AS (x); r = UNION a, b;", 2, inputs=sparse(whole),
                  why="an input that is read twice counts once")
    yield one("input_64_mib_and_one", ALL, None, fields="x", inputs=sparse(whole + 1), status=11, printed=INPUT)
    yield one("inputs_64_mib_and_one", "b = LOAD 'j' AS (x); r = UNION a, b;", None, fields="x", inputs=sparse(whole),
              more={"j": b"1"}, status=11, printed=INPUT)
    yield one("input_of_terabytes", ALL, None, fields="x", inputs=sparse(1 << 42), status=11, printed=INPUT)

    def large(at):
        os.mkdir(at)
        for name in (b"a", b"b"):
            sparse((1 << 43) - 4096)(os.path.join(at, name))
    yield one("folder_of_terabytes", ALL, None, fields="x", inputs=large, status=11, printed=INPUT)
    yield one("large_input_that_no_store_needs", "b = LOAD 'j' AS (x);" + ALL, [b"1"], more={"j": sparse(whole + 1)})


def splits():
    yield counted("lines_65000_by_splits_of_a_byte", ALL, 65_000, inputs=b"\n" * 65_000, options=("--split", "1"))
    yield one("lines_32500_by_splits_of_a_byte", ALL, [b"7"] * 32_500, inputs=b"7\n" * 32_500, options=("--split", "1"))
    yield counted("bytes_65535_by_splits_of_a_byte", ALL, 65_535, inputs=b"\n" * 65_535, options=("--split", "1"))
    yield counted("bytes_65536_by_splits_of_a_byte", ALL, 0, inputs=b"\n" * 65_536, options=("--split", "1"), status=11,
                  printed=TASKS, stored={}, why="the way to the tasks counts, too")
    yield one("line_longer_than_all_splits", "r = FOREACH a GENERATE SIZE(x);", [b"1000000"], fields="x", inputs=b"x" * 1_000_000,
              options=("--split", "100"))
    yield one("line_longer_than_all_splits_but_the_first", "r = FOREACH a GENERATE SIZE(x);", [b"1", b"999997", b"1"],
              fields="x", inputs=b"y\n" + b"x" * 999_997 + b"\nz", options=("--split", "100"))
    yield one("no_line_feed", "r = FOREACH a GENERATE SIZE(x);", [b"1000000"], fields="x:chararray", inputs=b"x" * 1_000_000)
    yield one("split_of_64_mib", ALL, [b"1"], inputs=b"1", options=("--split", "67108864", "--reducers", "256", "--workers", "16"))


def keys():
    rows = 200_000
    one_key = b"".join(b"k\t%d\n" % n for n in range(rows))
    each = b"".join(b"%d\t%d\n" % (n, n) for n in range(rows))
    alone = [b"%d\t1" % n for n in range(rows)]
    fields = "k:chararray, x:int"
    count = "r = GROUP a BY k; r = FOREACH r GENERATE group, COUNT(a);"
    bag = b"{" + b",".join(b"(k,%d)" % n for n in range(rows)) + b"}"
    few = ("--split", "65536", "--reducers", "16")
    yield one("one_key_counted", count, [b"k\t%d" % rows], fields=fields, inputs=one_key, options=few)
    yield one("one_key_gathered", "r = GROUP a BY k;", [b"k\t" + bag], fields=fields, inputs=one_key, options=few)
    yield one("one_key_ordered", "r = ORDER a BY k;", [b"k\t%d" % n for n in range(rows)], fields=fields, inputs=one_key, options=few,
              ordered=True)
    yield one("one_key_joined_with_one", "b = LOAD 'j' AS (k:chararray); r = JOIN a BY k, b BY k;",
              [b"k\t%d\tk" % n for n in range(rows)], fields=fields, inputs=one_key, more={"j": b"k\n"}, options=few)
    yield one("one_row_many_times", "r = DISTINCT a;", [b"k\t1"], fields=fields, inputs=b"k\t1\n" * rows, options=few)
    yield one("no_key_twice_counted", count, alone, fields=fields, inputs=each, options=few)
    yield one("no_key_twice_gathered", "r = GROUP a BY k; r = FOREACH r GENERATE group, SIZE(a);", alone, fields=fields, inputs=each,
              options=few)
    yield one("no_key_twice_ordered", "r = ORDER a BY x DESC;", [b"%d\t%d" % (n, n) for n in reversed(range(rows))], fields=fields,
              inputs=each, options=few, ordered=True)
    yield one("no_key_twice_joined", "b = FILTER a BY true; r = JOIN a BY k, b BY k;", [b"%d\t%d\t%d\t%d" % (n, n, n, n) for n in range(rows)],
              fields=fields, inputs=each, options=few)
    yield one("null_keys_gathered", "r = GROUP a BY x; r = FOREACH r GENERATE group, COUNT_STAR(a);", [b"\t%d" % rows], fields=fields,
              inputs=b"\t\n" * rows, options=few)
    yield one("long_keys_alike", "r = GROUP a BY k; r = FOREACH r GENERATE SIZE(group), SUM(a.x);", [b"100001\t1"] * 20, fields=fields,
              inputs=b"".join(b"k" * 100_000 + b"%c\t1\n" % (97 + n) for n in range(20)), options=few)


def cases():
    yield from sizes()
    yield from splits()
    yield from keys()
