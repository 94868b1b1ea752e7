"""Plans that are long, wide, deep, or have very many ways through them."""

import os

from trial import WANTING, Case, over
from scripts import checked, one

TASKS = b"pig: too large: tasks\n"


def folder(at):
    os.mkdir(at)


def filters():
    wide = ", ".join(f"t{k}:({', '.join(f'f{n}:int' for n in range(511))})" for k in range(7))
    yield checked("filters_4000_wide", f"a = LOAD 'i' AS ({wide});".encode() + b"a = FILTER a BY true;" * 4000, b"ok 4001\n")
    named = ", ".join(f"n{n}" for n in range(4000))
    filters = "".join(f"n{n} = FILTER a BY true;" for n in range(4000))
    yield checked("filters_4000_wide_named_last", f"a = LOAD 'i' AS ({wide}); {filters} r = UNION {named};".encode(), b"ok 4002\n")
    columns = ", ".join(f"c{n}:int" for n in range(512))
    foreachs = "".join(f"n{n} = FOREACH a GENERATE *;" for n in range(4000))
    yield checked("foreachs_4000_wide_named_last", f"a = LOAD 'i' AS ({columns}); {foreachs} r = UNION {named};".encode(), b"ok 4002\n")
    yield one("filters_4000_in_a_row", "r = FILTER a BY x > 0;" + "".join(f"r = FILTER r BY x != {n};" for n in range(2, 4001)), [b"1"],
              inputs=b"1\n2\n4000\n0\n")
    same = "".join(f"f{n} = FILTER a BY x > 0;" for n in range(4000))
    union = ", ".join(f"f{n}" for n in range(4000))
    yield one("filters_4000_the_same", f"{same} r = UNION {union};", [b"1"] * 4000, inputs=b"1\n0\n")
    long = " OR ".join(f"x > -{n}" for n in range(16))
    yield one("filters_2000_long", "r = FILTER a BY x > 0;" + f"r = FILTER r BY {long};" * 2000, [b"1"], inputs=b"1\n0\n")
    behind = "".join(f"r = FILTER r BY x > -{n};" for n in range(400))
    yield one("filters_400_behind_400_blocks", "r = FILTER a BY true;" + "r = FOREACH r GENERATE x;" * 400 + behind, [b"1"], inputs=b"1\n-1\n")
    yield one("filters_200_behind_200_distincts", "r = FILTER a BY true;" + "r = DISTINCT r;" * 200 + "r = FILTER r BY x > 0;" * 200, [b"1"],
              inputs=b"1\n0\n")
    yield one("filters_4000_of_one_union", f"r = UNION {', '.join('a' * 4000)};" + "r = FILTER r BY x > 0;" * 500, [b"1"] * 4000,
              inputs=b"1\n0\n")


def doubled(n, first="a"):
    """Statements after which `r` has 2 to the n ways from its LOAD."""
    return f"r = UNION {first}, {first};" + "r = UNION r, r;" * (n - 1)


def unions():
    """A wave has at most 65,536 tasks that read and ways to them; a folder without files has no task."""
    yield one("ways_65536", doubled(16), [], inputs=folder)
    yield one("ways_65537", doubled(16) + "r = UNION r, a;", None, inputs=folder, status=11, printed=TASKS)
    yield one("ways_32768_and_as_many_tasks", doubled(15), [b"1"] * 32768)
    yield one("ways_32769_and_a_task_less", "e = LOAD 'e' AS (x:int);" + doubled(15) + "r = UNION r, e;", None, status=11, printed=TASKS,
              inputs=b"1\n", more={"e": folder})
    yield one("inputs_32768_of_one_union", f"r = UNION {', '.join('a' * 32768)};", [b"1"] * 32768)
    yield one("inputs_32769_of_one_union", f"r = UNION {', '.join('a' * 32769)};", None, status=11, printed=TASKS)
    for n in (31, 32, 63, 64, 65, 4000):
        yield one(f"ways_2_to_the_{n}", doubled(n), None, status=11, printed=TASKS)
    yield one("ways_2_to_the_64_grouped", doubled(64) + "r = GROUP r BY x;", None, status=11, printed=TASKS)
    ways = f"a = LOAD 'i' AS (x:int);{doubled(60)}"
    script = f"{ways} r = FILTER r BY x > 0 AND x < 9; STORE r INTO 'o';".encode()
    yield Case("explain_of_2_to_the_60_ways", script, verb="explain")
    yield checked("check_of_2_to_the_60_ways", script, b"ok 63\n")
    yield one("ways_that_no_store_needs", doubled(64) + "r = FILTER a BY true;", [b"1"])
    joins = "r = FILTER a BY true;" + "r = JOIN r BY $0, r BY $0;" * 8
    yield one("joins_of_256_fields", joins, [b"\t".join([b"1"] * 256)])
    yield one("joins_of_joins_distinct", "r = FILTER a BY true;" + "r = JOIN r BY $0, r BY $0; r = FOREACH r GENERATE $0; r = DISTINCT r;" * 60,
              [b"1"])


def blocks():
    columns = ", ".join(f"f{n}:int" for n in range(512))
    yield one("blocks_4000_wide", "r = FILTER a BY true;" + "r = FOREACH r GENERATE *;" * 4000, [b"\t".join([b"1"] * 512)], fields=columns,
              inputs=b"\t".join([b"1"] * 512))
    yield one("sums_doubled_4000_times", "r = FILTER a BY true;" + "r = FOREACH r GENERATE x + x AS x;" * 4000, [b"0"],
              why="2 to the 4,000 wraps to 0")
    yield one("sums_doubled_then_filtered", "r = FILTER a BY true;" + "r = FOREACH r GENERATE x + x AS x;" * 64 + "r = FILTER r BY x == 0;",
              [b"0"], why="as one expression the condition would have 2 to the 64 fields")
    cases = "CASE WHEN x > 1 THEN x - 1 WHEN x < 1 THEN x + 1 ELSE x END"
    yield one("cases_in_turn", "r = FILTER a BY true;" + f"r = FOREACH r GENERATE {cases} AS x;" * 40 + "r = FILTER r BY x IN (x, x, x);",
              [b"1"], inputs=b"41\n")
    yield one("asserts_4000", "r = FILTER a BY true;" + "ASSERT r BY x > 0, 'positive';" * 4000, [b"1"])
    yield one("assert_4000_fails", "r = FILTER a BY true;" + "ASSERT r BY x > 0, 'positive';" * 3999 + "ASSERT r BY x > 1, 'last';", None,
              status=8, printed=b"pig: statement 4002: assert failed: last\n")
    branches = ", ".join(f"s{n} IF x == {n}" for n in range(4000))
    yield one("branches_4000", f"SPLIT a INTO {branches}; r = UNION s1, s3999;", [b"1", b"3999"], inputs=b"1\n3999\n2\n")


def groups():
    """Conditions that take the keys of the GROUPs that they pass: up to 2,048 levels, and 2 to the 20 nodes."""
    def keyed(key, count):
        return "r = FILTER a BY true;" + f"r = GROUP r BY {key}; r = FOREACH r GENERATE group AS x;" * count

    deep = f"CASE {' '.join(f'WHEN {n} == 0 THEN {n}' for n in range(1, 1001))} ELSE x END"
    yield one("groups_12_by_doubled_keys", keyed("x + x", 12) + "r = FILTER r BY x > 4096;", [b"8192"], inputs=b"1\n2\n")
    yield one("groups_30_by_doubled_keys", keyed("x + x", 30) + "r = FILTER r BY x > 0;", None, status=9, printed=WANTING,
              why="as one expression the condition would have 2 to the 30 fields")
    yield one("groups_400_by_negated_keys", keyed("-x", 400) + "r = FILTER r BY x > 1;", [b"2"], inputs=b"1\n2\n")
    yield one("groups_2_by_keys_of_1000_levels", keyed(deep, 2) + "r = FILTER r BY x > 1;", [b"2"], inputs=b"1\n2\n")
    yield one("groups_3_by_keys_of_1000_levels", keyed(deep, 3) + "r = FILTER r BY x > 1;", None, status=9, printed=WANTING,
              why="the condition would nest 3,001 levels")


def nested():
    def bags(n):
        inner = b"{(1),(2)}"
        for _ in range(n - 1):
            inner = b"{(all," + inner + b")}"
        return b"all\t" + inner

    def group(n):
        return "r = FILTER a BY true;" + "r = GROUP r ALL;" * n

    yield one("group_all_of_group_all", group(2), [bags(2)], inputs=b"2\n1\n")
    yield one("group_all_63_deep", group(63), [bags(63)], inputs=b"2\n1\n", why="a kind nests at most 64 deep, the int among them")
    yield one("group_all_64_deep", group(64), None, inputs=b"2\n1\n", status=3, printed=b"pig: statement 66: TooDeep\n")
    yield one("group_all_of_nothing", group(63), [], inputs=b"")
    yield one("distincts_1000", "r = FILTER a BY true;" + "r = DISTINCT r;" * 1000, [b"1"], inputs=b"1\n1\n")
    yield one("orders_500", "r = FILTER a BY true;" + "r = ORDER r BY x DESC; r = ORDER r BY x;" * 250, [b"1", b"2"], inputs=b"2\n1\n")
    yield one("limits_1000", "r = FILTER a BY true;" + "r = LIMIT r 9223372036854775807L;" * 1000, [b"1", b"2"], inputs=b"2\n1\n")


def widths():
    yield one("cogroup_of_500", f"r = COGROUP {', '.join(['a BY x'] * 500)};", [b"1" + b"\t{(1)}" * 500])
    yield one("cogroup_of_512", f"r = COGROUP {', '.join(['a BY x'] * 512)};", None, status=3, printed=b"pig: statement 2: TooWide\n")
    yield one("join_of_512", f"r = JOIN {', '.join(['a BY x'] * 512)};", [b"\t".join([b"1"] * 512)])
    yield one("join_of_513", f"r = JOIN {', '.join(['a BY x'] * 513)};", None, status=3, printed=b"pig: statement 2: TooWide\n")
    names = [f"n{n}".ljust(100, "x") for n in range(500)]
    joins = "".join(f"{new} = JOIN {old} BY $0, a BY k;" for old, new in zip(names, names[1:]))
    script = f"a = LOAD 'i' AS (k:int); {names[0]} = FILTER a BY true; {joins}"
    yield checked("joins_499_with_long_names", script.encode(), b"ok 501\n",
                  why="names grow as the cube: each JOIN puts 102 letters before each name that it has")
    yield one("joins_20_in_turn", "r = FILTER a BY true;" + "r = JOIN r BY $0, a BY x;" * 20, [b"\t".join([b"1"] * 21)])
    yield one("keys_511", f"r = GROUP a BY ({', '.join('x' * 511)}); r = FOREACH r GENERATE SIZE(group);", [b"511"])
    folders = {f"o/{n}": [b"1"] for n in range(4000)}
    script = "a = LOAD 'i' AS (x:int);" + "".join(f"STORE a INTO '{path}';" for path in folders)
    yield Case("stores_4000", script.encode(), inputs={"i": b"1\n"}, stored=folders)
    union = f"a = UNION {', '.join('a' * 9)};"
    yield Case("stores_4000_of_nine_ways", script.replace("STORE", union + "STORE", 1).encode(), inputs={"i": b"1\n"}, status=11,
               printed=TASKS, why="one wave stores all")


def cases():
    yield from filters()
    yield from unions()
    yield from blocks()
    yield from groups()
    yield from nested()
    yield from widths()
