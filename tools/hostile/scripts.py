"""Scripts at the limits and past them: bytes, tokens, statements, brackets, steps, fields."""

from trial import Case, WANTING, over

MOST = 1 << 20  # bytes of a script
DEPTH = b"pig: too large: depth\n"


def one(name, body, lines, fields="x:int", inputs=b"1\n", **rest):
    """Runs a script over one input; its relation `r` is stored."""
    stored = rest.pop("stored", {"o": lines} if lines is not None else {})
    return Case(name=name, stored=stored, **over(fields, body, "r", inputs, **rest))


def checked(name, script, printed, status=0, **rest):
    return Case(name=name, script=script, printed=printed, status=status, verb="check", **rest)


def brackets():
    def condition(n):
        return f"r = FILTER a BY {'(' * n}x > 0{')' * n};"

    def choices(n):
        return "r = FOREACH a GENERATE " + "CASE WHEN x > 1 THEN 2 ELSE " * n + "3" + " END" * n + ";"

    yield one("parentheses_64", condition(64), [b"1"])
    yield one("parentheses_65", condition(65), None, status=11, printed=DEPTH)
    yield one("cases_64", choices(64), [b"3"], why="CASE and END count as brackets")
    yield one("cases_65", choices(65), None, status=11, printed=DEPTH)
    yield checked("brackets_mib", b"(" * MOST, DEPTH, 11)
    yield checked("closing_brackets_mib", b")" * MOST, b"pig: statement 1: syntax\n", 3)
    yield checked("braces_kept_open", b"r = FOREACH a {" + b"x = b;" * 100_000, b"pig: statement 1: syntax\n", 3)


def statements():
    few = b"a = LOAD 'i' AS (x:int);"
    many = b"pig: too large: statements\n"
    yield checked("statements_4096", few + b";" * 4095, b"ok 4096\n")
    yield checked("statements_4097", few + b";" * 4096, many, 11)
    yield checked("statements_4096_and_a_tail", few + b";" * 4095 + b"x", many, 11,
                  why="tokens behind the last `;` are a statement, which lacks its own")
    yield checked("no_last_semicolon", few + b"b = FILTER a BY x > 0", b"pig: statement 2: syntax\n", 3)
    yield checked("semicolons_mib", b";" * MOST, many, 11)
    yield checked("no_statement", b"", b"ok 0\n")
    yield Case("nothing_to_run", b"", printed=b"done 0 0 0\n")


def tokens():
    few = b"a = LOAD 'i' AS (x:int);"
    yield checked("script_mib", few.ljust(MOST), b"ok 1\n")
    yield checked("script_mib_and_one", few.ljust(MOST + 1), b"pig: too large: script\n", 11)
    yield checked("comment_mib", b"--" + b"\xff\0" * (MOST // 2 - 1), b"ok 0\n", why="any bytes stand in a comment")
    yield checked("name_mib", b"a" * MOST, b"pig: statement 1: syntax\n", 3)
    yield checked("names_half_a_million", b"a " * (MOST // 2), b"pig: statement 1: syntax\n", 3)
    yield checked("digits_mib", b"7" * MOST, b"pig: offset 0: no token\n", 3)
    yield checked("zeros_mib", b"0" * MOST, b"pig: statement 1: syntax\n", 3, why="the value of the digits is 0")
    yield checked("comment_kept_open", b"/*".ljust(MOST), b"pig: offset 0: no token\n", 3)
    yield checked("comments_of_five_bytes", b"/*" * (MOST // 2), b"pig: offset 1048572: no token\n", 3,
                  why="`/*/*/` is a comment, and `*` behind it a symbol; the last four bytes of the script are `/*/*`")
    yield checked("text_kept_open", b"'" + b"a" * (MOST - 1), b"pig: offset 0: no token\n", 3)
    yield checked("text_mib", b"'" + b"a" * (MOST - 2) + b"'", b"pig: statement 1: syntax\n", 3)
    yield checked("nul", b"a = LOAD\0", b"pig: offset 8: no token\n", 3)
    yield checked("byte_order_mark", b"\xef\xbb\xbf" + few, b"pig: offset 0: no token\n", 3)
    yield checked("text_not_utf_8", b"a = LOAD '\xff' AS (x:int);", b"pig: offset 9: no token\n", 3)
    yield checked("line_feed_in_text", b"a = LOAD 'i\n' AS (x:int);", b"pig: offset 9: no token\n", 3)
    yield checked("line_feed_escaped", b"a = LOAD 'i\\u000a' AS (x:int);", b"pig: offset 9: no token\n", 3)
    yield checked("half_of_a_pair", b"a = LOAD 'i\\ud800' AS (x:int);", b"pig: offset 9: no token\n", 3)
    yield checked("number_too_large", b"2147483648", b"pig: offset 0: no token\n", 3)


def chains():
    yield one("sum_of_520000", f"r = FOREACH a GENERATE {'+'.join(['x'] * 520_000)};", [b"520000"])
    yield one("or_of_60000", f"r = FILTER a BY {' OR '.join(f'x=={n}' for n in range(60_000))};", [b"1"])
    yield one("in_100000", f"r = FILTER a BY x IN ({','.join(map(str, range(100_000)))});", [b"1"])
    yield one("in_copies_900", f"r = FILTER a BY {'+'.join(['x'] * 1100)} IN ({','.join(['1100'] * 900)});", [b"1"],
              why="the copies of the operand have less than 1,048,576 nodes")
    yield one("in_copies_1000", f"r = FILTER a BY {'+'.join(['x'] * 1100)} IN ({','.join(['1100'] * 1000)});", None, status=9,
              printed=WANTING, why="the copies of the operand have more than 1,048,576 nodes")
    yield one("arguments_200000", f"r = FOREACH a GENERATE COUNT_STAR(TOBAG({','.join('x' * 200_000)}));", [b"200000"])
    yield one("concat_200000", f"r = FOREACH a GENERATE SIZE(CONCAT({','.join('x' * 200_000)}));", [b"200000"], fields="x:chararray")


def steps():
    def whens(n):
        return f"r = FOREACH a GENERATE CASE x {' '.join(f'WHEN {k} THEN {k * 2}' for k in range(n))} END;"

    def projections(n):
        return f"r = FOREACH a GENERATE b{'.x' * n};"

    bag = {"fields": "b:{(x:int)}", "inputs": b"{(2),(1)}\n"}
    yield one("whens_1000", whens(1000), [b"1998"], inputs=b"999\n")
    yield one("whens_1024", whens(1024), [b""], inputs=b"2000\n")
    yield one("whens_1025", whens(1025), None, status=9, printed=WANTING, why="at most 1,024 steps of one expression")
    yield one("steps_1024", projections(1024), [b"{(1),(2)}"], **bag)
    yield one("steps_1025", projections(1025), None, status=9, printed=WANTING, why="at most 1,024 steps of one expression", **bag)
    yield one("steps_11000", projections(11_000), None, status=9, printed=WANTING, why="at most 1,024 steps of one expression", **bag)
    yield from deepest(bag)
    yield one("block_100000", f"r = FOREACH a {{ {'x=b;' * 100_000} GENERATE COUNT(x); }};", [b"2"], **bag)
    yield one("block_100000_in_turn", f"r = FOREACH a {{ x=b; {'x=x;' * 99_999} GENERATE COUNT(x); }};", [b"2"], **bag)
    yield one("block_10000_distinct", f"r = FOREACH a {{ x=b; {'x=DISTINCT x;' * 10_000} GENERATE COUNT(x); }};", [b"2"], **bag)
    yield one("block_10000_unused", f"r = FOREACH a {{ {''.join(f'x{k}=ORDER b BY x;' for k in range(10_000))} GENERATE COUNT(b); }};",
              [b"2"], **bag)


def deepest(bag):
    """The deepest trees: 1,024 steps within 64 brackets, where each thread has 2 MiB of stack."""
    around = "(false OR true AND NOT 1 == 1 + 2 * -(int)"

    def whens(n):
        return f"r = FOREACH a GENERATE {around * 63}CASE {'WHEN x > 1 THEN 1 ' * n}ELSE 0 END{' ? 1 : 0)' * 63};"

    def projections(n):
        return f"r = FOREACH a GENERATE {'(' * 64}b{'.x' * n}{')' * 64};"

    few = {"stack": 2}
    yield one("deepest_whens", whens(1024), [b"0"], **few)
    yield one("deepest_whens_and_one", whens(1025), None, status=9, printed=WANTING, **few)
    yield one("deepest_steps", projections(1024), [b"{(1),(2)}"], **bag, **few)
    yield one("deepest_steps_and_one", projections(1025), None, status=9, printed=WANTING, **bag, **few)


def fields():
    def schema(n):
        return ", ".join(f"f{k}:int" for k in range(n))

    def kinds(n):
        return ", ".join(f"t{k}:({schema(511)})" for k in range(n))

    wide, deep = b"pig: statement %d: TooWide\n", b"pig: statement 2: TooDeep\n"
    yield one("items_512", f"r = FOREACH a GENERATE {','.join('x' * 512)};", [b"\t".join([b"1"] * 512)])
    yield one("items_513", f"r = FOREACH a GENERATE {','.join('x' * 513)};", None, status=3, printed=wide % 2)
    yield one("items_200000", f"r = FOREACH a GENERATE {','.join('x' * 200_000)};", None, status=3, printed=wide % 2)
    yield one("fields_512", "r = FILTER a BY true;", [b"1" + b"\t" * 511], fields=schema(512))
    yield one("fields_513", "r = FILTER a BY true;", None, fields=schema(513), status=3, printed=wide % 1)
    yield one("kinds_4096", "r = FILTER a BY true;", [b"\t" * 7], fields=kinds(8), inputs=b"\n")
    yield one("kinds_4097", "r = FILTER a BY true;", None, fields=kinds(8) + ", x:int", inputs=b"\n", status=3, printed=wide % 1)
    tuples = f"t:{'(t:' * 63}int{')' * 63}"
    text = b"(" * 63 + b"7" + b")" * 63
    yield one("tuples_64_deep", "r = FILTER a BY true;", [text], fields=tuples, inputs=text + b"\n")
    yield one("tuples_65_deep", "r = FOREACH a GENERATE TOTUPLE(t);", None, fields=tuples, status=3, printed=deep)
    yield one("fields_of_fields", f"r = FOREACH a GENERATE t{'.t' * 63};", [b"7"], fields=tuples, inputs=text + b"\n")
    maps = f"m:{'[' * 63}int{']' * 63}"
    text = b"[k#" * 63 + b"7" + b"]" * 63
    looks = "#'k'" * 63
    yield one("maps_64_deep", f"r = FOREACH a GENERATE m, m{looks};", [text + b"\t7"], fields=maps, inputs=text + b"\n")
    bags = f"b:{'{(b:' * 31}int{')}' * 31}"
    text = b"{(" * 31 + b"7" + b")}" * 31
    yield one("bags_32_deep", "r = FILTER a BY true;", [text], fields=bags, inputs=text + b"\n")


def cases():
    yield from brackets()
    yield from statements()
    yield from tokens()
    yield from chains()
    yield from steps()
    yield from fields()
