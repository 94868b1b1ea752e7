"""Fields that are deep, long or odd, bytes of all kinds, and inputs of nothing."""

from trial import MIB, Case
from scripts import one
from inputs import ALL, counted, folder


def fields():
    deep = 500_000
    open_, close = b"(" * deep, b")" * deep
    yield one("brackets_deeper_than_the_kind", ALL, [b"()"], fields="t:(x:int)", inputs=open_ + b"1" + close,
              why="the one item is no int")
    yield one("brackets_in_a_text", ALL, [open_ + b"1" + close], fields="t:(x:chararray)", inputs=open_ + b"1" + close)
    yield one("brackets_kept_open", ALL, [b""], fields="t:(x:chararray)", inputs=open_ + b"1")
    yield one("brackets_crossed", ALL, [b""], fields="t:(x:chararray)", inputs=b"(" + b"[{" * deep + b"]}" * deep + b")")
    yield one("brackets_as_plain_text", ALL, [open_], fields="x:chararray", inputs=open_)
    yield one("braces_deeper_than_the_kind", ALL, [b""], fields="b:{(x:int)}", inputs=b"{" * deep + b"}" * deep,
              why="the one item of the bag is no tuple")
    yield one("maps_deeper_than_the_kind", "r = FOREACH a GENERATE SIZE(m), m#'k';", [b"1\t"], fields="m:[int]",
              inputs=b"[k#" * deep + b"]" * deep)
    yield one("bag_of_100000", "r = FOREACH a GENERATE COUNT(b), MIN(b.x);", [b"100000\t1"], fields="b:{(x:int)}",
              inputs=b"{" + b",".join(b"(%d)" % n for n in range(100_000, 0, -1)) + b"}")
    yield one("map_of_100000", "r = FOREACH a GENERATE SIZE(m), m#'k7';", [b"100000\t7"], fields="m:[int]",
              inputs=b"[" + b",".join(b"k%d#%d" % (n, n) for n in range(100_000, 0, -1)) + b"]")
    yield one("map_of_one_key", ALL, [b"[k#1]"], fields="m:[int]",
              inputs=b"[" + b",".join(b"k#%d" % n for n in range(100_000, 0, -1)) + b"]")
    yield one("fields_a_million", ALL, [b"1\t2"], fields="x:int, y:int", inputs=b"1\t2" + b"\t3" * 1_000_000)
    yield one("tuple_of_a_million", ALL, [b"(1,2)"], fields="t:(x:int, y:int)", inputs=b"(1,2" + b",3" * 1_000_000 + b")")
    yield one("words_a_million", "r = FOREACH a GENERATE FLATTEN(TOKENIZE(x)); r = GROUP r BY $0; r = FOREACH r GENERATE group, COUNT(r);",
              [b"w\t1000000"], fields="x:chararray", inputs=b"w " * 1_000_000)
    yield one("words_that_differ", "r = FOREACH a GENERATE SIZE(TOKENIZE(x));", [b"200000"], fields="x:chararray",
              inputs=b" ".join(b"%d" % n for n in range(200_000)))
    yield counted("product_of_bags", "r = FOREACH a GENERATE FLATTEN(b), FLATTEN(b), FLATTEN(b);", 1_000_000, fields="b:{(x:int)}",
                  inputs=b"{" + b",".join([b"(1)"] * 100) + b"}")
    yield one("digits_a_million", ALL, [b"\t", b"\t7"], fields="x:int, y:long",
              inputs=b"9" * 1_000_000 + b"\t" + b"9" * 1_000_000 + b"\n" + b"+\t" + b"0" * 1_000_000 + b"7")
    yield one("ends_of_numbers", "r = FOREACH a GENERATE x - 1, y + 1, -x, ABS(x), x / -1, x % -1;",
              [b"2147483647\t-9223372036854775808\t-2147483648\t-2147483648\t-2147483648\t0", b"\t\t\t\t\t"], fields="x:int, y:long",
              inputs=b"-2147483648\t9223372036854775807\n2147483648\t9223372036854775808\n")
    yield one("places_outside", "r = FOREACH a GENERATE SUBSTRING(x, -2147483647, 2147483647), SUBSTRING(x, 2147483647, 0), SUBSTRING(x, 0, 2147483647);",
              [b"\t\tabc"], fields="x:chararray", inputs=b"abc")


def odd_bytes():
    text = "x:chararray"
    yield one("not_utf_8", "r = FOREACH a GENERATE SIZE(x), x;",
              [b"2\t\xef\xbf\xbd\xef\xbf\xbd", b"2\t\xef\xbf\xbd(", b"1\t\xef\xbf\xbd", b"3" + b"\t" + b"\xef\xbf\xbd" * 3, b"1\t\xf0\x9f\x98\x80",
               b"2\ta\xef\xbf\xbd"],
              fields=text, inputs=b"\xff\xfe\n\xc3(\n\xe2\x82\n\xed\xa0\x80\n\xf0\x9f\x98\x80\na\xf0\x9f\x98")
    yield one("bytes_as_they_are", "r = FOREACH a GENERATE x, SIZE(x);", [b"\xff\0\xc3\t3", b"\0\t1"], fields="x", inputs=b"\xff\0\xc3\n\0\n")
    yield one("half_a_character_at_a_split", "r = FOREACH a GENERATE SIZE(x);", [b"400"], fields=text, inputs="€".encode() * 400,
              options=("--split", "1"))
    yield one("a_mib_not_utf_8", "r = FOREACH a GENERATE SIZE(x);", [b"1048576"], fields=text, inputs=b"\xff" * MIB)
    yield one("nuls", "r = FOREACH a GENERATE SIZE(x), x;", [b"3\ta\0b"], fields=text, inputs=b"a\0b\n")
    yield Case("nul_as_delimiter", b"a = LOAD 'i' USING PigStorage('\\u0000') AS (x:int, y:int); STORE a INTO 'o' USING PigStorage('\\u0001');",
               inputs={"i": b"1\x002\n"}, stored={"o": [b"1\x012"]})
    yield Case("line_end_as_delimiter", b"a = LOAD 'i' USING PigStorage('\\u000d') AS (x:int, y:int);", status=3,
               printed=b"pig: statement 1: WrongArguments\n")
    yield one("carriage_returns", "r = FOREACH a GENERATE SIZE(x), x;", [b"2\ta\r", b"\t", b"2\t\rb", b"1\tc"], fields="x",
              inputs=b"a\r\r\n\r\n\rb\nc\r")
    yield one("carriage_return_alone", "r = FOREACH a GENERATE SIZE(x);", [b""], fields="x", inputs=b"\r")
    yield one("carriage_returns_by_splits_of_a_byte", "r = FOREACH a GENERATE SIZE(x);", [b"2", b"", b"2", b"1"], fields="x",
              inputs=b"a\r\r\n\r\n\rb\nc\r", options=("--split", "1"))
    yield one("no_last_line_feed", ALL, [b"1", b"2"], inputs=b"1\n2")
    yield one("line_feed_alone", ALL, [b""], inputs=b"\n")
    yield one("empty_file", ALL, [], inputs=b"")
    yield one("empty_file_grouped", "r = GROUP a ALL;", [], inputs=b"")
    yield one("empty_folder", "r = ORDER a BY x;", [], inputs=folder({}))
    yield one("empty_files", ALL, [b"1", b"2"], inputs=folder({"a": b"", "b": b"1", "c": b"", "d": b"2\n", "e": b""}),
              why="each piece is cut into lines by itself")
    yield one("empty_files_60000", ALL, [], inputs=folder({f"{n}": b"" for n in range(60_000)}))


def cases():
    yield from fields()
    yield from odd_bytes()
