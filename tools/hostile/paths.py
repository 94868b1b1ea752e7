"""Names, folders, devices, outputs that meet inputs or each other, and the console."""

import os

from trial import Case
from scripts import checked
from inputs import folder

FEW = b"1\n2\n"
LINES = [b"1", b"2"]
FAILED = b"pig: storage failed\n"


def stored(name, source, target, before="", **rest):
    script = f"{before}a = LOAD '{source}' AS (x:int); STORE a INTO '{target}';".encode()
    return Case(name, script, **{"inputs": {"i": FEW}} | rest)


def good(name, source="i", target="o", at="o", **rest):
    return stored(name, source, target, **{"stored": {at: LINES}} | rest)


def failing(name, source="i", target="o", **rest):
    return stored(name, source, target, **{"status": 6, "printed": FAILED} | rest)


def named():
    odd = "sp ace\tü'\\\x01😀"
    text = odd.replace("\\", "\\\\").replace("'", "\\'").replace("\t", "\\t")
    yield good("odd_names", text, "o/" + text, "o/" + odd, inputs={odd: FEW})
    yield good("names_like_options", "-i", "--split", "--split", inputs={"-i": FEW})
    yield good("escaped_names", "\\u0069", "\\u006f")
    yield good("name_of_255_bytes", target="n" * 255, at="n" * 255)
    yield stored("output_name_of_256_bytes", "i", "n" * 256, status=6, why="the system refuses such a name")
    yield stored("input_name_of_256_bytes", "n" * 256, "o", status=(4, 6), why="the system refuses such a name")
    yield stored("nul_in_an_input_name", "i\\u0000", "o", status=(4, 6), why="the system has no such name")
    yield stored("nul_in_an_output_name", "i", "o\\u0000", status=6, why="the system has no such name")
    yield good("path_of_1000_components", target="/".join("d" * 1000), at="/".join("d" * 1000))
    yield stored("path_of_10000_bytes", "i", "/".join("d" * 5000), status=6, why="the system refuses such a path")
    for path in ("", "/", ".", "..", "a/../b", "a//b", "./a", "a*", "a?", "{a}", "[a]"):
        yield checked(f"path_{path.replace('/', '_') or 'empty'}", f"a = LOAD '{path}' AS (x:int);".encode(),
                      b"pig: statement 1: Unsupported\n", 3)
    yield checked("path_compressed_behind_a_slash", b"a = LOAD 'a.bz2/' AS (x:int);", b"pig: statement 1: Compressed\n", 3)
    yield Case("script_named_like_an_option", b"", inputs={"-s.pig": b""}, options=("--",), named=b"-s.pig", printed=b"done 0 0 0\n")
    yield Case("script_name_not_utf_8", b"", status=1, named=b"\xff.pig")
    yield Case("no_script", b"", status=2, printed=b"pig: no script\n", named=b"nothing.pig")
    yield Case("script_below_a_file", b"", status=(2, 6), named=b"script.pig/s")
    yield Case("script_is_a_folder", b"", status=6, printed=FAILED, inputs={"s": folder({})}, named=b"s")


def pieces():
    yield good("names_of_pieces", inputs={"i": folder({"\n": b"1", "b c": b"2\n", "_d": b"3", ".e": b"4", "f": None})},
               why="names that begin with _ or ., and folders, are passed over")
    yield failing("piece_name_not_utf_8", inputs={"i": folder({b"\xff": b"1"})})
    yield failing("piece_name_compressed", inputs={"i": folder({"a": b"1", "b.gz": b"1"})})
    yield good("folder_named_compressed", inputs={"i": folder({"a": b"1", "b": b"2", "c.gz": None})})
    yield failing("input_is_a_fifo", inputs={"i": os.mkfifo})
    yield failing("piece_is_a_fifo", inputs={"i": folder({"a": b"1"}), "i/f": os.mkfifo})
    yield stored("input_is_a_loop_of_links", "i", "o", inputs={"i": lambda at: os.symlink(at, at)}, status=(4, 6))
    yield stored("input_is_a_link_to_nothing", "i", "o", inputs={"i": lambda at: os.symlink("nothing", at)}, status=(4, 6))
    yield good("input_is_a_link", inputs={"j": FEW, "i": lambda at: os.symlink("j", at)})
    yield stored("input_below_a_file", "i/j", "o", status=(4, 6))
    yield stored("no_input", "j", "o", status=4, printed=b"pig: no input j\n")
    yield good("no_input_that_a_store_needs", before="b = LOAD 'nothing' AS (x:int);")


def outputs():
    yield stored("own_output_loaded", "o", "o", status=3, printed=b"pig: statement 2: SelfLoad\n")
    yield stored("own_output_loaded_below", "o/part-00000", "o", status=3, printed=b"pig: statement 2: SelfLoad\n")
    yield Case("own_output_loaded_behind", b"a = LOAD 'i' AS (x:int); STORE a INTO 'o'; b = LOAD 'o' AS (x:int); STORE b INTO 'p';", status=3,
               printed=b"pig: statement 3: SelfLoad\n", inputs={"i": FEW})
    yield stored("input_above_the_output", "i", "i/o", inputs={"i": folder({"a": FEW})}, status=3, printed=b"pig: statement 2: SelfLoad\n")
    two = "a = LOAD 'i' AS (x:int); STORE a INTO '{}'; STORE a INTO '{}';"
    twice = b"pig: statement 3: OutputTwice\n"
    for name, first, second in [("one_folder", "o", "o"), ("one_folder_with_a_slash", "o", "o/"), ("an_output_below", "o", "o/p"),
                                ("an_output_above", "o/p", "o")]:
        yield Case(f"two_stores_into_{name}", two.format(first, second).encode(), status=3, printed=twice, inputs={"i": FEW})
    yield Case("two_stores_side_by_side", two.format("o", "oo").encode(), inputs={"i": FEW}, stored={"o": LINES, "oo": LINES})
    yield Case("two_stores_into_one_folder_by_a_link", two.format("o", "here/o").encode(), status=6,
               inputs={"i": FEW, "here": lambda at: os.symlink(".", at)}, stored={"o": LINES},
               printed=b"pig: storage failed at statement 3\n", why="paths are compared as texts; the first STORE is whole")
    yield stored("output_is_a_file", "i", "f", inputs={"i": FEW, "f": b""}, status=5, printed=b"pig: output exists f\n")
    yield stored("output_is_a_folder", "i", "f", inputs={"i": FEW, "f": folder({})}, status=5, printed=b"pig: output exists f\n")
    yield stored("output_is_a_link_to_nothing", "i", "f", inputs={"i": FEW, "f": lambda at: os.symlink("nothing", at)}, status=5,
                 printed=b"pig: output exists f\n", why="anything that stands there counts")
    yield stored("output_below_a_file", "i", "f/o", inputs={"i": FEW, "f": b""}, status=6)
    yield stored("output_below_the_input_by_a_link", "i", "j/o", inputs={"i": FEW, "j": lambda at: os.symlink("i", at)}, status=6)
    yield good("output_below_new_folders", target="a/b/c/o", at="a/b/c/o")
    yield stored("output_in_proc", "i", "/proc/o", status=6, why="the system makes no folder there")
    yield Case("second_output_fails", two.format("o", "/proc/o").encode(), status=6, inputs={"i": FEW}, stored={"o": LINES},
               printed=b"pig: storage failed at statement 3\n")
    yield stored("file_larger_than_it_may_be", "i", "o", status=6, file_size=1000, inputs={"i": b"1\n" * 10_000}, stored={"o": []},
                 printed=b"pig: storage failed at statement 2\n", why="by `ulimit -f`, with SIGXFSZ ignored")


def console():
    yield good("console_full", console="/dev/full", status=10)
    yield stored("console_full_behind_a_refusal", "j", "o", console="/dev/full", status=4)
    words = {"inputs": {"i": FEW}, "status": 1}
    for name, options in [("no_workers", ("--workers", "0")), ("workers_17", ("--workers", "17")), ("reducers_257", ("--reducers", "257")),
                          ("split_past_the_most", ("--split", "67108865")), ("split_of_ten_digits", ("--split", "0000000001")),
                          ("attempts_17", ("--attempts", "17")), ("workers_twice", ("--workers", "2", "--workers", "2")),
                          ("unknown_option", ("--nothing",)), ("two_scripts", ("s.pig",)), ("option_behind_the_end", ("--", "--workers", "2"))]:
        yield stored(name, "i", "o", options=options, **words)
    yield good("split_with_zeros", options=("--split=000000001",))


def cases():
    yield from named()
    yield from pieces()
    yield from outputs()
    yield from console()
