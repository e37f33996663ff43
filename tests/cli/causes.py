"""Cases with `-v`: after the line of a fault one more says which file, and why."""

from cases import (
    BAD_WORDS,
    EARLY,
    NO_BASE_TABLES,
    NO_DATABASE,
    NO_FILE,
    NO_INPUT,
    NO_NAME,
    NO_OUTPUT,
    NO_RECORD,
    SHORT,
    STOPPED,
    again,
    case,
    creates,
    keeps,
    of_a,
    pairs,
)
from files import FOUR_FILE, LARGE_TEXT, ONE_FILE, TWO_FILE, TWO_TEXT, WIDE_FILE, file_of, text_of
from places import CLOSED, FOLDER, PIPE, UNREAD, Link

MISSING = "No such file or directory"
MAP = b"one Hello\ntwo Goodbye\n"


def told(given, line, cause, stdin=b"", status=111, files=None, **other):
    """A run with `-v` that changes nothing, and its line with the cause."""
    return case(["-v", *given], stdin, b"", [line, cause], status, files, **other)


FULL = "/dev/full"
# Lines of more than a window, of 9 bytes each.
MANY_LINES = b"+1,0:a->\n" * 10000
INPUTS = {"m": MAP, "n": MAP}
CAUSES = {
    "query of a file that is not there": told(["-q", "x", "one"], NO_FILE, f"x: {MISSING}"),
    "query of a pipe": told(["-q", "x", "one"], NO_FILE, "x: a pipe or a device has no places", files={"x": PIPE}),
    "query of a text": told(["-q", "m", "one"], SHORT, "m", files=INPUTS),
    "query of a folder": told(["-q", "x", "one"], NO_DATABASE, "x: Is a directory", files={"x": FOLDER}),
    "check of a text": told(["-k", "m"], SHORT, "m", status=100, files=INPUTS),
    "statistics of a text on standard input": told(["-s"], SHORT, "standard input", MAP),
    "dump of a file that is not there": told(["-d", "x"], NO_FILE, f"x: {MISSING}"),
    "dump of a folder": told(["-d", "x"], NO_DATABASE, "x: Is a directory", files={"x": FOLDER}),
    "dump of a text": told(["-d", "m"], SHORT, "m", files=INPUTS),
    "dump of a closed standard input": told(["-d"], NO_DATABASE, "standard input: Bad file descriptor", CLOSED),
    "check of a closed standard input": told(["-k"], NO_DATABASE, "standard input: Bad file descriptor", CLOSED),
    "create from a closed standard input": told(["-c", "x"], NO_INPUT, "standard input: Bad file descriptor", CLOSED),
    "difference from a text": told(["-D", "m", "x"], f"old database: {SHORT}", "m", files={"x": ONE_FILE, **INPUTS}),
    "difference to a text": told(["-D", "x", "m"], f"new database: {SHORT}", "m", files={"x": ONE_FILE, **INPUTS}),
    "difference from a file that is cut": told(
        ["-D", "y", "x"], "old database: table 129: outside the file", "y", files={"x": TWO_FILE, "y": TWO_FILE[:-1]}
    ),
    "difference to a file that is cut": told(
        ["-D", "x", "y"], "new database: table 129: outside the file", "y", files={"x": TWO_FILE, "y": TWO_FILE[:-1]}
    ),
    "difference to a file that is not there": told(["-D", "x", "y"], NO_FILE, f"y: {MISSING}", files={"x": ONE_FILE}),
    "a folder that is not there": told(["-c", "no/x"], NO_FILE, f"no/x.tmp: {MISSING}", TWO_TEXT),
    "a file in place of a folder": told(["-c", "m/x"], NO_FILE, "m/x.tmp: Not a directory", TWO_TEXT, files=INPUTS),
    "the second of four inputs is not there": told(
        ["-c", "-m", "x", "m", "y", "n", "m"], NO_FILE, f"y: {MISSING}", files=INPUTS
    ),
    "the temporary name is a link": told(
        ["-c", "x"], NO_FILE, "x.tmp: is a link", TWO_TEXT, files={"x": ONE_FILE, "x.tmp": Link("y")}
    ),
    "the temporary name is a folder": told(
        ["-c", "x"], NO_FILE, "x.tmp: is no regular file", TWO_TEXT, files={"x": ONE_FILE, "x.tmp": FOLDER}
    ),
    "the base is not there": told(["-c", "-b", "y", "x"], NO_FILE, f"y: {MISSING}", b"\n"),
    "the base has the name of standard input": told(["-c", "-b", "-", "x"], NO_FILE, f"-: {MISSING}", b"\n"),
    "a base that is damaged": told(["-c", "-b", "m", "x"], SHORT, "m", b"\n", files=INPUTS),
    "a base that is wide": told(
        ["-c", "-b", "y\\", "x"], NO_BASE_TABLES, "y\\x5c", b"\n", files={"x": ONE_FILE, "y\\": WIDE_FILE}
    ),
    "a base that is the database and wide": told(
        ["-c", "-b", "x", "x"], NO_BASE_TABLES, "x", b"\n", files={"x": WIDE_FILE}
    ),
    "a base that is a folder": told(
        ["-c", "-b", "y", "x"], NO_DATABASE, "y: Is a directory", b"\n", files={"x": ONE_FILE, "y": FOLDER}
    ),
    "a folder that takes no name": told(
        ["-c", "x"], NO_FILE, "x.tmp: Permission denied", TWO_TEXT, files={"x": ONE_FILE}, sealed=True
    ),
    "an input that is a folder": told(["-c", "x", "m"], NO_INPUT, "m: Is a directory", files={"m": FOLDER}),
    "a database that is a folder": told(["-c", "x"], NO_NAME, "x: is no regular file", TWO_TEXT, files={"x": FOLDER}),
    "a name that is empty": told(["-c", ""], NO_FILE, "the name is empty", TWO_TEXT),
    "an empty name in place": told(["-c", "-t", "-", ""], NO_FILE, "the name is empty", TWO_TEXT),
    "an empty name of the temporary file": told(
        ["-c", "-t", "", "x"], NO_FILE, "the name is empty", TWO_TEXT, files={"x": ONE_FILE}
    ),
    "an empty name of an input": told(["-c", "x", ""], NO_FILE, "the name is empty", TWO_TEXT, files={"x": ONE_FILE}),
    "an empty name of a base": told(["-c", "-b", "", "x"], NO_FILE, "the name is empty", b"\n", files={"x": ONE_FILE}),
    "an empty name of a query": told(["-q", "", "one"], NO_FILE, "the name is empty"),
    "an empty name of keys": told(["-q", "-i", "x", ""], NO_FILE, "the name is empty", files={"x": ONE_FILE}),
    "an empty name of a dump": told(["-d", ""], NO_FILE, "the name is empty"),
    "an empty name of a list": told(["-l", ""], NO_FILE, "the name is empty"),
    "an empty name of statistics": told(["-s", ""], NO_FILE, "the name is empty"),
    "an empty name of a check": told(["-k", ""], NO_FILE, "the name is empty"),
    "an empty name of an old database": told(["-D", "", "x"], NO_FILE, "the name is empty", files={"x": ONE_FILE}),
    "an empty name of a new database": told(["-D", "x", ""], NO_FILE, "the name is empty", files={"x": ONE_FILE}),
    "a slash after the name of nothing": told(["-c", "y/"], NO_FILE, "y/: the name ends in a slash", TWO_TEXT),
    "a slash after the name of a file": told(
        ["-c", "y/"], NO_FILE, "y/: the name ends in a slash", TWO_TEXT, files={"y": ONE_FILE}
    ),
    "a slash after the name of a folder": told(
        ["-c", "y/"], NO_FILE, "y/: the name ends in a slash", TWO_TEXT, files={"y": FOLDER}
    ),
    "a slash after the name of a file in place": told(
        ["-c", "-t", "-", "y/"], NO_FILE, "y/: the name ends in a slash", TWO_TEXT, files={"y": ONE_FILE}
    ),
    "a slash after the name of a folder in place": told(
        ["-c", "-t", "-", "y/"], NO_FILE, "y/: the name ends in a slash", TWO_TEXT, files={"y": FOLDER}
    ),
    "a slash after the name and no input": told(["-c", "y/", "m"], NO_FILE, f"m: {MISSING}", files={"y": FOLDER}),
    "a temporary file that is an input": told(["-c", "-m", "-t", "m", "x", "m"], NO_FILE, "m: is an input", files=INPUTS),
    "a temporary file that is the base": told(
        ["-c", "-b", "y", "-t", "./y", "x"], NO_FILE, "./y: is the base", b"\n", files={"y": ONE_FILE}
    ),
    "a temporary file that is the database": told(
        ["-c", "-t", "./x", "x"], NO_FILE, "./x: is the database", TWO_TEXT, files={"x": ONE_FILE}
    ),
    "in place of an input": told(["-c", "-t", "-", "-m", "m", "./m"], NO_FILE, "m: is an input", files=INPUTS),
    "in place of a link": told(
        ["-c", "-t", "-", "x"], NO_FILE, "x: is a link", TWO_TEXT, files={"x": Link("y"), "y": ONE_FILE}
    ),
    "in place in a folder that is not there": told(["-c", "-t", "-", "no/x"], NO_FILE, f"no/x: {MISSING}", TWO_TEXT),
    "a native text as a map": told(
        ["-c", "x", "m"], f"input 1: byte 0: {NO_RECORD}", "m: line 1", files=INPUTS
    ),
    "a text with a fault in its second line": told(
        ["-c", "x", "m", "n"],
        f"input 2: byte 9: {NO_RECORD}",
        "n: line 2",
        files={"m": TWO_TEXT, "n": b"+1,0:a->\n*"},
    ),
    "a text with a fault after many lines": told(
        ["-c", "x", "m"],
        f"input 1: byte {len(LARGE_TEXT) - 1}: {NO_RECORD}",
        f"m: line {LARGE_TEXT.count(10)}",
        files={"m": LARGE_TEXT[:-1] + b"*"},
    ),
    "a text of many windows with a fault amid the second": told(
        ["-c", "x", "m"], f"input 1: byte 90000: {NO_RECORD}", "m: line 10001", files={"m": MANY_LINES + b"*\n" + MANY_LINES}
    ),
    "a text that ends early": told(
        ["-c", "x"], f"input 1: byte {len(TWO_TEXT) - 1}: {EARLY}", "standard input: line 3", TWO_TEXT[:-1]
    ),
    "a second text of standard input": told(
        ["-c", "x", "-", "-"], f"input 2: byte 0: {NO_RECORD}", "standard input: line 4", TWO_TEXT + b"*"
    ),
    "a third text of standard input, after a file": told(
        ["-c", "x", "-", "m", "-", "-"],
        f"input 4: byte 9: {NO_RECORD}",
        "standard input: line 6",
        TWO_TEXT + b"\n+1,0:a->\n-",
        files={"m": LARGE_TEXT},
    ),
    "a newline where a record is to go on": told(
        ["-c", "x"], f"input 1: byte {len(TWO_TEXT)}: {NO_RECORD}", "standard input: line 3", TWO_TEXT[:-1] + b"+\n\n"
    ),
    "keys in a second text of standard input": case(
        ["-v", "-q", "-i", "x", "-", "-"],
        b"+3:one\n\n+3:two\n*\n",
        b"+3,5:one->Hello\n",
        [f"input 2: byte 7: {NO_RECORD}", "standard input: line 4"],
        111,
        {"x": ONE_FILE},
    ),
    "keys with a fault in a second file": case(
        ["-v", "-q", "-i", "x", "m", "n"],
        b"",
        b"+3,5:one->Hello\n",
        [f"input 2: byte 7: {NO_RECORD}", "n: line 2"],
        111,
        {"x": ONE_FILE, "m": b"+3:one\n\n", "n": b"+3:two\n*"},
    ),
    "keys of many lines": told(
        ["-q", "-i", "x", "m"],
        f"input 1: byte 80000: {NO_RECORD}",
        "m: line 10001",
        files={"x": ONE_FILE, "m": b"+4:none\n" * 10000 + b"*"},
    ),
    "a full disk at standard output": case(
        ["-v", "-d"], TWO_FILE, "/dev/full", [NO_OUTPUT, "standard output: No space left on device"], 111
    ),
    "a duplicate on a full standard error": keeps(["-vcw", "x"], None, pairs(b"1", b"2"), stderr=FULL),
    "no duplicate on a full standard error": creates(["-vcw", "x"], TWO_FILE, TWO_TEXT) | dict(stderr=FULL),
    "a fault on a full standard error": case(["-v", "-q", "x", "one"], b"", b"", None, 111, stderr=FULL),
    "a full device at both": case(["-v", "-d"], TWO_FILE, FULL, None, 111, stderr=FULL),
    "a value on a full standard error": case(["-v", "-q", "x", "one"], stdout=b"Hello", files={"x": ONE_FILE}, stderr=FULL),
    "a pipe that nobody reads": case(["-v", "-d"], TWO_FILE, UNREAD, [NO_OUTPUT, "standard output: Broken pipe"], 111),
    "a database that finds no room": told(
        ["-c", "x"], NO_DATABASE, "x.tmp: File too large", TWO_TEXT, files={"x": ONE_FILE}, most=2048
    ),
    "the same in its own temporary file": told(
        ["-c", "-t", "y", "x"], NO_DATABASE, "y: File too large", TWO_TEXT, files={"x": ONE_FILE}, most=2048
    ),
    "a name with a newline": told(["-q", "x\ncdb: y\x7f\x1b", "one"], NO_FILE, f"x\\x0acdb: y\\x7f\\x1b: {MISSING}"),
    "a name with characters of many bytes": told(["-q", "x\u00e9\u20ac\U0001f600", "one"], NO_FILE, f"x\u00e9\u20ac\U0001f600: {MISSING}"),
    "a name with controls of many bytes": told(
        ["-q", "\u0085\u202ex\u2028", "one"], NO_FILE, f"\\xc2\\x85\\xe2\\x80\\xaex\\xe2\\x80\\xa8: {MISSING}"
    ),
    "a temporary name of many bytes": told(["-c", "no/\u00e9"], NO_FILE, f"no/\u00e9.tmp: {MISSING}", TWO_TEXT),
    "a value that is missing": case(["-v", "-q", "x", "no"], status=100, files={"x": FOUR_FILE}),
    "a query that is answered": case(["-v", "-q", "x", "one"], stdout=b"Hello", files={"x": ONE_FILE}),
}


def worded(given, cause):
    """A run of bad words with `-v`, and the line that says which are bad."""
    return case(given, line=[BAD_WORDS, cause], status=2)


WORDS = {
    "an unknown letter": worded(["-v", "-Z"], "-Z: unknown letter"),
    "an unknown letter beside the one that asks": worded(["-Zv"], "-Z: unknown letter"),
    "a letter beyond ASCII": worded(["-v", "-q\u00e9", "x", "k"], "-\u00e9: unknown letter"),
    "a letter that no terminal is given": worded(["-v", "-q\u009b", "x", "k"], "-\\xc2\\x9b: unknown letter"),
    "a hyphen among letters": worded(["-vq-d", "x"], "--: unknown letter"),
    "a long word": worded(["-v", "-c", "--map=1", "x"], "--map=1: unknown option"),
    "a long word alone": worded(["-v", "--map=1", "x"], "--map=1: unknown option"),
    "a long word for help": worded(["-v", "--help"], "no command"),
    "the same before the letter that asks": worded(["--help", "-mv", "x"], "no command"),
    "the same with a command": worded(["-v", "-q", "--help"], "--help: unknown option"),
    "the same before a command": worded(["-v", "--help", "-mc", "x"], "--help: unknown option"),
    "the same after a letter that is unknown": worded(["-v", "-Z", "--help"], "-Z: unknown letter"),
    "a longer word than that for help": worded(["-v", "--helps"], "--helps: unknown option"),
    "a name for help": worded(["-v", "help"], "no command"),
    "a long word with a newline": worded(["-v", "--a\ncdb: b"], "--a\\x0acdb: b: unknown option"),
    "the first of two bad words": worded(["-v", "-q", "-Y", "--map"], "-Y: unknown letter"),
    "a letter without its value": worded(["-vq", "x", "k", "-n"], "-n: no value"),
    "a letter for a value": worded(["-vc", "-t", "-m", "x"], "-t: no value"),
    "hyphens for a value": worded(["-vc", "x", "-b", "--", "y"], "-b: no value"),
    "a letter with a value twice": worded(["-v", "-c", "-ta", "-t", "b", "x"], "-t: given twice"),
    "no command": worded(["-v"], "no command"),
    "names alone": worded(["-v", "x", "y"], "no command"),
    "two commands": worded(["-v", "-q", "-d", "x"], "two commands: -q and -d"),
    "three commands in any order": worded(["-vkDl", "x"], "two commands: -l and -k"),
    "a map of statistics": worded(["-v", "-s", "-m", "x"], "-m: not with -s"),
    "inputs of a dump": worded(["-v", "-di", "x"], "-i: not with -d"),
    "a base of a query": worded(["-v", "-q", "-b", "y", "x", "k"], "-b: not with -q"),
    "a number of a create": worded(["-v", "-c", "-n", "1", "x"], "-n: not with -c"),
    "a base in place": worded(["-v", "-c", "-t", "-", "-b", "y", "x"], "-b: not with -t -"),
    "a base that is built in": worded(["-v", "-c", "-b", "x.tmp", "x"], "-b x.tmp: is the temporary file"),
    "a base that is the temporary file": worded(["-v", "-c", "-b", "y\\", "-t", "y\\", "x"], "-b y\\x5c: is the temporary file"),
    "a number of 0": worded(["-v", "-q", "-n", "0", "x", "k"], "-n 0: not from 1 to 4294967295"),
    "a number of 33 bits": worded(["-v", "-qn4294967296", "x", "k"], "-n 4294967296: not from 1 to 4294967295"),
    "a number that is empty": worded(["-v", "-q", "-n", "", "x", "k"], "-n : not from 1 to 4294967295"),
    "a number of other bytes": worded(["-v", "-q", "-n", "1\t\u00e9", "x", "k"], "-n 1\\x09\u00e9: not from 1 to 4294967295"),
    "no database": worded(["-v", "-q"], "no database"),
    "no database of many keys": worded(["-vqi"], "no database"),
    "no database to create": worded(["-v", "-c"], "no database"),
    "no key": worded(["-v", "-q", "x"], "no key"),
    "no old database": worded(["-v", "-D"], "no old database"),
    "no new database": worded(["-v", "-D", "x"], "no new database"),
    "a second key": worded(["-v", "-q", "x", "k", "l\x7f"], "l\\x7f: one name too many"),
    "a second file of statistics": worded(["-v", "-s", "x", "y"], "y: one name too many"),
    "replaced and inserted": worded(["-v", "-cru", "x"], "-r: not with -u"),
    "a letter that no one asks to explain": case(["-Z"], line=BAD_WORDS, status=2),
    "a letter after the names": case(["-Z", "--", "-v"], line=BAD_WORDS, status=2),
}
CAUSES.update({f"bad words: {name}": row for name, row in WORDS.items()})

# What is shown of keys.
SHOWN = {
    "two bytes": ("\u00e9".encode(), "\u00e9"),
    "three bytes": ("\u20ac".encode(), "\u20ac"),
    "four bytes": ("\U0001f600".encode(), "\U0001f600"),
    "the least and the greatest of each length": (
        "~\u00a0\u07ff\u0800\ud7ff\ue000\uffff\U00010000\U0010ffff".encode(),
        "~\u00a0\u07ff\u0800\ud7ff\ue000\uffff\U00010000\U0010ffff",
    ),
    "ASCII that is hidden": (b"\0\x1b[31m\x1f\x7f\\", "\\x00\\x1b[31m\\x1f\\x7f\\x5c"),
    "controls of two bytes": ("\u0080\u0085\u009f".encode(), "\\xc2\\x80\\xc2\\x85\\xc2\\x9f"),
    "separators and directions": (
        "\u2027\u2028\u202e\u202f\u2065\u2066\u2069\u206a".encode(),
        "\u2027\\xe2\\x80\\xa8\\xe2\\x80\\xae\u202f\u2065\\xe2\\x81\\xa6\\xe2\\x81\\xa9\u206a",
    ),
    "a slash in two bytes": (b"\xc0\xaf", "\\xc0\\xaf"),
    "too many bytes": (b"\xc1\xbf\xe0\x9f\xbf\xf0\x8f\xbf\xbf", "\\xc1\\xbf\\xe0\\x9f\\xbf\\xf0\\x8f\\xbf\\xbf"),
    "surrogates": (b"\xed\xa0\x80\xed\xbf\xbf", "\\xed\\xa0\\x80\\xed\\xbf\\xbf"),
    "more than Unicode has": (b"\xf4\x90\x80\x80\xf5\x80\x80\x80\xff", "\\xf4\\x90\\x80\\x80\\xf5\\x80\\x80\\x80\\xff"),
    "a character that is cut at the end": (b"a\xe2\x82", "a\\xe2\\x82"),
    "characters that are cut before others": (b"\xe2\x82a\xf0\x9f\x98\xc3\xa9\xc3", "\\xe2\\x82a\\xf0\\x9f\\x98\u00e9\\xc3"),
    "a byte that continues nothing": (b"\xa9\xc3\xa9\xa9", "\\xa9\u00e9\\xa9"),
    "a character that is not shown whole": (b"k" * 255 + b"\xc3\xa9", "k" * 255 + "\\xc3..."),
    "a character that just is": (b"k" * 254 + b"\xc3\xa9\xa9", "k" * 254 + "\u00e9..."),
}


def doubled(key, seen):
    """A create that warns of a key which comes twice, and shows it so."""
    records = [(key, b"1"), (key, b"2")]
    return creates(["-vcw", "x"], file_of(records), text_of(records), [again(2), f"standard input: line 2: key {seen}"])


CAUSES.update({f"a key of {name}": doubled(*row) for name, row in SHOWN.items()})

# Duplicates, each explained by the name of its input, the line at which it begins, and its key.
LONG = b"k" * 256
# Records of several windows.
MANY = [(b"%d" % n, b"%d " % n * 150) for n in range(200)]
EXPLAINED = {
    "a duplicate of standard input": creates(
        ["-vcw", "x"], of_a(b"1", b"2"), pairs(b"1", b"2"), [again(2), "standard input: line 2: key a"]
    ),
    "a duplicate that is not warned of": creates(["-vc", "x"], of_a(b"1", b"2"), pairs(b"1", b"2")),
    "a duplicate that ends the run": keeps(
        ["-vce", "x"], [again(2), "standard input: line 2: key a", STOPPED], pairs(b"1", b"2")
    ),
    "duplicates of several inputs": creates(
        ["-vcwm", "x", "m", "-", "n"],
        file_of([(b"one", b"1"), (b"one", b"2"), (b"two", b"3"), (b"one", b"4"), (b"two", b"5")]),
        b"two 3\n",
        [again(2), "m: line 4: key one", again(1, 3), "n: line 1: key one", again(2, 3), "n: line 2: key two"],
        {"m": b"# a\none 1\n\none 2\n", "n": b"one 4\ntwo 5\n"},
    ),
    "a name and a key with other bytes": creates(
        ["-vcw", "x", "a\n\u00e9"],
        file_of([(b"\\\n\xff ~", b"1"), (b"\\\n\xff ~", b"2")]),
        b"",
        [again(2), "a\\x0a\u00e9: line 3: key \\x5c\\x0a\\xff ~"],
        {"a\n\u00e9": text_of([(b"\\\n\xff ~", b"1"), (b"\\\n\xff ~", b"2")])},
    ),
    "a key that is empty": creates(
        ["-vcw", "x"], file_of([(b"", b"1"), (b"", b"2")]), text_of([(b"", b"1"), (b"", b"2")]), [again(2), "standard input: line 2: key "]
    ),
    "a key of as many bytes as are shown": creates(
        ["-vcwr", "x"],
        file_of([(LONG, b"2")]),
        text_of([(LONG, b"1"), (LONG, b"2")]),
        [again(2), f"standard input: line 2: key {LONG.decode()}"],
    ),
    "a longer key": creates(
        ["-vcwu", "x"],
        file_of([(LONG + b"\0", b"1")]),
        text_of([(LONG + b"\0", b"1"), (LONG + b"\0", b"2")]),
        [again(2), f"standard input: line 2: key {LONG.decode()}..."],
    ),
    "a duplicate of a base": creates(
        ["-vcw", "-b", "y", "x", "n"],
        file_of([(b"one", b"Hello"), (b"one", b"1")]),
        b"",
        [again(1), "n: line 1: key one"],
        {"y": ONE_FILE, "n": b"+3,1:one->1\n\n"},
    ),
    "a duplicate after a removal": creates(
        ["-vcw", "-b", "y", "x", "n"],
        file_of([(b"one", b"1"), (b"one", b"2")]),
        b"",
        [again(3), "n: line 3: key one"],
        {"y": ONE_FILE, "n": b"-3:one\n+3,1:one->1\n+3,1:one->2\n\n"},
    ),
    "a duplicate after values of several lines": creates(
        ["-vcw", "x"],
        file_of([(b"one", b"a\nb\n"), (b"two", b""), (b"one", b"3")]),
        b"+3,4:one->a\nb\n\n+3,0:two->\n+3,1:one->3\n\n",
        [again(3), "standard input: line 5: key one"],
    ),
    "a duplicate after a removal of several lines": creates(
        ["-vcw", "-b", "y", "x", "n"],
        file_of([(b"one", b"Hello"), (b"one", b"1")]),
        b"",
        [again(2), "n: line 3: key one"],
        {"y": ONE_FILE, "n": b"-3:a\nb\n+3,1:one->1\n\n"},
    ),
    "a duplicate whose lengths begin with zeros": creates(
        ["-vcw", "x"],
        file_of([(b"a", b"1"), (b"a", b"2")]),
        b"+001,0001:a->1\n+01,01:a->2\n\n",
        [again(2), "standard input: line 2: key a"],
    ),
    "duplicates between lines that hold no record": creates(
        ["-vcwm", "x", "m"],
        file_of([(b"one", b"1"), (b"one", b"2"), (b"two", b"3"), (b"one", b"4")]),
        b"",
        [again(2), "m: line 7: key one", again(4), "m: line 10: key one"],
        {"m": b"\n# a\n  one 1\n\n\t# b\n \none 2\ntwo 3\n#\none 4"},
    ),
    "duplicates of standard input that is read twice": creates(
        ["-vcw", "x", "-", "m", "-"],
        file_of([(b"a", b"1"), (b"a", b"2"), (b"a", b"3"), (b"b", b"4"), (b"a", b"5")]),
        pairs(b"1", b"2") + b"+1,1:b->4\n+1,1:a->5\n\n",
        [
            again(2),
            "standard input: line 2: key a",
            again(1, 2),
            "m: line 1: key a",
            again(2, 3),
            "standard input: line 5: key a",
        ],
        {"m": b"+1,1:a->3\n\n"},
    ),
    "a duplicate after a record longer than a window": creates(
        ["-vcw", "x"],
        file_of([(b"a", b"1\n" * 40000), (b"a", b"2")]),
        text_of([(b"a", b"1\n" * 40000), (b"a", b"2")]),
        [again(2), "standard input: line 40002: key a"],
    ),
    "a duplicate longer than a window": creates(
        ["-vcw", "x"],
        file_of([(b"a", b"1"), (b"a", b"\n" * 70000), (b"a", b"3")]),
        text_of([(b"a", b"1"), (b"a", b"\n" * 70000), (b"a", b"3")]),
        [again(2), "standard input: line 2: key a", again(3), "standard input: line 70003: key a"],
    ),
    "duplicates among lines longer than a window": creates(
        ["-vcwm", "x"],
        file_of([(b"a", b"1" * 70000), (b"a", b"2" * 70000), (b"a", b"3")]),
        b"a " + b"1" * 70000 + b"\n#" + b"#" * 70000 + b"\n\na " + b"2" * 70000 + b"\n\na 3",
        [again(2), "standard input: line 4: key a", again(3), "standard input: line 6: key a"],
    ),
    "duplicates in several windows": creates(
        ["-vcw", "x", "n"],
        file_of([*MANY, *MANY]),
        b"",
        [it for n, (key, _) in enumerate(MANY, 1 + len(MANY)) for it in (again(n), f"n: line {n}: key {key.decode()}")],
        {"n": text_of([*MANY, *MANY])},
    ),
    "duplicates in several windows of a map": creates(
        ["-vcwm", "x", "m"],
        file_of([*MANY, *MANY]),
        b"",
        [
            it
            for n, (key, _) in enumerate(MANY, 1 + len(MANY))
            for it in (again(n), f"m: line {2 * n}: key {key.decode()}")
        ],
        {"m": b"".join(b"#\n%s %s\n" % record for record in [*MANY, *MANY])},
    ),
}
CAUSES.update({f"duplicates: {name}": row for name, row in EXPLAINED.items()})
