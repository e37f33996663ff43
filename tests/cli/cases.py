"""What the program answers: for each case its words, what it reads, and all that it is to leave.

Each case is a dict. `words` stand behind the program's name; `stdin` is the bytes of standard
input, a path to open there, or CLOSED; `stdout` is the bytes that it is to write, a path to open
there, CLOSED, or UNREAD; `errors` is the exact text on standard error, and `status` the exit
status; with `stderr` that is CLOSED none is open, and with one that is a path the lines are written there. `files` are there before, and `left` behind it (the same ones, where it is None): bytes, a
FOLDER, a PIPE or a Link each, by its name. No file may become longer than `most` bytes, where that is a
number; a `sealed` folder takes no new name. The program's memory has at most `space` bytes.
"""

import os

from files import (
    BARE_FILE,
    BARE_TEXT,
    EMPTY_FILE,
    FIRST_TEXT,
    FOREIGN_FILE,
    FOUR_FILE,
    HUGE_END,
    HUGE_FRONT,
    LARGE_END,
    LARGE_FILE,
    LARGE_FRONT,
    LARGE_LAST,
    LARGE_TEXT,
    ONE_FILE,
    TWO_FILE,
    TWO_TEXT,
    UNFINISHED_FILE,
    WIDE_FILE,
    file_of,
    hash_of,
    text_of,
    two_with,
    wide_words,
    words,
)
from places import CLOSED, FOLDER, PIPE, UNREAD, Link

CREATE = ["-c", "-"]
DUMP = ["-d"]

NO_RECORD = "not a record"
EARLY = "text ends early"
LARGE_LENGTH = "length too large"
SHORT = "database shorter than its head"
NO_INPUT = "input 1: cannot be read"
NO_DATABASE = "database cannot be read or written"


BAD_WORDS = "bad command line, see cdb -h"
NO_FILE = "file cannot be opened"
NO_NAME = "database cannot be renamed"
NO_OUTPUT = "output cannot be written"
NO_TABLES = "no tables before its records"
NO_BASE_TABLES = f"base database: {NO_TABLES}"
STOPPED = "stopped at a duplicate key"


def case(given, stdin=b"", stdout=b"", line=None, status=0, files=None, left=None, **other):
    """A case, of which `line` is the text, or the texts, on standard error."""
    lines = [] if line is None else [line] if isinstance(line, str) else line
    whole = dict(stderr=None, most=None, space=None, sealed=False)
    whole.update(other)
    return dict(
        words=given,
        stdin=stdin,
        stdout=stdout,
        errors=b"".join(b"cdb: %s\n" % it.encode() for it in lines),
        status=status,
        files=files or {},
        left=left,
        **whole,
    )


def made(text, file):
    return case(CREATE, text, file)


def refused(text, place, what, stdout=b""):
    return case(CREATE, text, stdout, f"input 1: byte {place}: {what}", 111)


def dumped(file, text):
    return case(DUMP, file, text)


def damaged(file, text, line):
    return case(DUMP, file, text, line, 111)


def not_whole(place):
    return f"record at {place}: not whole"


def outside(table):
    return f"table {table}: outside the file"


def not_read(given, stdin, line):
    return case(given, stdin, b"", line, 111)


def not_written(given, stdin, stdout):
    return case(given, stdin, stdout, NO_OUTPUT, 111)


def not_understood(*given):
    return case(list(given), TWO_TEXT, b"", BAD_WORDS, 2)


def pairs(*values):
    """The text of records of the key a."""
    return b"".join(b"+1,%d:a->%s\n" % (len(it), it) for it in values) + b"\n"


def of_a(*values):
    """The database of records of the key a."""
    return file_of([(b"a", it) for it in values])


def again(record, number=1):
    """The line of a record whose key was there."""
    return f"input {number}: record {record}: duplicate key"


def looks(given, stdin, stdout, line=None, status=0, file=TWO_FILE, inputs=None):
    """A query of the keys that inputs give, of the database x."""
    files = {"x": file, **(inputs or {})}
    return case(["-q", "-i", "x", *given], stdin, stdout, line, status, files)


def creates(given, file, stdin=b"", line=None, inputs=None):
    """A create of the database x, of standard input or of inputs, where an old one stands."""
    inputs = inputs or {}
    files = {"x": ONE_FILE, **inputs}
    return case(given, stdin, b"", line, 0, files, {"x": file, **inputs})


def beside(name, what):
    """A first create of x beside something of another name, which stays."""
    return case(["-cv", "x"], TWO_TEXT, files={"y": b"kept", name: what}, left={"y": b"kept", name: what, "x": TWO_FILE})


def keeps(given, line, stdin=b"", files=None, left=None, **other):
    """A create that has a fault: the old database x stands as it was, and nothing beside it."""
    files = {"x": ONE_FILE, **(files or {})}
    left = files if left is None else {"x": ONE_FILE, **left}
    return case(given, stdin, b"", line, 111, files, left, **other)


def chain(links):
    """A database behind so many links, the last of which has their number as its name."""
    return {"0": ONE_FILE, **{str(n): Link(str(n - 1)) for n in range(1, links + 1)}}


# How much memory is enough for what came.
LITTLE = 200_000_000


def long_record(key, value):
    """A database that is cut behind the first byte of a record with lengths that it does not have."""
    return words(4294967280, 1) + words(0, 0) * 255 + words(key, value) + b"a"


def told(given, stdin, line, files=None):
    """A command that reads a length that nothing follows."""
    return case(given, stdin, b"", line, 111, files, space=LITTLE)


def amends(given, file, changes, line=None, base=TWO_FILE):
    """A create of the database x from the two-record base, or another, and an input, where an old one is."""
    files = {"base": base, "in": changes}
    return case(["-c", "-b", "base", *given], b"", b"", line, 0, {"x": ONE_FILE, **files}, {"x": file, **files})


def unamended(changes, line, options=()):
    """The same of standard input, with a fault: both databases are as they were."""
    return keeps(["-c", "-b", "base", *options, "x"], line, changes, {"base": TWO_FILE})


def asks(given, value, file=TWO_FILE, line=None, status=0):
    """A query of the database x."""
    return case(["-q", *given], b"", value, line, status, {"x": file})


def misses(*given, file=TWO_FILE):
    """A query of the database x for a value that is not there."""
    return asks(list(given), b"", file, None, 100)


def reads(given, file, stdout, line=None, status=0):
    """A command on the database x, and nothing on standard input."""
    return case(given, b"", stdout, line, status, {"x": file})


def checks(file, line=None, wide=""):
    """A check of the database x."""
    return reads([f"-k{wide}", "x"], file, b"", line, 0 if line is None else 100)


def compares(old, new, text, line=None, given=("-D",)):
    """What changed between the databases x and y."""
    return case([*given, "x", "y"], b"", text, line, 0 if line is None else 111, {"x": old, "y": new})


def new_of(records):
    """The text by which records are new, of which no two have one key."""
    return b"".join(b"-%d:%s\n" % (len(key), key) + text_of([(key, value)])[:-1] for key, value in records) + b"\n"


def of_old(line):
    """The line of a fault of the old one of two databases."""
    return f"old database: {line}"


def of_new(line):
    """And of the new one."""
    return f"new database: {line}"


USAGE = b"""\
usage: cdb -q [-W] [-m] [-n number] database key
       cdb -q -i [-W] [-m] [-n number] database [input ...]
       cdb -d [-W] [-m] [database]
       cdb -l [-W] [-m] [database]
       cdb -s [-W] [database]
       cdb -c [-W] [-m] [-t temporary] [-b base] [-weru] database [input ...]
       cdb -k [-W] [database]
       cdb -D [-W] old new
       cdb -h
       cdb -V
       with each: -v  say which file and why

  -q  query: write the values of a key
  -d  dump: write all records
  -l  list: write all keys
  -s  write statistics
  -c  create a database from texts
  -k  check a database
  -D  write what changed between two databases
  -h  write the usage
  -V  write the version
  -n  write only the value with this number
  -m  read or write a map, a key and a value a line
  -i  look up all keys of the inputs
  -t  build in this file
  -b  amend this database
  -w  report duplicate keys
  -e  stop at a duplicate key
  -r  a record replaces those of its key
  -u  leave out duplicate keys
  -W  use words of 8 bytes, for files above 4 GiB
"""

with open(os.path.join(os.path.dirname(os.path.abspath(__file__)), "..", "..", "VERSION"), "rb") as version:
    VERSION = b"cdb " + version.read().strip() + b" (Pezundrix)\n"

DISTANCES = [f"distance {n}" for n in range(10)] + ["distance 10 or more"]


def statistics(records, keys, values, tables, sizes, distances):
    """The text of statistics, of which the counts at the distances not named are 0."""
    counts = distances + [0] * (11 - len(distances))
    lines = [
        f"records: {records}",
        f"key lengths least/average/greatest: {keys}",
        f"value lengths least/average/greatest: {values}",
        f"tables/entries/collisions: {tables}",
        f"table sizes least/average/greatest: {sizes}",
        *(f"{name}: {count}" for name, count in zip(DISTANCES, counts)),
    ]
    return "".join(line + "\n" for line in lines).encode()


TWO_STATISTICS = statistics(2, "3/3/3", "5/6/7", "2/2/0", "2/2/2", [2])
FOUR_STATISTICS = statistics(4, "1/1/1", "1/1/1", "1/4/3", "8/8/8", [1, 1, 1, 1])
NO_STATISTICS = statistics(0, "0/0/0", "0/0/0", "0/0/0", "0/0/0", [])

MAP_TEXT = b"  one Hello\n# note\n\n  # more\n \t\nkey\ntwo\t \tGood bye"
MAP_FILE = file_of([(b"one", b"Hello"), (b"key", b""), (b"two", b"Good bye")])
# The two records in words of 8 bytes.
WIDE_TWO = file_of([(b"one", b"Hello"), (b"two", b"Goodbye")], wide_words)
# No record in words of 8 bytes.
WIDE_EMPTY = wide_words(4096, 0) * 256
# A long record, nearly all zeros, in the one table that has a place: words of 8 bytes show no slots there.
ZEROS = (bytes(1023) + b"\1", bytes(1024))
ZEROS_FILE = (
    words(0, 0) * 4 + words(4104, 1) + words(0, 0) * 251
    + words(1024, 1024) + ZEROS[0] + ZEROS[1]
    + words(hash_of(ZEROS[0]), 2048)
)
# The difference from one value of a key to two others.
OF_A_TEXT = b"-1:a\n+1,1:a->1\n+1,1:a->2\n\n"
# Many values of one key, of which the 78th is in another place; its slot is the 78th from the key's first.
MANY_OF_A = of_a(*(b"%d" % number for number in range(1, 81)))
SLOT_78 = len(MANY_OF_A) - 8 * (160 - (hash_of(b"a") >> 8) % 160 - 77)
MANY_DAMAGED = MANY_OF_A[:SLOT_78] + words(hash_of(b"a"), 4294967295) + MANY_OF_A[SLOT_78 + 8:]
# A text whose next record begins with a length that is too large, whose line is a long one.
LAST_TEXT = text_of([(b"a", bytes(10_000_000))])[:-1] + b"+429496729"
# Records of a key that looks like an option, of an empty key, and of any bytes.
ODD = [(b"-k", b"hyphen"), (b"", b"empty"), (b"a\nb", b"c\0d\ne"), (b"\xc3\xa9", b"\xff")]
ODD_FILE = file_of(ODD)


CASES = {
    "two records": made(TWO_TEXT, TWO_FILE),
    "no record": made(b"\n", EMPTY_FILE),
    "an empty key with an empty value": made(BARE_TEXT, BARE_FILE),
    "leading zeros, and a rest that is not read": made(b"+003,05:one->Hello\n\nrest", ONE_FILE),
    "many leading zeros": made(b"+" + b"0" * 40 + FIRST_TEXT[1:] + b"\n", ONE_FILE),
    "3000 records of any bytes": made(LARGE_TEXT, LARGE_FILE),
    "no text": refused(b"", 0, EARLY),
    "no plus": refused(b"*", 0, NO_RECORD),
    "no digit": refused(b"+,5:", 1, NO_RECORD),
    "no digit behind the comma": refused(b"+3,:one", 3, NO_RECORD),
    "a sign": refused(b"+-3,5:", 1, NO_RECORD),
    "one length alone": refused(b"+3:one", 2, NO_RECORD),
    "a length that is too large": refused(b"+4294967296,0:", 10, LARGE_LENGTH),
    "a value's length that is too large": refused(b"+0,4294967296:", 12, LARGE_LENGTH),
    "a length of 63 bits": refused(b"+9223372036854775807,0:", 10, LARGE_LENGTH),
    "the greatest lengths": refused(b"+4294967295,4294967295:one", 26, EARLY),
    "another arrow": refused(b"+3,5:one=>Hello", 8, NO_RECORD),
    "a value that ends early": refused(b"+3,5:one->Hell", 14, EARLY),
    "a value that is too long": refused(b"+3,5:one->Hello!", 15, NO_RECORD),
    "a line that ends as on another system": refused(b"+3,5:one->Hello\r\n\r\n", 15, NO_RECORD),
    "no closing newline": refused(FIRST_TEXT, 16, EARLY),
    "a fault in the second record": refused(FIRST_TEXT + b"+3,7;", 20, NO_RECORD),
    "a fault behind many records": refused(LARGE_TEXT[:-1] + b"*", len(LARGE_TEXT) - 1, NO_RECORD),
    "a folder as the text": not_read(CREATE, "/", NO_INPUT),
    "no standard input for the text": not_read(CREATE, CLOSED, NO_INPUT),
    "a full device as the database": not_written(CREATE, TWO_TEXT, "/dev/full"),
    "a pipe that nobody reads as the database": not_written(CREATE, TWO_TEXT, UNREAD),
    "no standard output for the database": not_written(CREATE, TWO_TEXT, CLOSED),
    "a full device as a database of a map": not_written(["-cm", "-"], b"a 1\n", "/dev/full"),
    "a full device as a large database": not_written(CREATE, LARGE_TEXT, "/dev/full"),
    "a pipe that nobody reads as a large database": not_written(CREATE, LARGE_TEXT, UNREAD),
    "a faulty text to a full device": refused(b"*", 0, NO_RECORD, "/dev/full"),
    "a dump of two records": dumped(TWO_FILE, TWO_TEXT),
    "a dump of no record": dumped(EMPTY_FILE, b"\n"),
    "a dump of an empty key with an empty value": dumped(BARE_FILE, BARE_TEXT),
    "a dump of zeros": dumped(bytes(2048), b"\n"),
    "a dump of 3000 records of any bytes": dumped(LARGE_FILE, LARGE_TEXT),
    "a dump of another program's file": dumped(FOREIGN_FILE, b"+1,1:a->1\n\n"),
    "a dump with bytes behind the tables": dumped(TWO_FILE + b"12345", TWO_TEXT),
    "a dump with no tables": dumped(TWO_FILE[:2082], TWO_TEXT),
    "a dump with a table outside": dumped(two_with(56, words(2114, 1)), TWO_TEXT),
    "a dump with a wrong slot": dumped(two_with(2086, b"\x11"), TWO_TEXT),
    "a dump of a cut head": damaged(TWO_FILE[:2047], b"", SHORT),
    "a dump of nothing": damaged(b"", b"", SHORT),
    "a dump of a text": damaged(TWO_TEXT, b"", SHORT),
    "a dump of a large text": damaged(b"+" * 5000, b"", not_whole(2048)),
    "a dump of a cut record": damaged(TWO_FILE[:2070], FIRST_TEXT, not_whole(2064)),
    "a dump cut behind a record": damaged(TWO_FILE[:2064], FIRST_TEXT, not_whole(2064)),
    "a dump cut before a record's last byte": damaged(TWO_FILE[:2081], FIRST_TEXT, not_whole(2064)),
    "a dump cut behind the head": damaged(TWO_FILE[:2048], b"", not_whole(2048)),
    "a dump with a value too long": damaged(two_with(2068, b"\x08"), FIRST_TEXT, not_whole(2064)),
    "a dump with huge lengths": damaged(two_with(2064, b"\xff" * 8), FIRST_TEXT, not_whole(2064)),
    "a dump with a table in the head": damaged(two_with(0, words(100, 1)), b"", outside(0)),
    "a dump with the last one there": damaged(two_with(2040, words(2047, 1)), b"", outside(255)),
    "a large dump, cut": damaged(LARGE_FILE[:LARGE_END - 1], LARGE_FRONT, not_whole(LARGE_LAST)),
    "a dump of a folder": not_read(DUMP, "/", NO_DATABASE),
    "a dump of no standard input": not_read(DUMP, CLOSED, NO_DATABASE),
    "a dump to a full device": not_written(DUMP, TWO_FILE, "/dev/full"),
    "a dump to a pipe that nobody reads": not_written(DUMP, TWO_FILE, UNREAD),
    "a dump to no standard output": not_written(DUMP, TWO_FILE, CLOSED),
    "a large dump to a full device": not_written(DUMP, LARGE_FILE, "/dev/full"),
    "a large dump to a pipe that nobody reads": not_written(DUMP, LARGE_FILE, UNREAD),
    "a damaged dump to a full device": damaged(TWO_FILE[:2070], "/dev/full", not_whole(2064)),
    # create: words, inputs and modes
    "a database of standard input": creates(["-c", "x"], TWO_FILE, TWO_TEXT),
    "a database of standard input by its name": creates(["-c", "x", "-"], TWO_FILE, TWO_TEXT),
    "a database that is new": case(["-c", "x"], TWO_TEXT, left={"x": TWO_FILE}),
    "a database of a file": creates(["-c", "x", "in"], TWO_FILE, inputs={"in": TWO_TEXT}),
    "a database of two files": creates(
        ["-c", "x", "b", "a"], of_a(b"2", b"1"), inputs={"a": pairs(b"1"), "b": pairs(b"2")}
    ),
    "a file, standard input, and the file again": creates(
        ["-c", "x", "a", "-", "a"], of_a(b"1", b"2", b"1"), pairs(b"2"), inputs={"a": pairs(b"1")}
    ),
    "standard input twice": creates(["-c", "x", "-", "-"], of_a(b"1", b"2"), pairs(b"1") + pairs(b"2")),
    "the rest of a file is not read as the next one": creates(
        ["-c", "x", "a", "b"], of_a(b"1", b"3"),
        inputs={"a": pairs(b"1") + pairs(b"2"), "b": pairs(b"3")},
    ),
    "the rest of a file is not read as standard input": creates(
        ["-c", "x", "a", "-"], of_a(b"1", b"3"), pairs(b"3"), inputs={"a": pairs(b"1") + pairs(b"2")}
    ),
    "standard input twice, with one text": keeps(
        ["-c", "x", "-", "-"], f"input 2: byte 0: {EARLY}", pairs(b"1")
    ),
    "the database as an input": creates(
        ["-c", "x", "x"], of_a(b"1")
    ) | dict(files={"x": pairs(b"1")}, left={"x": of_a(b"1")}),
    "a large database": creates(["-c", "x"], LARGE_FILE, LARGE_TEXT),
    "an empty database": creates(["-c", "x"], EMPTY_FILE, b"\n"),
    "a map": creates(["-c", "-m", "x"], MAP_FILE, MAP_TEXT),
    "a map, letters in one word": creates(["-cm", "x"], MAP_FILE, MAP_TEXT),
    "an empty map": creates(["-cm", "x"], EMPTY_FILE),
    "a map on standard output": case(["-cm", "-"], MAP_TEXT, MAP_FILE),
    "letters behind the names": creates(["x", "-m", "-c"], MAP_FILE, MAP_TEXT),
    "a database named like an option": case(
        ["-c", "--", "-k", "in"], files={"in": TWO_TEXT}, left={"in": TWO_TEXT, "-k": TWO_FILE}
    ),
    "duplicates": creates(["-c", "x"], of_a(b"1", b"2"), pairs(b"1", b"2")),
    "duplicates with a warning": creates(["-cw", "x"], of_a(b"1", b"2"), pairs(b"1", b"2"), again(2)),
    "duplicates left out": creates(["-cu", "x"], of_a(b"1"), pairs(b"1", b"2")),
    "duplicates left out with a warning": creates(["-cuw", "x"], of_a(b"1"), pairs(b"1", b"2"), again(2)),
    "duplicates replaced": creates(["-cr", "x"], of_a(b"2"), pairs(b"1", b"2")),
    "duplicates replaced with a warning": creates(["-crw", "x"], of_a(b"2"), pairs(b"1", b"2"), again(2)),
    "three values and two warnings": creates(
        ["-cw", "x"], of_a(b"1", b"2", b"3"), pairs(b"1", b"2", b"3"), [again(2), again(3)]
    ),
    "a duplicate that ends the run": keeps(["-ce", "x"], [again(2), STOPPED], pairs(b"1", b"2")),
    "the same with a warning": keeps(["-cew", "x"], [again(2), STOPPED], pairs(b"1", b"2")),
    "the same where it would be replaced": keeps(["-cer", "x"], [again(2), STOPPED], pairs(b"1", b"2")),
    "the same where it would be left out": keeps(["-ceu", "x"], [again(2), STOPPED], pairs(b"1", b"2")),
    "no duplicate that ends the run": creates(["-ce", "x"], TWO_FILE, TWO_TEXT),
    "a duplicate in a second input": creates(
        ["-cw", "x", "a", "-"], of_a(b"1", b"2"), pairs(b"2"), again(1, 2), {"a": pairs(b"1")}
    ),
    "a warning on standard output's database": case(
        ["-cw", "-"], pairs(b"1", b"2"), of_a(b"1", b"2"), again(2)
    ),
    "a duplicate that ends a run on standard output": case(
        ["-ce", "-"], pairs(b"1", b"2"), b"", [again(2), STOPPED], 111
    ),
    "a file on standard output": case(["-c", "-", "in"], b"", TWO_FILE, files={"in": TWO_TEXT}),
    "a temporary file on standard output has no effect": case(["-c", "-t", "y", "-"], TWO_TEXT, TWO_FILE),
    # create: the temporary file, and the old database
    "a temporary file of a name": creates(["-c", "-t", "y", "x"], TWO_FILE, TWO_TEXT),
    "no temporary file": creates(["-c", "-t", "-", "x"], TWO_FILE, TWO_TEXT),
    "the database as the temporary file": creates(["-c", "-t", "x", "x"], TWO_FILE, TWO_TEXT),
    "the database as the temporary file, spelled otherwise": keeps(
        ["-c", "-t", "./x", "x"], NO_FILE, TWO_TEXT
    ),
    "the database behind a link as the temporary file": case(
        ["-c", "-t", "y", "x"], TWO_TEXT, b"", NO_FILE, 111, {"x": Link("y"), "y": ONE_FILE}
    ),
    # create: no name is touched but those of the database and of the temporary file
    "a first create beside an empty x.bit": beside("x.bit", b""),
    "a first create beside a file x.bit": beside("x.bit", b"a byte"),
    "a first create beside a link x.bit": beside("x.bit", Link("y")),
    "a first create beside a folder x.bit": beside("x.bit", FOLDER),
    "a first create beside a pipe x.bit": beside("x.bit", PIPE),
    "an input x.bit": case(
        ["-cvm", "x", "x.bit"], files={"x.bit": b""}, left={"x": EMPTY_FILE, "x.bit": b""}
    ),
    "a base x.bit": case(
        ["-cv", "-b", "x.bit", "x"], b"\n", files={"x.bit": TWO_FILE}, left={"x": TWO_FILE, "x.bit": TWO_FILE}
    ),
    "a temporary file x.bit": case(["-cv", "-t", "x.bit", "x"], TWO_TEXT, left={"x": TWO_FILE}),
    "an old temporary file x.bit": case(
        ["-cv", "-t", "x.bit", "x"], TWO_TEXT, files={"x.bit": b"old"}, left={"x": TWO_FILE}
    ),
    "a temporary file, and no folder of the database": keeps(["-c", "-t", "t", "sub/x"], NO_NAME, TWO_TEXT),
    "a temporary file spelled otherwise, where there is no database": case(
        ["-c", "-t", "./x", "x"], TWO_TEXT, b"", NO_FILE, 111
    ),
    "a database that is a link to its temporary file, where there is none": keeps(
        ["-c", "x"], NO_FILE, TWO_TEXT, {"x": Link("x.tmp")}
    ),
    "a database that is a pipe": keeps(["-c", "x"], NO_NAME, TWO_TEXT, {"x": PIPE}),
    "a database that is a link to a pipe": keeps(
        ["-c", "x"], NO_NAME, TWO_TEXT, {"p": PIPE, "x": Link("p")}
    ),
    "a database that is a link to a folder": keeps(
        ["-c", "x"], NO_NAME, TWO_TEXT, {"f": FOLDER, "x": Link("f")}
    ),
    "a database that is a link to a device": keeps(
        ["-c", "x"], NO_NAME, TWO_TEXT, {"x": Link("/dev/null")}
    ),
    "in place, a device": case(["-c", "-t", "-", "/dev/null"], TWO_TEXT, b"", NO_DATABASE, 111),
    "a database that is a link": case(
        ["-c", "x"], TWO_TEXT, files={"y": b"kept", "x": Link("y")}, left={"y": b"kept", "x": TWO_FILE}
    ),
    "a database behind 39 links": case(
        ["-c", "39"], TWO_TEXT, files=chain(39), left={**chain(39), "39": TWO_FILE}
    ),
    "a database behind as many links as the system follows": case(
        ["-c", "40"], TWO_TEXT, files=chain(40), left={**chain(40), "40": TWO_FILE}
    ),
    "a database behind one link more": keeps(["-c", "41"], NO_FILE, TWO_TEXT, chain(41)),
    "a query behind as many links as the system follows": case(
        ["-q", "40", "one"], b"", b"Hello", files=chain(40)
    ),
    "a query behind one link more": keeps(["-q", "41", "one"], NO_FILE, b"", chain(41)),
    "in place, a link": keeps(
        ["-c", "-t", "-", "x"], NO_FILE, TWO_TEXT, {"y": b"kept", "x": Link("y")}
    ),
    "in place, a link to nothing": keeps(
        ["-c", "-t", "-", "x"], NO_FILE, TWO_TEXT, {"x": Link("y")}
    ),
    "in place, an input that is a link to the database": keeps(
        ["-cm", "-t", "-", "x", "in"], NO_FILE, b"", {"x": b"a b\n", "in": Link("x")}
    ),
    "in place, a database that is a link to an input": keeps(
        ["-cm", "-t", "-", "x", "in"], NO_FILE, b"", {"in": b"a b\n", "x": Link("in")}
    ),
    "a temporary file that is a link to an input": keeps(
        ["-c", "x", "in"], NO_FILE, files={"in": TWO_TEXT, "x.tmp": Link("in")}
    ),
    "a temporary file that is a link to the database": keeps(
        ["-c", "x"], NO_FILE, TWO_TEXT, {"x.tmp": Link("x")}
    ),
    "a temporary file that is a link to nothing": keeps(
        ["-c", "x"], NO_FILE, TWO_TEXT, {"x.tmp": Link("y")}
    ),
    "replacing on output, one key twice": case(
        ["-cr", "-"], text_of([(b"a", b"1"), (b"a", b"2")]), file_of([(b"a", b"2")])
    ),
    "inserting on output, one key twice": case(
        ["-cu", "-"], text_of([(b"a", b"1"), (b"a", b"2")]), file_of([(b"a", b"1")])
    ),
    "a base that is not there": keeps(["-c", "-b", "none", "x"], NO_FILE, b"\n", {"x": TWO_FILE}),
    "a base that is not there, beside a pipe that nobody writes to": keeps(
        ["-c", "-b", "none", "x", "p"], NO_FILE, files={"p": PIPE}
    ),
    "in place, of a shorter database": creates(["-c", "-t-", "x"], EMPTY_FILE, b"\n"),
    "in place, a faulty text": case(
        ["-c", "-t", "-", "x"], b"*", b"", f"input 1: byte 0: {NO_RECORD}", 111,
        {"x": LARGE_FILE}, {"x": b"\xff" * 2048},
    ),
    "in place, a fault behind three records": case(
        ["-c", "-t", "-", "x"], HUGE_FRONT + b"*", b"", f"input 1: byte {len(HUGE_FRONT)}: {NO_RECORD}", 111,
        {"x": ONE_FILE}, {"x": UNFINISHED_FILE},
    ),
    "in place, a duplicate that ends the run": case(
        ["-ce", "-t", "-", "x"], HUGE_FRONT + b"\n", b"", [again(3), STOPPED], 111,
        {"x": ONE_FILE}, {"x": UNFINISHED_FILE[: 2048 + 2 * 100_009]},
    ),
    "a check of a database that was not finished": checks(UNFINISHED_FILE, outside(0)),
    "a dump of a database that was not finished": reads(
        ["-d", "x"], UNFINISHED_FILE, HUGE_FRONT, not_whole(HUGE_END), 111
    ),
    "a query of a database that was not finished": asks(
        ["x", "a"], b"", UNFINISHED_FILE, outside(196), 111
    ),
    "in place, a folder": case(
        ["-c", "-t", "-", "x"], TWO_TEXT, b"", NO_FILE, 111, {"x": FOLDER}
    ),
    "an old temporary file": creates(["-c", "x"], TWO_FILE, TWO_TEXT)
    | dict(files={"x": ONE_FILE, "x.tmp": b"old"}, left={"x": TWO_FILE}),
    "a fault, and an old temporary file": keeps(
        ["-c", "x"], f"input 1: byte 0: {NO_RECORD}", b"*", {"x.tmp": b"old"}, {}
    ),
    "a temporary file that is a link": keeps(
        ["-c", "x"], NO_FILE, TWO_TEXT, {"x.tmp": Link("y"), "y": b"kept"}
    ),
    "a temporary file that is a link, and a faulty text": keeps(
        ["-c", "x"], NO_FILE, b"*", {"x.tmp": Link("y"), "y": b"kept"}
    ),
    "a database whose name ends as that of a temporary file": case(
        ["-c", "x.tmp"], TWO_TEXT, files={"x": ONE_FILE}, left={"x": ONE_FILE, "x.tmp": TWO_FILE}
    ),
    "a database with blanks around its name": case(
        ["-c", " x "], TWO_TEXT, files={"x": ONE_FILE}, left={"x": ONE_FILE, " x ": TWO_FILE}
    ),
    "an input with blanks around its name": creates(
        ["-c", "x", " in "], TWO_FILE, inputs={" in ": TWO_TEXT, "in": FIRST_TEXT + b"\n"}
    ),
    "an input that is the temporary file": case(
        ["-c", "x", "x.tmp"], b"", b"", NO_FILE, 111, {"x.tmp": TWO_TEXT}
    ),
    "an input behind a link to the temporary file": keeps(
        ["-c", "x", "in"], NO_FILE, files={"x.tmp": TWO_TEXT, "in": Link("x.tmp")}
    ),
    "in place, an input that is the database": keeps(["-cm", "-t-", "x", "./x"], NO_FILE),
    "a database that ends in a slash": case(
        ["-c", "sub/"], TWO_TEXT, b"", NO_FILE, 111, {".tmp": b"kept"}
    ),
    "a temporary file that is a folder": keeps(["-c", "x"], NO_FILE, TWO_TEXT, {"x.tmp": FOLDER}),
    "a temporary file in no folder": keeps(["-c", "-t", "no/y", "x"], NO_FILE, TWO_TEXT),
    "a temporary file that is a pipe": keeps(["-c", "x"], NO_FILE, TWO_TEXT, {"x.tmp": PIPE}),
    "a database that is a folder": case(["-c", "x"], TWO_TEXT, b"", NO_NAME, 111, {"x": FOLDER}),
    "a database in no folder": case(["-c", "no/x"], TWO_TEXT, b"", NO_FILE, 111),
    "a database of no name": case(["-c", ""], TWO_TEXT, b"", NO_FILE, 111, {".tmp": b"kept"}),
    "a database that is a folder, and a faulty text": case(["-c", "x"], b"*", b"", NO_NAME, 111, {"x": FOLDER}),
    "a folder that takes no name": keeps(["-c", "x"], NO_FILE, TWO_TEXT, sealed=True),
    "an input that is missing": keeps(["-c", "x", "in"], NO_FILE),
    "a second input that is missing": keeps(["-c", "x", "in", "no"], NO_FILE, files={"in": TWO_TEXT}),
    "an input that is a folder": keeps(["-c", "x", "in"], NO_INPUT, files={"in": FOLDER}),
    "no standard input": keeps(["-c", "x"], NO_INPUT, CLOSED),
    "a faulty input": keeps(["-c", "x"], f"input 1: byte 20: {NO_RECORD}", FIRST_TEXT + b"+3,7;"),
    "a faulty second input": keeps(
        ["-c", "x", "a", "b"], f"input 2: byte 0: {NO_RECORD}", files={"a": TWO_TEXT, "b": b"x"}
    ),
    "a fault far behind in the last of many inputs": case(
        ["-c", "x", *["in"] * 999, "last"], b"", b"", f"input 1000: byte {len(LAST_TEXT)}: {LARGE_LENGTH}", 111,
        {"in": b"\n", "last": LAST_TEXT + b"6,0:"}, space=LITTLE,
    ),
    "a length above the greatest": keeps(["-c", "x"], f"input 1: byte 10: {LARGE_LENGTH}", b"+4294967296,0:"),
    "a device that is full": keeps(["-c", "x"], NO_DATABASE, LARGE_TEXT, most=100000),
    "a device that is full at the end": keeps(["-c", "x"], NO_DATABASE, LARGE_TEXT, most=len(LARGE_FILE) - 1),
    "a warning on no standard error": keeps(["-cw", "x"], None, pairs(b"1", b"2"), stderr=CLOSED),
    "no warning on no standard error": creates(["-cw", "x"], TWO_FILE, TWO_TEXT) | dict(stderr=CLOSED),
    "a named database, and a full device as output": case(
        ["-c", "x"], TWO_TEXT, "/dev/full", left={"x": TWO_FILE}
    ),
    "a named database, and no standard output": case(["-c", "x"], TWO_TEXT, CLOSED, left={"x": TWO_FILE}),
    # query
    "a value": asks(["x", "one"], b"Hello"),
    "a value in a line": asks(["-m", "x", "one"], b"Hello\n"),
    "four values": asks(["x", "a"], b"1234", FOUR_FILE),
    "four values in lines": asks(["-m", "x", "a"], b"1\n2\n3\n4\n", FOUR_FILE),
    "the first of four": asks(["-n", "1", "x", "a"], b"1", FOUR_FILE),
    "the last of four": asks(["-n4", "x", "a"], b"4", FOUR_FILE),
    "the third in a line": asks(["-mn", "3", "x", "a"], b"3\n", FOUR_FILE),
    "the 77th of many": asks(["-n", "77", "x", "a"], b"77", MANY_OF_A),
    "the 77th, where the next is damaged": asks(["-n", "77", "x", "a"], b"77", MANY_DAMAGED),
    "the 78th, which is damaged": asks(["-n", "78", "x", "a"], b"", MANY_DAMAGED, not_whole(4294967295), 111),
    "leading zeros of a number": asks(["-n", "002", "x", "a"], b"2", FOUR_FILE),
    "more than there are": misses("-n", "5", "x", "a", file=FOUR_FILE),
    "the greatest number": misses("-n", "4294967295", "x", "a", file=FOUR_FILE),
    "no such key": misses("x", "three"),
    "no such key in a large database": misses("x", "\x01\x02\x03", file=LARGE_FILE),
    "no such key in zeros": misses("x", "one", file=bytes(2048)),
    "a key that begins with a hyphen": asks(["x", "--", "-k"], b"hyphen", ODD_FILE),
    "an empty key": asks(["x", ""], b"empty", ODD_FILE),
    "a key and a value with newlines": asks(["x", "a\nb"], b"c\0d\ne", ODD_FILE),
    "a key of two bytes in one letter": asks(["x", "\u00e9"], b"\xff", ODD_FILE),
    "a query of a name with a blank": asks([" x", "one"], b"Hello") | dict(
        files={" x": TWO_FILE, "x": FOUR_FILE}
    ),
    "a query of a name that ends as that of a temporary file": asks(["x.tmp", "one"], b"Hello") | dict(
        files={"x.tmp": TWO_FILE, "x": FOUR_FILE}
    ),
    "a key that is no text": case(["-q", "x", b"\xff"], line=BAD_WORDS, status=2, files={"x": TWO_FILE}),
    "a key that is another one's front": misses("x", "on"),
    "a query of another program's file": asks(["x", "a"], b"1", FOREIGN_FILE),
    "a query of a file named by a hyphen": case(["-q", "-", "one"], b"", b"Hello", files={"-": TWO_FILE}),
    "a query of no such file": case(["-q", "x", "one"], line=NO_FILE, status=111),
    "a query of standard input": case(["-q", "-", "one"], TWO_FILE, b"", NO_FILE, 111),
    "a query of a folder": case(["-q", "x", "one"], line=NO_DATABASE, status=111, files={"x": FOLDER}),
    "a query of a cut head": asks(["x", "one"], b"", TWO_FILE[:2047], SHORT, 111),
    "a query of a table outside": asks(
        ["x", "two"], b"", two_with(8 * 41, words(2114, 1)), outside(41), 111
    ),
    "a query beside a table outside": asks(["x", "one"], b"Hello", two_with(56, words(2114, 1))),
    "a query of a wrong slot": asks(["x", "two"], b"", two_with(2086, b"\x11"), not_whole(2065), 111),
    "a query of a slot taken away": misses("x", "one", file=two_with(2106, bytes(8))),
    "a query of a value too long": asks(["x", "two"], b"Goodbye\x29", two_with(2068, b"\x08")),
    "a query of a value before a damage": asks(
        ["x", "a"], b"1", FOUR_FILE[:2140] + words(4096) + FOUR_FILE[2144:], not_whole(4096), 111
    ),
    "a query to a full device": case(["-q", "x", "one"], b"", "/dev/full", NO_OUTPUT, 111, {"x": TWO_FILE}),
    "a query to a pipe that nobody reads": case(["-q", "x", "one"], b"", UNREAD, NO_OUTPUT, 111, {"x": TWO_FILE}),
    "a query to no standard output": case(["-q", "x", "one"], b"", CLOSED, NO_OUTPUT, 111, {"x": TWO_FILE}),
    "a missing value to a full device": case(["-q", "x", "1"], b"", "/dev/full", None, 100, {"x": TWO_FILE}),
    # queries of the keys that inputs give
    "records of keys": looks([], b"+3:two\n+3:one\n\n", b"+3,7:two->Goodbye\n+3,5:one->Hello\n\n"),
    "records of no key": looks([], b"\n", b"\n"),
    "records of a list": looks(["k"], b"", TWO_TEXT, inputs={"k": b"+3:one\n+3:two\n\n"}),
    "records of keys of three inputs": looks(
        ["k", "-", "-"], b"+3:two\n\n+03:two\n\n", TWO_TEXT[:-1] + b"+3,7:two->Goodbye\n\n",
        inputs={"k": b"+3:one\n\nrest"},
    ),
    "records of keys as maps": looks(
        ["-m"], b"\n# none\n two\nmissing\none 1 2", b"two Goodbye\none Hello\n", None, 100
    ),
    "records of a key without a value": looks([], b"+1:x\n+3:one\n+0:\n\n", FIRST_TEXT + b"\n", None, 100),
    "all records of a key": looks([], b"+1:a\n\n", pairs(b"1", b"22", b"333"), file=of_a(b"1", b"22", b"333")),
    "records with a number": looks(
        ["-n", "2"], b"+1:a\n+1:a\n\n", pairs(b"22", b"22"), file=of_a(b"1", b"22", b"333")
    ),
    "records with a number too large": looks(
        ["-n", "3"], b"+1:a\n\n", b"\n", None, 100, file=of_a(b"1", b"22")
    ),
    "records of a key with a newline": looks(
        [], b"+2:\n\xff\n\n", b"+2,1:\n\xff->1\n\n", file=file_of([(b"\n\xff", b"1")])
    ),
    "records in words of 8 bytes": case(
        ["-qWi", "x"], b"+3:two\n\n", b"+3,7:two->Goodbye\n\n", files={"x": WIDE_TWO}
    ),
    "records of keys cut behind one": looks(
        [], b"+3:one\n+3:tw", FIRST_TEXT, f"input 1: byte 12: {EARLY}", 111
    ),
    "records of keys without an end": looks([], b"+3:one\n", FIRST_TEXT, f"input 1: byte 7: {EARLY}", 111),
    "records of records": looks([], TWO_TEXT, b"", f"input 1: byte 2: {NO_RECORD}", 111),
    "records of a key without a plus": looks([], b"3:one\n\n", b"", f"input 1: byte 0: {NO_RECORD}", 111),
    "records of a key too long": looks([], b"+4294967296:", b"", f"input 1: byte 10: {LARGE_LENGTH}", 111),
    "records of keys with a fault in the second input": looks(
        ["-", "k"], b"+3:two\n\n", b"+3,7:two->Goodbye\n", f"input 2: byte 1: {NO_RECORD}", 111,
        inputs={"k": b"+x"},
    ),
    "records up to a damage": looks(
        [], b"+3:one\n+3:two\n+3:one\n\n", FIRST_TEXT, not_whole(2065), 111, file=two_with(2086, b"\x11")
    ),
    "records of a cut head": looks([], b"+3:one\n\n", b"", SHORT, 111, file=TWO_FILE[:2047]),
    "records of no such file": case(["-qi", "x"], b"\n", b"", NO_FILE, 111),
    "records of no such input": looks(["k"], b"\n", b"", NO_FILE, 111),
    "records of a folder of keys": looks([], "/", b"", NO_INPUT, 111),
    "records to a full device": looks([], b"+3:one\n\n", "/dev/full", NO_OUTPUT, 111),
    "records to no standard output": looks([], b"+3:one\n\n", CLOSED, NO_OUTPUT, 111),
    "a database of keys without a name": not_understood("-qi"),
    # dump and list
    "a dump of a name": reads(["-d", "x"], TWO_FILE, TWO_TEXT),
    "a dump of a hyphen": case(["-d", "-"], TWO_FILE, TWO_TEXT),
    "a dump as a map": reads(["-dm", "x"], TWO_FILE, b"one Hello\ntwo Goodbye\n"),
    "a dump of standard input as a map": case(["-d", "-m"], TWO_FILE, b"one Hello\ntwo Goodbye\n"),
    "a dump of no record as a map": case(["-dm"], EMPTY_FILE),
    "a dump of no such file": case(["-d", "x"], line=NO_FILE, status=111),
    "a dump of a folder by its name": reads(["-d", "x"], FOLDER, b"", NO_DATABASE, 111),
    "a dump of a damaged name": reads(["-d", "x"], TWO_FILE[:2070], FIRST_TEXT, not_whole(2064), 111),
    "a list": case(["-l"], TWO_FILE, b"+3:one\n+3:two\n\n"),
    "a list of a name": reads(["-l", "x"], TWO_FILE, b"+3:one\n+3:two\n\n"),
    "a list as a map": reads(["-lm", "x"], TWO_FILE, b"one\ntwo\n"),
    "a list of no record": case(["-l"], EMPTY_FILE, b"\n"),
    "a list of no record as a map": case(["-lm"], EMPTY_FILE),
    "a list of no such file": case(["-l", "x"], line=NO_FILE, status=111),
    "a list of a cut head": case(["-l"], TWO_FILE[:2047], b"", SHORT, 111),
    "a list of a cut record": case(["-l"], TWO_FILE[:2070], b"+3:one\n", not_whole(2064), 111),
    "a list of a folder": case(["-l"], "/", b"", NO_DATABASE, 111),
    "a list to a full device": not_written(["-l"], TWO_FILE, "/dev/full"),
    "a list to a pipe that nobody reads": not_written(["-l"], TWO_FILE, UNREAD),
    "a list to no standard output": not_written(["-l"], TWO_FILE, CLOSED),
    # statistics
    "statistics": case(["-s"], TWO_FILE, TWO_STATISTICS),
    "statistics of a hyphen": case(["-s", "-"], TWO_FILE, TWO_STATISTICS),
    "statistics of a name": reads(["-s", "x"], TWO_FILE, TWO_STATISTICS),
    "statistics of four values": reads(["-s", "x"], FOUR_FILE, FOUR_STATISTICS),
    "statistics of no record": reads(["-s", "x"], EMPTY_FILE, NO_STATISTICS),
    "statistics of no such file": case(["-s", "x"], line=NO_FILE, status=111),
    "statistics of a folder": reads(["-s", "x"], FOLDER, b"", NO_DATABASE, 111),
    "statistics of a folder as standard input": case(["-s"], "/", b"", NO_DATABASE, 111),
    "statistics of a cut head": case(["-s"], TWO_FILE[:2047], b"", SHORT, 111),
    "statistics of nothing, with a database as standard input": case(
        ["-s", "/dev/null"], TWO_FILE, b"", SHORT, 111
    ),
    "statistics of a table outside": case(["-s"], two_with(56, words(2114, 1)), b"", outside(7), 111),
    "statistics of a value too long": case(["-s"], two_with(2068, b"\x08"), b"", not_whole(2064), 111),
    "statistics of a name with a table outside": reads(
        ["-s", "x"], two_with(56, words(2114, 1)), b"", outside(7), 111
    ),
    "statistics of a name with a value too long": reads(
        ["-s", "x"], two_with(2068, b"\x08"), b"", not_whole(2064), 111
    ),
    "statistics of a wrong slot": case(["-s"], two_with(2086, b"\x11"), TWO_STATISTICS),
    "statistics to a full device": not_written(["-s"], TWO_FILE, "/dev/full"),
    "statistics to a pipe that nobody reads": not_written(["-s"], TWO_FILE, UNREAD),
    "statistics to no standard output": not_written(["-s"], TWO_FILE, CLOSED),
    # check
    "a check": checks(TWO_FILE),
    "a check of standard input": case(["-k"], TWO_FILE),
    "a check of a hyphen": case(["-k", "-"], TWO_FILE),
    "a check of a large file": checks(LARGE_FILE),
    "a check of no record": checks(EMPTY_FILE),
    "a check of zeros": checks(bytes(2048)),
    "a check of another program's file": checks(FOREIGN_FILE),
    "a check of bytes behind the tables": checks(TWO_FILE + b"12345"),
    "a check of a cut head": checks(TWO_FILE[:2047], SHORT),
    "a check of a large text": checks(b"+" * 5000, outside(0)),
    "a query of a large text": asks(["x", "one"], b"", b"+" * 5000, outside(129), 111),
    "a check of 256 pointers to one table": checks(words(2048, 4) * 256 + bytes(32)),
    "a check of a cut head on standard input": case(["-k"], TWO_FILE[:2047], b"", SHORT, 100),
    "a check of a table outside": checks(two_with(56, words(2114, 1)), outside(7)),
    "a check of a table in the head": checks(two_with(0, words(100, 1)), outside(0)),
    "a check of a cut file": checks(TWO_FILE[:2070], outside(41)),
    "a check of a value too long": checks(two_with(2068, b"\x08"), not_whole(2064)),
    "a check of a wrong slot": checks(two_with(2086, b"\x11"), "table 41: slot 0: wrong"),
    "a check of a slot taken away": checks(two_with(2106, bytes(8)), "record at 2048: in no slot"),
    "a check of two slots of one record": checks(
        FOUR_FILE[:2092] + b"\x14" + FOUR_FILE[2093:], "record at 2068: in two slots"
    ),
    "a check of no such file": case(["-k", "x"], line=NO_FILE, status=111),
    "a check of a folder": reads(["-k", "x"], FOLDER, b"", NO_DATABASE, 111),
    "a check of a folder as standard input": case(["-k"], "/", b"", NO_DATABASE, 111),
    "a check of no standard input": case(["-k"], CLOSED, b"", NO_DATABASE, 111),
    "a check to no standard output": case(["-k"], TWO_FILE, CLOSED),
    # words of 8 bytes
    "a wide database": creates(["-cW", "x"], WIDE_FILE, FIRST_TEXT + b"\n"),
    "a wide database on standard output": case(["-c", "-W", "-"], FIRST_TEXT + b"\n", WIDE_FILE),
    "a wide database of no record": case(["-c", "-W", "-"], b"\n", wide_words(4096, 0) * 256),
    "a wide map": creates(["-cWm", "x"], file_of([(b"a", b"1")], wide_words), b"a 1\n"),
    "a wide database with a warning": creates(
        ["-cWw", "x"], file_of([(b"a", b"1"), (b"a", b"2")], wide_words), pairs(b"1", b"2"), again(2)
    ),
    "a long length in a wide database": case(
        ["-cW", "-"], b"+4294967296,0:", b"", f"input 1: byte 14: {EARLY}", 111
    ),
    "a length above the greatest in a wide database": case(
        ["-cW", "-"], b"+9223372036854775808,0:", b"", f"input 1: byte 19: {LARGE_LENGTH}", 111
    ),
    "a wide value": case(["-qW", "x", "two"], b"", b"Goodbye", files={"x": WIDE_TWO}),
    "a wide query of a record far outside": case(
        ["-qW", "x", "one"], b"", b"", not_whole(12345678901), 111,
        {"x": WIDE_FILE[:-8] + wide_words(12345678901)[:8]},
    ),
    "a wide dump": reads(["-dW", "x"], WIDE_TWO, TWO_TEXT),
    "a wide list": case(["-W", "-l"], WIDE_TWO, b"+3:one\n+3:two\n\n"),
    "wide statistics": case(["-sW"], WIDE_TWO, TWO_STATISTICS),
    "a wide check": checks(WIDE_TWO, wide="W"),
    "a wide check of a cut head": checks(WIDE_TWO[:4095], SHORT, wide="W"),
    "a wide check of a narrow file": checks(TWO_FILE, SHORT, wide="W"),
    "a narrow check of a wide file": checks(WIDE_TWO),
    "a narrow query of a wide file": misses("x", "two", file=WIDE_TWO),
    "a narrow dump of a wide file": reads(["-d", "x"], WIDE_TWO, b"\n"),
    "narrow statistics of a wide file": reads(["-s", "x"], WIDE_TWO, NO_STATISTICS),
    # help, and words that are not understood
    "help": case(["-h"], b"", USAGE),
    "help before all else": case(["-h", "-q", "-d"], b"", USAGE),
    "help with names": case(["x", "-h", "y"], b"", USAGE),
    "help to a full device": not_written(["-h"], b"", "/dev/full"),
    "help to a pipe that nobody reads": not_written(["-h"], b"", UNREAD),
    "help to no standard output": not_written(["-h"], b"", CLOSED),
    "version": case(["-V"], b"", VERSION),
    "version before all else but help": case(["-V", "-q", "-d"], b"", VERSION),
    "version and help": case(["-Vh"], b"", USAGE),
    "version with names": case(["x", "-V", "y"], b"", VERSION),
    "version to a full device": not_written(["-V"], b"", "/dev/full"),
    "version to no standard output": not_written(["-V"], b"", CLOSED),
    "version with another letter": not_understood("-V", "-Z"),
    "no words": not_understood(),
    "an empty word": not_understood(""),
    "a hyphen alone": not_understood("-"),
    "a name alone": not_understood("x"),
    "a width alone": not_understood("-W"),
    "no database": not_understood("-c"),
    "two commands": not_understood("-cd"),
    "two commands apart": not_understood("-q", "-d", "x"),
    "a command twice": case(["-d", "-d"], TWO_FILE, TWO_TEXT),
    "a letter twice": asks(["-qm", "-m", "x", "one"], b"Hello\n"),
    "another letter": not_understood("-Z"),
    "a letter of another program": not_understood("-c", "-p", "644", "x"),
    "a letter that writes zeros": not_understood("-c", "-0", "x"),
    "a letter for all values": not_understood("-q", "-a", "x", "one"),
    "a long word": not_understood("--dump"),
    "a long word for help": not_understood("--help"),
    "a word that is no text": not_understood(b"\xff\xfe"),
    "a query of one name": not_understood("-q", "x"),
    "a query of three names": not_understood("-q", "x", "y", "z"),
    "a dump of two names": not_understood("-d", "x", "y"),
    "a list of two names": not_understood("-l", "x", "y"),
    "statistics of two names": not_understood("-s", "x", "y"),
    "a check of two names": not_understood("-k", "x", "y"),
    "replaced and left out": not_understood("-cru", "x"),
    "statistics as a map": not_understood("-sm"),
    "a check as a map": not_understood("-km"),
    "a number for a dump": not_understood("-d", "-n", "1"),
    "a number for a create": not_understood("-c", "-n", "1", "x"),
    "a temporary file for a query": not_understood("-q", "-t", "y", "x", "one"),
    "a mode for a query": not_understood("-qw", "x", "one"),
    "a mode for a dump": not_understood("-dr"),
    "a mode for a list": not_understood("-lu"),
    "a mode for statistics": not_understood("-se"),
    "a number of nothing": not_understood("-q", "-n", "0", "x", "one"),
    "a number that is too large": not_understood("-q", "-n", "4294967296", "x", "one"),
    "a number with a sign": not_understood("-q", "-n", "+1", "x", "one"),
    "a number that is empty": not_understood("-q", "-n", "", "x", "one"),
    "a number twice": not_understood("-q", "-n", "1", "-n", "2", "x", "one"),
    "a number that is missing": not_understood("-q", "x", "one", "-n"),
    # create: a base that is amended
    "a key removed": amends(["x", "in"], file_of([(b"two", b"Goodbye")]), b"-3:one\n\n"),
    "nothing changed": amends(["x", "in"], TWO_FILE, b"\n"),
    "an absent key removed": amends(["x", "in"], TWO_FILE, b"-3:zzz\n\n"),
    "a removal that is cut": unamended(b"-3:on", "input 1: byte 5: " + EARLY),
    "a base that is cut": case(
        ["-c", "-b", "base", "x"], b"\n", b"", not_whole(2064), 111,
        {"x": ONE_FILE, "base": TWO_FILE[:2070]},
    ),
    # Of a base the records alone are read.
    "a base that is cut after its records": case(
        ["-c", "-b", "base", "x"], b"-3:two\n\n", b"", None, 0,
        {"x": TWO_FILE, "base": TWO_FILE[:2082]}, {"x": ONE_FILE, "base": TWO_FILE[:2082]},
    ),
    "a removal after records": case(
        ["-c", "-b", "base", "x"],
        b"+1,1:a->1\n+3,5:one->Hello\n+3,7:two->Goodbye\n+1,1:a->2\n-1:a\n\n",
        files={"base": EMPTY_FILE}, left={"base": EMPTY_FILE, "x": TWO_FILE},
    ),
    "a record of the base met again, which ends a run": unamended(
        b"+3,1:one->X\n\n", [again(1), STOPPED], ["-e"]
    ),
    "a record put again after its removal": amends(
        ["-w", "x", "in"], file_of([(b"two", b"Goodbye"), (b"one", b"Again")]),
        b"-3:one\n+3,5:one->Again\n\n",
    ),
    "a removal counts as a record": amends(
        ["-w", "x", "in"], file_of([(b"one", b"Hello"), (b"two", b"Goodbye"), (b"one", b"X")]),
        b"-3:zzz\n+3,1:one->X\n\n", again(2),
    ),
    "a key to remove that is too long": unamended(b"-4294967296:", f"input 1: byte 10: {LARGE_LENGTH}"),
    "a key to remove that goes on": unamended(b"-3:onex", f"input 1: byte 6: {NO_RECORD}"),
    "a removal with a value": unamended(b"-3,", f"input 1: byte 2: {NO_RECORD}"),
    "a removal with no base": refused(b"-3:one\n\n", 0, NO_RECORD),
    "a removal with no base, by name": keeps(["-c", "x"], f"input 1: byte 0: {NO_RECORD}", b"-3:one\n\n"),
    "a base that is the database": case(
        ["-c", "-b", "x", "x"], b"-3:two\n\n", files={"x": TWO_FILE}, left={"x": ONE_FILE}
    ),
    "a base that is the database, and a fault": keeps(
        ["-c", "-b", "x", "x"], f"input 1: byte 7: {NO_RECORD}", b"-3:two\n*"
    ),
    "a base that is the database behind a link": case(
        ["-c", "-b", "base", "x"], b"-3:two\n\n", files={"x": TWO_FILE, "base": Link("x")},
        left={"x": ONE_FILE, "base": Link("x")},
    ),
    "a wide base": case(
        ["-cW", "-b", "base", "x"], b"-3:one\n\n", files={"base": WIDE_FILE},
        left={"base": WIDE_FILE, "x": wide_words(4096, 0) * 256},
    ),
    "a base whose records replace none": case(
        ["-cr", "-b", "base", "x"], b"\n", files={"base": FOUR_FILE}, left={"base": FOUR_FILE, "x": FOUR_FILE}
    ),
    "a base and map texts": amends(["-m", "x", "in"], file_of([(b"one", b"Hello"), (b"two", b"Goodbye"), (b"-3:one", b"")]), b"-3:one\n"),
    "a base, on standard output": case(
        ["-c", "-b", "base", "-"], b"-3:two\n\n", ONE_FILE, files={"base": TWO_FILE}
    ),
    "a base of the default name, on standard output": case(
        ["-c", "-b-.tmp", "-"], b"\n", TWO_FILE, files={"-.tmp": TWO_FILE}
    ),
    "a base that is missing": keeps(["-c", "-b", "base", "x", "no"], NO_FILE),
    "a base that is a hyphen is a file": keeps(["-c", "-b", "-", "x"], NO_FILE, TWO_FILE),
    "a base that is a pipe": keeps(["-c", "-b", "base", "x"], NO_FILE, b"\n", {"base": PIPE}),
    "a base that is a folder": keeps(["-c", "-b", "base", "x"], NO_DATABASE, b"\n", {"base": FOLDER}),
    "a base that is no database": keeps(["-c", "-b", "base", "x"], SHORT, b"\n", {"base": TWO_TEXT}),
    "a damaged base comes before an input": keeps(
        ["-c", "-b", "base", "x"], not_whole(2048), b"*", {"base": b"\xff" * 2048}
    ),
    # Its head alone refuses it, before anything is made.
    "a wide base without its letter": keeps(["-c", "-b", "base", "x"], NO_BASE_TABLES, b"\n", {"base": WIDE_TWO}),
    "a wide base that is the database": keeps(["-c", "-b", "x", "x"], NO_BASE_TABLES, b"-3:two\n\n", {"x": WIDE_TWO}),
    "a wide base that is the database behind a link": keeps(
        ["-cr", "-b", "base", "x"], NO_BASE_TABLES, b"\n", {"x": WIDE_TWO, "base": Link("x")}
    ),
    "an empty wide base": keeps(["-c", "-b", "base", "x"], NO_BASE_TABLES, b"\n", {"base": WIDE_EMPTY}),
    "a wide base, on standard output": keeps(["-c", "-b", "base", "-"], NO_BASE_TABLES, b"\n", {"base": WIDE_TWO}),
    "a wide base, in place": keeps(["-c", "-t", "x", "-b", "base", "x"], NO_BASE_TABLES, b"\n", {"base": WIDE_TWO}),
    "a wide base, of a new database": case(
        ["-c", "-b", "base", "y"], b"\n", b"", NO_BASE_TABLES, 111, {"base": WIDE_TWO}, {"base": WIDE_TWO}
    ),
    "a wide base beside an old temporary file": keeps(
        ["-c", "-b", "base", "x"], NO_BASE_TABLES, b"\n", {"base": WIDE_TWO, "x.tmp": b"old"}
    ),
    "a wide base that is the temporary file": keeps(
        ["-c", "-b", "./x.tmp", "x"], NO_BASE_TABLES, b"\n", {"x.tmp": WIDE_TWO}
    ),
    "a wide base before a bad text": keeps(["-c", "-b", "base", "x"], NO_BASE_TABLES, b"*", {"base": WIDE_TWO}),
    "a wide base before an input that is missing": keeps(
        ["-c", "-b", "base", "x", "no"], NO_BASE_TABLES, files={"base": WIDE_TWO}
    ),
    "a base whose head one byte follows": keeps(
        ["-c", "-b", "base", "x"], NO_BASE_TABLES, b"\n", {"base": EMPTY_FILE + b"\0"}
    ),
    "a wide base whose head one byte follows": keeps(
        ["-cW", "-b", "base", "x"], NO_BASE_TABLES, b"\n", {"base": WIDE_EMPTY + b"\0"}
    ),
    "a narrow base of a wide create": keeps(["-cW", "-b", "base", "x"], SHORT, b"\n", {"base": TWO_FILE}),
    "a narrow base that shows a wide create no slots": keeps(
        ["-cW", "-b", "base", "x"], NO_BASE_TABLES, b"\n", {"base": ZEROS_FILE}
    ),
    "a base of zeros": amends(["x", "in"], file_of([ZEROS]), b"\n", base=ZEROS_FILE),
    "a base that is cut in its head": keeps(["-c", "-b", "base", "x"], SHORT, b"\n", {"base": TWO_FILE[:2047]}),
    "a base that is cut in its head, in place": keeps(
        ["-c", "-t", "x", "-b", "base", "x"], SHORT, b"\n", {"base": TWO_FILE[:2047]}
    ),
    "an empty base": amends(["x", "in"], ONE_FILE, FIRST_TEXT + b"\n", base=EMPTY_FILE),
    "an empty wide base of a wide create": amends(["-W", "x", "in"], WIDE_FILE, FIRST_TEXT + b"\n", base=WIDE_EMPTY),
    "a base with tables of one slot": amends(["x", "in"], of_a(b"1"), b"\n", base=FOREIGN_FILE),
    "a base that is the temporary file, spelled otherwise": keeps(
        ["-c", "-b", "./x.tmp", "x"], NO_FILE, b"\n", {"x.tmp": TWO_FILE}
    ),
    "in place, the base": case(
        ["-c", "-t", "x", "-b", "./x", "x"], b"\n", b"", NO_FILE, 111, {"x": TWO_FILE}
    ),
    "in place, another base": case(
        ["-c", "-t", "x", "-b", "base", "x"], b"-3:two\n\n", files={"x": LARGE_FILE, "base": TWO_FILE},
        left={"x": ONE_FILE, "base": TWO_FILE},
    ),
    "a base in place": not_understood("-c", "-b", "x", "-t", "-", "y"),
    "a base that is the default temporary file": not_understood("-c", "-b", "x.tmp", "x"),
    "a base that is the temporary file": not_understood("-c", "-b", "x", "-t", "x", "y"),
    "a base for a dump": not_understood("-d", "-b", "x"),
    "a base and no database": not_understood("-c", "-b", "x"),
    # what changed between two databases
    "a key with another value": compares(
        TWO_FILE, file_of([(b"one", b"Hi"), (b"two", b"Goodbye")]), b"-3:one\n+3,2:one->Hi\n\n"
    ),
    "all keys are new": compares(EMPTY_FILE, TWO_FILE, new_of([(b"one", b"Hello"), (b"two", b"Goodbye")])),
    "all keys are gone": compares(TWO_FILE, EMPTY_FILE, b"-3:one\n-3:two\n\n"),
    "an empty key is gone": compares(BARE_FILE, EMPTY_FILE, b"-0:\n\n"),
    "removals before records": compares(
        file_of([(b"a", b"1"), (b"b", b"2"), (b"c", b"3"), (b"a", b"4")]),
        file_of([(b"d", b"5"), (b"b", b"2"), (b"a", b"4"), (b"a", b"1")]),
        b"-1:a\n-1:c\n-1:d\n+1,1:d->5\n+1,1:a->4\n+1,1:a->1\n\n",
    ),
    "one value less": compares(of_a(b"1", b"2"), of_a(b"1"), b"-1:a\n+1,1:a->1\n\n"),
    "one value more": compares(of_a(b"1"), of_a(b"1", b"1"), b"-1:a\n+1,1:a->1\n+1,1:a->1\n\n"),
    "a longer value": compares(of_a(b"1"), of_a(b"12"), b"-1:a\n+1,2:a->12\n\n"),
    "an empty value": compares(of_a(b"1"), of_a(b""), b"-1:a\n+1,0:a->\n\n"),
    "no difference": compares(TWO_FILE, TWO_FILE, b"\n"),
    "no difference of no records": compares(EMPTY_FILE, EMPTY_FILE, b"\n"),
    "no difference of many records": compares(LARGE_FILE, LARGE_FILE, b"\n"),
    "no difference of two orders of keys": compares(
        file_of([(b"a", b"1"), (b"b", b"2"), (b"a", b"3")]),
        file_of([(b"b", b"2"), (b"a", b"1"), (b"a", b"3")]), b"\n",
    ),
    "no difference of another program's file": compares(FOREIGN_FILE, of_a(b"1"), b"\n"),
    "a difference of any bytes": compares(EMPTY_FILE, ODD_FILE, new_of(ODD)),
    "a database is compared with itself": reads(["-D", "x", "x"], TWO_FILE, b"\n"),
    "a database is compared with a link to it": case(
        ["-D", "x", "y"], b"", b"\n", files={"x": TWO_FILE, "y": Link("x")}
    ),
    "a database named by a hyphen is compared": case(
        ["-D", "-", "x"], b"", b"-3:two\n\n", files={"-": TWO_FILE, "x": ONE_FILE}
    ),
    "a wide difference": compares(WIDE_TWO, WIDE_FILE, b"-3:two\n\n", given=("-DW",)),
    "a wide difference of narrow files": compares(TWO_FILE, ONE_FILE, b"", of_old(SHORT), ("-D", "-W")),
    "a narrow difference of wide files": compares(WIDE_TWO, WIDE_FILE, b"", of_old(NO_TABLES)),
    "a wide file compared with a narrow one": compares(WIDE_TWO, TWO_FILE, b"", of_old(NO_TABLES)),
    "a narrow file compared with a wide one": compares(TWO_FILE, WIDE_TWO, b"", of_new(NO_TABLES)),
    "a narrow file compared with an empty wide one": compares(TWO_FILE, WIDE_EMPTY, b"", of_new(NO_TABLES)),
    "an empty wide file compared with a narrow one": compares(WIDE_EMPTY, TWO_FILE, b"", of_old(NO_TABLES)),
    "an empty file compared with an empty wide one": compares(EMPTY_FILE, WIDE_EMPTY, b"", of_new(NO_TABLES)),
    "one byte follows the head of the new one": compares(EMPTY_FILE, EMPTY_FILE + b"\0", b"", of_new(NO_TABLES)),
    "one byte follows the head of the old one": compares(EMPTY_FILE + b"\0", EMPTY_FILE, b"", of_old(NO_TABLES)),
    # Both heads are read before the tables of either are looked for, and these before one is found outside; those of
    # the old one first.
    "an old one without tables beside a cut head": compares(WIDE_TWO, TWO_FILE[:2047], b"", of_new(SHORT)),
    "an old one without tables beside a cut one": compares(WIDE_TWO, TWO_FILE[:2070], b"", of_old(NO_TABLES)),
    "a new one without tables beside a cut one": compares(TWO_FILE[:2070], WIDE_TWO, b"", of_new(NO_TABLES)),
    "an old one that is cut beside a cut head": compares(TWO_FILE[:2070], TWO_FILE[:2047], b"", of_new(SHORT)),
    "a cut head beside one that is cut": compares(TWO_FILE[:2047], TWO_FILE[:2070], b"", of_old(SHORT)),
    "both are cut": compares(TWO_FILE[:-1], TWO_FILE[:2070], b"", of_old(outside(129))),
    "one that is cut beside a damage of a record": compares(two_with(2068, b"\x08"), TWO_FILE[:-1], b"", of_new(outside(129))),
    "a wide difference of a narrow file and a wide one": compares(
        TWO_FILE, WIDE_TWO, b"", of_old(SHORT), ("-D", "-W")
    ),
    "a wide difference of a wide file and a narrow one": compares(
        WIDE_TWO, TWO_FILE, b"", of_new(SHORT), ("-D", "-W")
    ),
    "a wide difference from an empty file": compares(
        WIDE_EMPTY, WIDE_FILE, b"-3:one\n+3,5:one->Hello\n\n", given=("-D", "-W")
    ),
    "a wide difference to an empty file": compares(WIDE_FILE, WIDE_EMPTY, b"-3:one\n\n", given=("-D", "-W")),
    "a wide difference of an empty narrow file": compares(EMPTY_FILE, WIDE_FILE, b"", of_old(SHORT), ("-D", "-W")),
    "a wide difference to an empty narrow file": compares(WIDE_FILE, EMPTY_FILE, b"", of_new(SHORT), ("-D", "-W")),
    # Each new value of a key is put in turn, so an option that looks for keys keeps one of them or stops.
    "a difference that is done": case(
        ["-c", "-b", "x", "y"], OF_A_TEXT, files={"x": of_a(b"0")}, left={"x": of_a(b"0"), "y": of_a(b"1", b"2")}
    ),
    "a difference that is done with -r": case(
        ["-c", "-r", "-b", "x", "y"], OF_A_TEXT, files={"x": of_a(b"0")}, left={"x": of_a(b"0"), "y": of_a(b"2")}
    ),
    "a difference that is done with -u": case(
        ["-c", "-u", "-b", "x", "y"], OF_A_TEXT, files={"x": of_a(b"0")}, left={"x": of_a(b"0"), "y": of_a(b"1")}
    ),
    "a difference that is done with -e": case(
        ["-c", "-e", "-b", "x", "y"], OF_A_TEXT, b"", [again(3), STOPPED], 111, {"x": of_a(b"0")}, {"x": of_a(b"0")}
    ),
    "no old database": case(["-D", "x", "y"], line=NO_FILE, status=111, files={"y": TWO_FILE}),
    "no new database": case(["-D", "x", "y"], line=NO_FILE, status=111, files={"x": TWO_FILE}),
    "an old database on standard input": case(["-D", "-", "y"], TWO_FILE, b"", NO_FILE, 111, {"y": TWO_FILE}),
    "an old database that is a pipe": compares(PIPE, TWO_FILE, b"", NO_FILE),
    "a new database that is a pipe": compares(TWO_FILE, PIPE, b"", NO_FILE),
    "an old database that is a folder": compares(FOLDER, TWO_FILE, b"", of_old(NO_DATABASE)),
    "a new database that is a folder": compares(TWO_FILE, FOLDER, b"", of_new(NO_DATABASE)),
    "an old database that is a text": compares(TWO_TEXT, TWO_FILE, b"", of_old(SHORT)),
    "an old database with a cut head": compares(TWO_FILE[:2047], TWO_FILE, b"", of_old(SHORT)),
    "a new database with a cut head": compares(TWO_FILE, TWO_FILE[:2047], b"", of_new(SHORT)),
    "both have a cut head": compares(b"", b"", b"", of_old(SHORT)),
    # Every table lies inside both files, or nothing is written. The tables are 41, of 2082 to 2098, and 129, to the end.
    "an old database that is cut within a record": compares(TWO_FILE[:2070], TWO_FILE, b"", of_old(outside(41))),
    "a new database that is cut within a record": compares(TWO_FILE, TWO_FILE[:2070], b"", of_new(outside(41))),
    "an old database that is cut after its head": compares(TWO_FILE[:2048], EMPTY_FILE, b"", of_old(outside(41))),
    "a new database that is cut after its records": compares(EMPTY_FILE, TWO_FILE[:2082], b"", of_new(outside(41))),
    "an old database that is cut after its first table": compares(TWO_FILE[:2098], TWO_FILE, b"", of_old(outside(129))),
    "an old database that lacks a byte": compares(TWO_FILE[:-1], TWO_FILE, b"", of_old(outside(129))),
    "a new database that lacks a byte": compares(TWO_FILE, TWO_FILE[:-1], b"", of_new(outside(129))),
    "a database that lacks a byte is compared with itself": reads(["-D", "x", "x"], TWO_FILE[:-1], b"", of_old(outside(129)), 111),
    "databases with a byte more": compares(TWO_FILE + b"\0", TWO_FILE + b"\0", b"\n"),
    "an old wide database that lacks a byte": compares(WIDE_TWO[:-1], WIDE_TWO, b"", of_old(outside(129)), ("-DW",)),
    "a new wide database that lacks a byte": compares(WIDE_TWO, WIDE_TWO[:-1], b"", of_new(outside(129)), ("-DW",)),
    "a wide database that is cut after its head": compares(WIDE_TWO, WIDE_TWO[:4096], b"", of_new(outside(41)), ("-DW",)),
    "no difference of wide databases": compares(WIDE_TWO, WIDE_TWO, b"\n", given=("-DW",)),
    # Both files are walked to their ends before anything is written.
    "a damage after a removed key": compares(
        two_with(2068, b"\x08"), EMPTY_FILE, b"", of_old(not_whole(2064))
    ),
    "a damage after a new key": compares(
        EMPTY_FILE, two_with(2068, b"\x08"), b"", of_new(not_whole(2064))
    ),
    # A key is looked up only if its values may differ.
    "a wrong slot of a new key": compares(
        ONE_FILE, two_with(2086, b"\x11"), b"", of_new(not_whole(2065))
    ),
    "a wrong slot of a key that stays": compares(TWO_FILE, two_with(2086, b"\x11"), b"\n"),
    "an old database with a table in the head": compares(
        two_with(0, words(100, 1)), TWO_FILE, b"", of_old(outside(0))
    ),
    "a difference to a full device": compares(TWO_FILE, EMPTY_FILE, "/dev/full", NO_OUTPUT),
    "no difference to a full device": compares(TWO_FILE, TWO_FILE, "/dev/full", NO_OUTPUT),
    "a large difference to a full device": compares(EMPTY_FILE, LARGE_FILE, "/dev/full", NO_OUTPUT),
    "a long removal to a full device": compares(file_of([(b"k" * 100_000, b"v")]), EMPTY_FILE, "/dev/full", NO_OUTPUT),
    "a difference to a pipe that nobody reads": compares(TWO_FILE, EMPTY_FILE, UNREAD, NO_OUTPUT),
    "a large difference to a pipe that nobody reads": compares(EMPTY_FILE, LARGE_FILE, UNREAD, NO_OUTPUT),
    "a difference to no standard output": compares(TWO_FILE, EMPTY_FILE, CLOSED, NO_OUTPUT),
    "a damage and a full device": compares(
        two_with(2068, b"\x08"), EMPTY_FILE, "/dev/full", of_old(not_whole(2064))
    ),
    "a difference of no names": not_understood("-D"),
    "a difference of one name": not_understood("-D", "x"),
    "a difference of three names": not_understood("-D", "x", "y", "z"),
    "a difference as a map": not_understood("-Dm", "x", "y"),
    "a difference that is made": not_understood("-Dc", "x", "y"),
    # commands on a database that is a pipe
    "a query of a pipe": case(["-q", "x", "one"], line=NO_FILE, status=111, files={"x": PIPE}),
    "a check of standard input by its name": case(["-k", "/dev/stdin"], TWO_FILE),
    "statistics of standard input by its name": case(
        ["-s", "/dev/stdin"], EMPTY_FILE, NO_STATISTICS
    ),
    # lengths of 3 GiB that nothing follows, in little memory
    "a long key": told(CREATE, b"+3221225472,1:", f"input 1: byte 14: {EARLY}"),
    "a long value": told(CREATE, b"+1,3221225472:a->b", f"input 1: byte 18: {EARLY}"),
    "a long key to remove": told(
        ["-c", "-b", "x", "y"], b"-3221225472:a", f"input 1: byte 13: {EARLY}", {"x": EMPTY_FILE}
    ),
    "a dump of a long key": told(DUMP, long_record(3221225472, 1), not_whole(2048)),
    "a dump of a long value": told(DUMP, long_record(1, 3221225472), not_whole(2048)),
    "a list of a long value": told(["-l"], long_record(1, 3221225472), not_whole(2048)),
    "a base with a long value": told(
        ["-c", "-b", "x", "y"], b"\n", not_whole(2048), {"x": long_record(1, 3221225472)}
    ),
}
