"""Which public items nothing calls but tests."""

import collections
import re

from sources import crates, sources_of, text_of

# These are there for callers of the libraries, of which the program is none.
FOR_CALLERS = {
    "cdb_tool::make_run": "the program's inputs share one window: it calls make_run_from",
    "cdb_show::dump_run": "the program gets its reader back: it calls text_run",
    "cdb_show::list_run": "as dump_run",
    "cdb_command::plan": "the program explains bad words: it calls plan_explained",
    "cdb_make::is_broken": "a fault of a call says it to the program, which makes no other call then",
}
ITEM = re.compile(
    r"^( *)pub (?:const |unsafe |extern \"C\" )*(fn|struct|enum|trait|const) (\w+)", re.M
)


def code_of(text):
    """A source without its comments, its proof-only lines and its imports."""
    text = re.sub(r"//.*", "", text)
    text = re.sub(r"^ *ghost .*", "", text, flags=re.M)
    return re.sub(r"^ *(?:pub )?use [^;]*;", "", text, flags=re.M)


def callers():
    """How often each word is in the code of all crates but those of tests, without declarations."""
    counts = collections.Counter()
    for crate in crates():
        if not crate.endswith("_tests"):
            for path in sources_of(crate):
                code = code_of(text_of(path))
                counts.update(re.findall(r"\w+", ITEM.sub("", code)))
    return counts


def items_of(crate):
    """The public items of a crate that its sources could call: no laws, no examples, nor what is called from C."""
    for path in sources_of(crate):
        if path.endswith("/laws.rt") or "/examples/" in path:
            continue
        text = text_of(path)
        for found in ITEM.finditer(text):
            before = text[: found.start()].rstrip("\n").split("\n")[-1]
            if "no_mangle" not in before:
                yield found[3]


def wrong_items():
    """The public items that nothing calls but tests, and those that are listed without need."""
    counts, uncalled = callers(), set()
    for crate in crates():
        if crate.endswith("_tests"):
            continue
        uncalled |= {f"{crate}::{name}" for name in items_of(crate) if not counts[name]}
    for item in sorted(uncalled - set(FOR_CALLERS)):
        yield f"crates/{item.split('::')[0]}: nothing but tests calls {item}"
    for item in sorted(set(FOR_CALLERS) - uncalled):
        yield f"tests/docs/public_items.py: {item} is called, or is gone"
