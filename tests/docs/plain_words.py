"""Words of the pages that point to something else or hide who acts: few in a thousand words of each page.

    tests/docs/plain_words.py [PAGE ..]     prints each with what is around it
"""

import glob
import re
import sys

from sources import TOP, text_of

PAGES = ("*.md", "docs/**/*.md", "crates/*/*.md", "tests/*.md", "man/cdb.*")
# How many a page may have in a thousand words.
MOST = 4
POINTING = re.compile(
    r"\b(comes? to|(?:is|are) (?:told|said|given|taken)|is had|is none|to be|as it was|as they (?:are|were)|of which|whose"
    r"|in the place of|behind|by way of|such a|what is|of (?:it|them|these)|(?:that|those|these) of|the one that)\b"
)


def prose_of(page, text):
    """The words of a page without its code, the places of its links and the macros of a manual page."""
    if page.startswith("man/"):
        text = re.sub(r"^\.Bd.*?^\.Ed", "", text, flags=re.DOTALL | re.MULTILINE)
        text = re.sub(r"^\.\w+", "", text, flags=re.MULTILINE)
    text = re.sub(r"```.*?```|<!--.*?-->", "", text, flags=re.DOTALL)
    return re.sub(r"\s+", " ", re.sub(r"\]\([^)]*\)", "]", text))


def pages():
    """The pages, with their prose."""
    for path in sorted({it for pattern in PAGES for it in glob.glob(pattern, root_dir=TOP, recursive=True)}):
        yield path, prose_of(path, text_of(path))


def wrong_words():
    """The pages with too many of these words."""
    for page, prose in pages():
        found, most = len(POINTING.findall(prose)), MOST * len(prose.split()) // 1000
        if found > max(most, 1):
            yield f"{page}: {found} words point or hide who acts, and at most {most} may: tests/docs/plain_words.py shows them"


def main(words):
    for page, prose in pages():
        if not words[1:] or page in words[1:]:
            for it in POINTING.finditer(prose):
                print(f"{page}: {prose[max(0, it.start() - 50) : it.end() + 40]}")


if __name__ == "__main__":
    main(sys.argv)
