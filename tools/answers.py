"""Stored answers of goals, and what an edit takes away of what they name.

A stored answer proves a goal by the names of the right body: the calls in it, and what they were given. If an edit takes a
call away, makes it once more, or gives it something else, the checker refuses an answer that names that, also if the new
body meets the contract. Such an answer shows nothing of the body.
"""

import os
import re

from trees import read

CALL = re.compile(r"(\.?)\b([a-z_]\w*)(?:::<[^()]*?>)?\(")
# What looks like a call, and is none.
WORDS = {"if", "while", "match", "return", "in", "for", "fn", "let", "move"}
PATH = re.compile(r"\b[a-z_]\w*(?:\.\w+)*\b(?!\s*[(!:])")
LITERAL = re.compile(r"b?\"[^\"]*\"|b?'[^']*'")
# What an argument has that names nothing, and what in an answer says when a value was.
NAMELESS = {"self", "mut", "true", "false", "as", "u8", "u32", "u64", "usize"}
STATES = {"old", "new", "now", "result"}
# What stands before the receiver of a method.
RECEIVER = re.compile(r"[\w.]+$")
CLOSES = {"(": ")", "[": "]", "{": "}"}


def arguments_at(code, at):
    """The texts of a call's arguments, of which the first begins at a place."""
    found, depth, begin = [], 0, at
    for place in range(at, len(code)):
        if code[place] in CLOSES:
            depth += 1
        elif code[place] in CLOSES.values():
            if depth == 0:
                return [*found, code[begin:place].strip()]
            depth -= 1
        elif code[place] == "," and depth == 0:
            found.append(code[begin:place].strip())
            begin = place + 1
    return [*found, code[begin:].strip()]


def calls_in(code):
    """The calls in a piece of code: the name of each, and the texts of what it is given, a receiver first."""
    found = []
    for it in CALL.finditer(code):
        if it[2] not in WORDS:
            receiver = RECEIVER.search(code, 0, it.start()) if it[1] else None
            given = [receiver[0]] if receiver else []
            found.append((it[2], (*given, *filter(None, arguments_at(code, it.end())))))
    return found


def paths_in(text):
    """The names in the text of an argument, each with its fields, but without the variable that has them."""
    for path in PATH.findall(LITERAL.sub("", text)):
        head, _, fields = path.partition(".")
        if (fields or head) not in NAMELESS:
            yield f".{fields}" if fields else head


def taken_from(old, new):
    """What an edit takes away that a stored answer can name: of a call that is made less or more often its name, since the
    name is of another of them then; else what it is not given any more."""
    before, after = calls_in(old), calls_in(new)
    taken = set()
    for name in {name for name, _ in [*before, *after]}:
        was, now = ([given for it, given in calls if it == name] for calls in (before, after))
        if len(was) != len(now):
            taken.add(name)
        for one, other in zip(was, now):
            for text in set(one) - set(other):
                taken |= set(paths_in(text))
    return taken


def taken_by(edit):
    """What an edit takes away that a stored answer can name."""
    return taken_from("\n".join(old for _, old, _ in edit.pairs), "\n".join(new for _, _, new in edit.pairs))


def answer_of(folder, function, goal):
    """The stored answer of a goal of a function, with its path below the folder `proofs` of a crate; empty if there is none."""
    try:
        text = read(folder, "proofs", function, "Answers.antt")
    except OSError:
        return ""
    begins = re.compile(rf"^(?:pub )?{re.escape(goal)} ", re.MULTILINE)
    return "\n".join(it for it in re.split(r"\n\s*\n", text) if begins.search(it)).replace(goal, "")


def parts_of(word):
    """The names in a word of an answer: not those of clauses, nor those that say whether a value is the old or the new one."""
    before = ""
    for part in word.split("."):
        if before not in ("ensures", "requires") and (before == "args" or part not in STATES):
            yield from part.split("-")
        before = part


def named_in(answer, taken):
    """What a stored answer names of what was taken away, the first by name, or None."""
    words = re.findall(r"[A-Za-z_][\w.-]*", answer)
    parts = {part for word in words for part in parts_of(word)}
    found = {it for it in taken if (any(f"{it}." in f"{word}." for word in words) if it.startswith(".") else it in parts)}
    return min(found, default=None)
