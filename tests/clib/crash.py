"""What a loss of power leaves of a file: all that was flushed, and of what came later any part."""

import random

from choices import choices
from model import HEAD, values, walk

SECTOR = 512


def noted_calls(notes):
    """The calls that refuse.c noted: a word, a place, and the bytes that were written."""
    calls, at = [], 0
    while at < len(notes):
        line, at = notes[at:notes.index(b"\n", at)], notes.index(b"\n", at) + 1
        word, place, size = line.split()
        calls.append((word.decode(), int(place), notes[at:at + int(size)]))
        at += int(size)
    return calls


def pieces_of(call, size):
    """The parts of a call that reach the disk whole or not at all, in a file that has so many bytes
    there: the sectors of a head that is overwritten, else all of it."""
    word, place, data = call
    if word != "write" or place + len(data) > min(size, HEAD):
        return [call]
    return [(word, place + n, data[n:n + SECTOR]) for n in range(0, len(data), SECTOR)]


def after(file, calls):
    """A file after some calls."""
    file = bytearray(file)
    for word, place, data in calls:
        if word == "cut":
            file = file[:place] + bytes(max(0, place - len(file)))
        elif word == "write":
            file += bytes(max(0, place - len(file)))
            file[place:place + len(data)] = data
    return bytes(file)


def states(old, calls):
    """Each moment of some calls, as how many were made, with files that it may leave."""
    chance = random.Random(7)
    flushed, pending = old, []
    for made, call in enumerate(calls, 1):
        if call[0] == "sync":
            flushed, pending = after(flushed, pending), []
        else:
            pending += pieces_of(call, len(flushed))
        for chosen in choices(pending, chance):
            yield made, after(flushed, chosen)


def read_as(file, wanted, keys):
    """Whether all that is read of a file without a damage is what another one holds."""
    if len(file) < HEAD:
        return True
    records, damaged = walk(file)
    answers = [values(file, key) for key in keys]
    if len(wanted) < HEAD:
        return damaged and all(damaged for _, damaged in answers)
    if not damaged and records != walk(wanted)[0]:
        return False
    wanted_values = [values(wanted, key)[0] for key in keys]
    return all(damaged or found == it for (found, damaged), it in zip(answers, wanted_values))


def wrong_state(old, new, calls, keys):
    """The first moment at which a loss of power leaves a file that is read as neither the old nor the
    new one, or after all calls anything but the new one. None if there is no such moment."""
    for made, file in states(old, calls):
        if made == len(calls) and file != new:
            return f"after the last of {made} calls the file may be lost"
        if not read_as(file, old, keys) and not read_as(file, new, keys):
            return f"after {made} of {len(calls)} calls a wrong database may be there"
    return None
