"""What a look-up and a walk of any bytes give, in the plainest way."""

import struct

HEAD = 2048
FOUND, ABSENT, DAMAGED = 0, 100, 111


def pair_at(file, place):
    """The two words at a place."""
    return struct.unpack_from("<2I", file, place)


def hash_of(key):
    """The hash of a key."""
    number = 5381
    for byte in key:
        number = (33 * number % 2**32) ^ byte
    return number


def record_at(file, place, end):
    """The key, the value and the end of the record at a place, if it is whole before an end."""
    if place + 8 > end:
        return None
    klen, vlen = pair_at(file, place)
    value = place + 8 + klen
    if value + vlen > end:
        return None
    return file[place + 8:value], file[value:value + vlen], value + vlen


def walk(file):
    """The records, and whether a damage follows."""
    pointers = [pair_at(file, 8 * n) for n in range(256)]
    end = min((place for place, slots in pointers if slots), default=HEAD)
    records, place = [], HEAD
    while place < end:
        record = record_at(file, place, min(end, len(file)))
        if record is None:
            return records, True
        records.append(record[:2])
        place = record[2]
    return records, end < HEAD


def values(file, key):
    """The values of a key, and whether a damage follows."""
    wanted = hash_of(key)
    table, slots = pair_at(file, 8 * (wanted % 256))
    if slots and (table < HEAD or table + 8 * slots > len(file)):
        return [], True
    found = []
    for n in range(slots):
        slot = (wanted // 256 + n) % slots
        number, place = pair_at(file, table + 8 * slot)
        if place == 0:
            break
        if number != wanted:
            continue
        record = record_at(file, place, len(file)) if place >= HEAD else None
        if record is None:
            return found, True
        if record[0] == key:
            found.append(record[1])
    return found, False


def text_of(records, damaged):
    """The native text of a walk."""
    lines = [b"+%d,%d:%s->%s\n" % (len(key), len(value), key, value) for key, value in records]
    return b"".join(lines) + (b"" if damaged else b"\n")


def answers(file, keys):
    """The answers that the driver is to print: a status and bytes each."""
    if len(file) < HEAD:
        return [(DAMAGED, b"")]
    records, damaged = walk(file)
    said = [(FOUND, b""), (DAMAGED if damaged else FOUND, text_of(records, damaged))]
    for key in keys:
        found, damaged = values(file, key)
        said.append((DAMAGED if damaged else FOUND if found else ABSENT, b"".join(found)))
        first = (FOUND, found[0]) if found else (DAMAGED if damaged else ABSENT, b"")
        said += [first, first, (FOUND, struct.pack("<I", hash_of(key)))]
    return said
