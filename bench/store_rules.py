"""What the bytes of a store hold, by the rules of docs/FORMATS.md alone: a plain program, apart from the product.

`state_of(parts)` takes the bytes of the two files. It answers None if there is no store, or at which part and place the
store is damaged, or what it holds: its size, its image with the rows, and the entries after it.
"""
import collections

from store_entries import entry
from store_fields import Damage, Place, number, row
from store_rows import IMAGE, are_valid

Damaged = collections.namedtuple('Damaged', 'part place')
Holds = collections.namedtuple('Holds', 'part size image rows entries')
CLUSTERS = {1: [4096], 2: [512 << power for power in range(8)]}


def literal(*legal):
    """A field that has one of these bytes."""
    def read(place):
        start = place.at
        value = place.take(len(legal[0]))
        if value not in legal:
            raise Damage(start)
        return value
    return read


def head(place):
    """The fields after an open gate. Which clusters are legal goes by the version."""
    literal(bytes(7))(place)
    literal(b'FSRMHALF')(place)
    found = row(generation=number(8, 1), version=number(4, 1, 2), nodes=number(4, 2, 1048576),
                names=number(4, 256, 268435456))(place)
    cluster = literal(*(size.to_bytes(4, 'little') for size in CLUSTERS[found.version]))(place)
    found.cluster = int.from_bytes(cluster, 'little')
    found.image = number(8)(place)
    return found


def entries_from(data, at):
    """The entries of the records from this gate on, up to the first closed gate."""
    entries = []
    while Place(data, at, len(data)).take(1) == b'\1':
        place = Place(data, at + 1, len(data))
        length = number(4, 1, 131072)(place)
        start = place.at
        place.take(length)
        body = Place(data, start, start + length)
        entries.append(entry(body))
        if body.at != body.end:
            raise Damage(body.at)
        at = body.end
    return entries


def ruling(parts):
    """The part that rules, with its head; or a damage of a head."""
    heads = []
    for part, data in enumerate(parts):
        try:
            place = Place(data, 0, len(data))
            heads.append(head(place) if place.take(1) == b'\1' else None)
        except Damage as damage:
            return None, Damaged(part, damage.place)
    if None not in heads:
        if heads[0].generation == heads[1].generation:
            return None, Damaged(1, 16)
        part = int(heads[1].generation > heads[0].generation)
    else:
        part = int(heads[0] is None)
    return part, heads[part]


def state_of(parts):
    parts = [part or b'' for part in parts]
    if all(part[:1] != b'\1' for part in parts):
        return None
    part, size = ruling(parts)
    if part is None:
        return size
    try:
        place = Place(parts[part], 48, 48 + size.image)
        rows = IMAGE(place)
        if place.at != 48 + size.image:
            return Damaged(part, place.at)
        if not are_valid(size, rows):
            return Damaged(part, 48)
        entries = entries_from(parts[part], place.at)
    except Damage as damage:
        return Damaged(part, damage.place)
    return Holds(part, size, parts[part][48:48 + size.image], rows, entries)
