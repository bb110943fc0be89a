"""Fields in the bytes of a store, and the texts that may stand in them, by the rules of docs/FORMATS.md alone.

A reader of a field takes a `Place` in the bytes, steps over the field, and gives its value. A field that isn't there,
is cut short or has no legal value is `Damage` at its first byte.
"""
from types import SimpleNamespace as Row

LAST_MOMENT = 4102444799
LONGEST_FILE = (1 << 44) - (1 << 16)
NOT_IN_NAMES = set('<>:"/\\|?*')


class Damage(Exception):
    """Damage at a place of the bytes."""
    def __init__(self, place):
        super().__init__(place)
        self.place = place


class Place:
    """Where the next field begins, in bytes of which no field may pass the end."""
    def __init__(self, data, at, end):
        self.data, self.at, self.end = data, at, min(end, len(data))

    def take(self, width):
        if self.at + width > self.end:
            raise Damage(self.at)
        self.at += width
        return self.data[self.at - width:self.at]


# ---- fields
def number(width, least=0, most=None, signed=False):
    def read(place):
        start = place.at
        value = int.from_bytes(place.take(width), 'little', signed=signed)
        if not signed and (value < least or most is not None and value > most):
            raise Damage(start)
        return value
    return read


def text(legal=lambda text: True):
    def read(place):
        start = place.at
        try:
            value = place.take(int.from_bytes(place.take(2), 'little')).decode()
        except (Damage, UnicodeDecodeError):
            raise Damage(start) from None
        if not legal(value):
            raise Damage(start)
        return value
    return read


def choice(*values):
    def read(place):
        start = place.at
        value = place.take(1)[0]
        if value not in values:
            raise Damage(start)
        return value
    return read


def maybe(field):
    return lambda place: field(place) if choice(0, 1)(place) else None


def many(field, width=4, least=0, most=None):
    count = number(width, least, most)
    return lambda place: [field(place) for _ in range(count(place))]


def row(**fields):
    return lambda place: Row(**{name: field(place) for name, field in fields.items()})


# ---- texts
def plain(value, least, most):
    """A text of so many bytes, without a control character."""
    return least <= len(value.encode()) <= most and all(c > '\x1f' and c != '\x7f' for c in value)


def is_name(value, also=''):
    return plain(value, 1, 255) and value not in ('.', '..') and not (NOT_IN_NAMES - set(also)) & set(value)


def is_pattern(value):
    return is_name(value, '*?')


def is_object_name(value):
    return plain(value, 1, 255) and '|' not in value


def is_path(value):
    return value.startswith('D:\\') and (value == 'D:\\' or all(is_name(name) for name in value[3:].split('\\')))


def folded(value):
    """In one spelling: by character, as names are compared."""
    return ''.join(c.casefold() if len(c.casefold()) == 1 else c for c in value)
