"""The entries of a store: how they are read, and the lines of a script that do the same, by the rules of
docs/FORMATS.md alone.

A kind of entry has a command and its values. A value is read as a field, and said as words of a line; none is said of
one that isn't given.
"""
import collections

from store_fields import (Damage, LAST_MOMENT, LONGEST_FILE, choice, is_name, is_object_name, is_path, is_pattern, many,
                          maybe, number, plain, row, text)

Value = collections.namedtuple('Value', 'read said')
Entry = collections.namedtuple('Entry', 'moment kind values')

FINISH = 99


# ---- values
def as_is(label):
    return lambda value: [f'{label}{value}']


def one_of(label, words):
    """A choice, that is said by one of these words."""
    return lambda value: [label + words[value]]


def given(value):
    """A value that may be missing."""
    return Value(maybe(value.read), lambda found: [] if found is None else value.said(found))


def several(value, least=0, most=None):
    return Value(many(value.read, 2, least, most), lambda found: [word for item in found for word in value.said(item)])


def patterns(label, least):
    return Value(many(text(is_pattern), 2, least, 64), lambda found: [label + '|'.join(found)])


def minutes(place):
    start = place.at
    value = number(8)(place)
    if value > 525600 and value != (1 << 64) - 1:
        raise Damage(start)
    return -1 if value > 525600 else value


def ranged(label, least, most):
    return Value(number(8, least, most), as_is(label))


def path(label=''):
    return Value(text(is_path), as_is(label))


def name(label):
    return Value(text(is_object_name), as_is(label))


ACTION = dict(kind=choice(1, 2, 3, 4), minutes=minutes, text=text(lambda value: plain(value, 0, 1024)))


def said_action(action):
    return f'{" emcr"[action.kind]},{action.minutes},{action.text}'


OWNER, LENGTH = ranged('', 1, (1 << 32) - 1), ranged('', 0, LONGEST_FILE)
PATH, LIMIT, TEMPLATE = path('/Path:'), ranged('/Limit:', 1024, 1 << 60), name('/Template:')
SOURCE, GROUP, TASK = name('/SourceTemplate:'), name('/Filegroup:'), name('/Task:')
TYPE = Value(choice(0, 1), one_of('/Type:', ['soft', 'hard']))
STATUS = Value(choice(0, 1), one_of('/Status:', ['disabled', 'enabled']))
MODE = Value(choice(0, 1), one_of('/Type:', ['passive', 'active']))
UPDATE = Value(choice(0, 1, 2), one_of('/UpdateDerived:', ['none', 'matching', 'all']))
REPORT = Value(choice(*range(1, 9)), one_of('/Report:', [
    '', 'LargeFiles', 'FilesByType', 'LeastRecentlyAccessed', 'MostRecentlyAccessed', 'QuotaUsage', 'FilesByOwner',
    'DuplicateFiles', 'FileScreenAudit']))
REMOVED, ADDED = (several(ranged(label, 1, 250)) for label in ('/Remove-Threshold:', '/Add-Threshold:'))
NOTICES = several(Value(row(percent=number(8, 1, 250), **ACTION),
                        lambda notice: [f'/Add-Notification:{notice.percent},{said_action(notice)}']))
NOTES = several(Value(row(**ACTION), lambda action: ['/Add-Notification:' + said_action(action)]))
SCHEDULE = Value(text(lambda value: plain(value, 0, 200)), as_is('/Schedule:'))
EXCLUDED = several(Value(text(is_name), as_is('/Exclude:')), 0, 32)
LESS_GROUPS, MORE_GROUPS = (several(name(label)) for label in ('/Remove-Filegroup:', '/Add-Filegroup:'))
SOME_GROUPS = several(name('/Add-Filegroup:'), 1)
FILTER = [given(ranged('/Owner:', 1, (1 << 32) - 1)), given(Value(text(is_pattern), as_is('/Pattern:'))),
          given(ranged('/MinSize:', 0, LONGEST_FILE)), given(ranged('/Days:', 0, 36500)),
          given(ranged('/MinUse:', 0, 1000)), ranged('/Max:', 1, 100000)]

KINDS = {
    1: ('mkdir', path(), OWNER),
    2: ('create', path(), LENGTH, OWNER),
    3: ('resize', path(), LENGTH),
    4: ('touch', path()),
    5: ('move', path(), path()),
    6: ('remove', path()),
    10: ('dirquota quota add', PATH, given(LIMIT), given(TYPE), STATUS, given(SOURCE), ADDED, NOTICES),
    11: ('dirquota quota modify', PATH, given(LIMIT), given(TYPE), given(STATUS), REMOVED, ADDED, NOTICES),
    12: ('dirquota quota delete', PATH),
    13: ('dirquota quota scan', PATH),
    14: ('dirquota quota resetpeak', PATH),
    20: ('dirquota template add', TEMPLATE, LIMIT, TYPE, ADDED, NOTICES),
    21: ('dirquota template modify', TEMPLATE, given(LIMIT), given(TYPE), REMOVED, ADDED, NOTICES, UPDATE),
    22: ('dirquota template delete', TEMPLATE),
    30: ('dirquota autoquota add', PATH, SOURCE, EXCLUDED),
    31: ('dirquota autoquota delete', PATH),
    35: ('dirquota admin options', ranged('/RunLimitInterval:', 0, 525600)),
    40: ('filescrn filegroup add', GROUP, patterns('/Members:', 1), patterns('/NonMembers:', 0)),
    41: ('filescrn filegroup modify', GROUP, given(patterns('/Members:', 1)), given(patterns('/NonMembers:', 0))),
    42: ('filescrn filegroup delete', GROUP),
    50: ('filescrn screen add', PATH, MODE, SOME_GROUPS, NOTES),
    51: ('filescrn screen modify', PATH, given(MODE), LESS_GROUPS, MORE_GROUPS),
    52: ('filescrn screen delete', PATH),
    60: ('filescrn exception add', PATH, SOME_GROUPS),
    61: ('filescrn exception delete', PATH),
    70: ('storrept reports add', TASK, REPORT, path('/Scope:'), given(SCHEDULE), *FILTER),
    71: ('storrept reports delete', TASK),
    72: ('storrept reports run', TASK),
    FINISH: ('', ranged('', 0, (1 << 32) - 1)),
}


# ---- entries
def entry(place):
    """The entry from this place on."""
    moment = number(8, 0, LAST_MOMENT)(place)
    kind = choice(*KINDS)(place)
    values = []
    for value in KINDS[kind][1:]:
        start = place.at
        values.append(value.read(place))
        if kind == 10 and len(values) == 5 and values[1] is None and values[4] is None:
            raise Damage(start)
    return Entry(moment, kind, values)


def line_of(made):
    """The line that does what an entry does. None for a finish, and if a text has a quote."""
    words = [word for value, found in zip(KINDS[made.kind][1:], made.values) for word in value.said(found)]
    if made.kind == FINISH or any('"' in word for word in words):
        return None
    return ' '.join([str(made.moment), KINDS[made.kind][0], *(f'"{word}"' for word in words)])
