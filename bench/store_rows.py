"""The rows of a store's image: how they are read, which are valid, and the list of quotas that `show` prints of them,
by the rules of docs/FORMATS.md alone."""
import datetime

from store_fields import (LAST_MOMENT, LONGEST_FILE, choice, folded, is_name, is_object_name, is_pattern, many, maybe,
                          number, plain, row, text)

TEXTS = 4194304
U2, U4, U8, FLAG, TEXT, KIND = number(2), number(4), number(8), choice(0, 1), text(), choice(1, 2, 3, 4)
ACTION = row(kind=KIND, minutes=number(4, signed=True), text=TEXT, last_run=maybe(U8))
THRESHOLD = row(percent=U2, actions=many(ACTION))
FILTER = row(owner=maybe(U4), pattern=maybe(TEXT), min_size=maybe(U8), days=maybe(U4), min_use=maybe(U4), max=U4)
IMAGE = row(
    last_moment=U8, run_limit=U4,
    nodes=many(row(number=U4, parent=U4, name=TEXT, folder=FLAG, length=U8, owner=U4, created=U8, modified=U8,
                   accessed=U8)),
    quotas=many(row(folder=U4, limit=U8, enforce=FLAG, state=choice(0, 1, 2), thresholds=many(THRESHOLD),
                    template=maybe(U4), peak=U8, peak_at=U8)),
    templates=many(row(number=U4, name=TEXT, limit=U8, enforce=FLAG, thresholds=many(THRESHOLD))),
    autos=many(row(folder=U4, template=U4, excluded=many(TEXT))),
    groups=many(row(number=U4, name=TEXT, members=many(TEXT), non_members=many(TEXT))),
    screens=many(row(folder=U4, active=FLAG, groups=many(U4), actions=many(ACTION))),
    excepts=many(row(folder=U4, groups=many(U4))),
    jobs=many(row(number=U4, name=TEXT, kind=choice(*range(1, 9)), scope=U4, filter=FILTER, schedule=TEXT, made=U8,
                  last_run=maybe(U8))),
    acts=many(row(moment=U8, folder=U4, percent=U2, kind=KIND)),
    audits=many(row(moment=U8, active=FLAG, owner=U4, folder=U4, screen=U4, name=TEXT)))


ROOT = dict(number=0, parent=0, name='', folder=1, length=0, owner=1, created=0, modified=0, accessed=0)


def is_moment(*values):
    return all(value is None or value <= LAST_MOMENT for value in values)


def ascending(values):
    return all(a < b for a, b in zip(values, values[1:]))


def different(values):
    return len(set(values)) == len(values)


def are_nodes(size, nodes):
    root, folders = nodes[0] if nodes else None, {node.number: node for node in nodes if node.folder}
    if root is None or vars(root) != ROOT:
        return False
    reached, before = {0}, set()
    while reached != before:
        before, reached = reached, reached | {number for number, node in folders.items() if node.parent in reached}
    return (ascending([node.number for node in nodes]) and nodes[-1].number < size.nodes
            and all(is_name(node.name) and node.owner >= 1 and node.parent in reached for node in nodes[1:])
            and all(node.length <= (0 if node.folder else LONGEST_FILE) for node in nodes)
            and all(is_moment(node.created, node.modified, node.accessed) for node in nodes)
            and different([(node.parent, folded(node.name)) for node in nodes[1:]])
            and sum(len(node.name.encode()) for node in nodes) <= size.names)


def are_actions(actions):
    return len(actions) <= 8 and all(-1 <= a.minutes <= 525600 and plain(a.text, 0, 1024) and is_moment(a.last_run)
                                     for a in actions)


def are_thresholds(thresholds):
    return (len(thresholds) <= 16 and ascending([t.percent for t in thresholds])
            and all(1 <= t.percent <= 250 and are_actions(t.actions) for t in thresholds))


def is_limit(value):
    return 1024 <= value <= 1 << 60


def is_filter(f):
    ranges = [(f.owner, 1, (1 << 32) - 1), (f.min_size, 0, LONGEST_FILE), (f.days, 0, 36500), (f.min_use, 0, 1000),
              (f.max, 1, 100000)]
    are_in_range = all(v is None or low <= v <= high for v, low, high in ranges)
    return are_in_range and (f.pattern is None or is_pattern(f.pattern))


def are_named(rows, below):
    """Numbers that ascend below a bound, and names of which no two are the same in any spelling."""
    return (all(is_object_name(r.name) for r in rows) and different([folded(r.name) for r in rows])
            and ascending([r.number for r in rows]) and all(r.number < below for r in rows))


def are_on_folders(rows, folders, most):
    return len(rows) <= most and ascending([r.folder for r in rows]) and all(r.folder in folders for r in rows)


def texts_of(rows):
    for q in [*rows.quotas, *rows.templates]:
        yield from (action.text for threshold in q.thresholds for action in threshold.actions)
    for r in rows.screens:
        yield from (action.text for action in r.actions)
    yield from (r.name for r in [*rows.templates, *rows.groups, *rows.jobs])
    for r in rows.autos:
        yield from r.excluded
    for r in rows.groups:
        yield from [*r.members, *r.non_members]
    yield from (part for job in rows.jobs for part in (job.schedule, job.filter.pattern or ''))


def are_objects(r):
    folders = {node.number for node in r.nodes if node.folder}
    templates, groups = ({row.number for row in rows} for rows in (r.templates, r.groups))
    screened = [*r.screens, *r.excepts]
    return (are_on_folders(r.quotas, folders, 4096) and are_on_folders(r.autos, folders, 1024)
            and are_on_folders(r.screens, folders, 4096) and are_on_folders(r.excepts, folders, 4096)
            and are_named(r.templates, 1024) and are_named(r.groups, 1024) and are_named(r.jobs, 256)
            and all(is_limit(q.limit) and are_thresholds(q.thresholds) for q in [*r.quotas, *r.templates])
            and all(q.template in {None, *templates} and is_moment(q.peak_at) for q in r.quotas)
            and all(a.last_run is None for q in r.templates for t in q.thresholds for a in t.actions)
            and all(a.template in templates and len(a.excluded) <= 32 for a in r.autos)
            and all(is_name(name) for a in r.autos for name in a.excluded)
            and all(1 <= len(g.members) <= 64 and len(g.non_members) <= 64 for g in r.groups)
            and all(is_pattern(pattern) for g in r.groups for pattern in [*g.members, *g.non_members])
            and all(1 <= len(s.groups) <= 16 and different(s.groups) and set(s.groups) <= groups for s in screened)
            and different([s.folder for s in screened]) and all(are_actions(s.actions) for s in r.screens)
            and all(j.scope in folders and is_filter(j.filter) and plain(j.schedule, 0, 200)
                    and is_moment(j.made, j.last_run) for j in r.jobs)
            and sum(len(value.encode()) for value in texts_of(r)) <= TEXTS)


def are_valid(size, r):
    return (is_moment(r.last_moment, *(log.moment for log in [*r.acts, *r.audits])) and r.run_limit <= 525600
            and are_nodes(size, r.nodes) and are_objects(r) and max(len(r.acts), len(r.audits)) <= 1024
            and all(is_name(audit.name) for audit in r.audits))


def path_of(nodes, node):
    """The path of a node, by a map of all nodes."""
    names = []
    while node.number != 0:
        names.append(node.name)
        node = nodes[node.parent]
    return 'D:\\' + '\\'.join(reversed(names))


def used_by(size, r, folder):
    """What the files below a folder take, in whole clusters."""
    below, before = {folder}, set()
    while below != before:
        before, below = below, below | {node.number for node in r.nodes[1:] if node.parent in below}
    return sum(-(-node.length // size.cluster) * size.cluster for node in r.nodes if node.number in below)


def quota_list(size, r):
    """The list of quotas. One that isn't complete shows no usage."""
    nodes = {node.number: node for node in r.nodes}
    for q in r.quotas:
        used = used_by(size, r, q.folder) if q.state == 0 else '-'
        date = datetime.datetime(1970, 1, 1) + datetime.timedelta(seconds=q.peak_at)
        mode, state = ('soft', 'hard')[q.enforce], ('complete', 'disabled', 'incomplete')[q.state]
        yield f'  {q.limit} {mode} {state} {used} {q.peak} {date} {path_of(nodes, nodes[q.folder])}'
        for threshold in q.thresholds:
            if not threshold.actions:
                yield f'    at {threshold.percent}'
            for action in threshold.actions:
                yield f'    at {threshold.percent} {"emcr"[action.kind - 1]} {action.minutes} {action.text}'
