"""What bench/devices and bench/memory share: runs over small stores, what they show, and what they have to leave.

A case is one run: its words, the store that it finds, the script in pieces, all that it shows, lines that are done
again later, and what the store holds before its first command and after each of them. What a store holds is told by
`show`, by a `tick`, and by a later run that asks for all and then does the lines again. A run of which something fails
has to show a beginning of what the case shows, and to leave what some first commands leave, each among them of whose
reply a byte was shown.
"""
import collections
import fcntl
import os
import re
import subprocess
import tempfile

from common import own_program

PROGRAM = own_program()
PARTS = ('fsrm.store.0', 'fsrm.store.1')
NO_STORE = (None, None)
T = 1000000000

Ran = collections.namedtuple('Ran', 'status shown said parts')
Case = collections.namedtuple('Case', 'name words parts pieces whole again left')

# What is asked of a store. None of these commands is kept, so the last moment stays as it is.
QUESTIONS = ['dirquota quota list', 'dirquota template list', 'dirquota autoquota list', 'dirquota admin list',
             'dirquota admin log', 'filescrn filegroup list', 'filescrn screen list', 'filescrn exception list',
             'storrept reports list', r'usage D:\a',
             r'storrept reports generate /Report:LargeFiles /Scope:D:\ /MinSize:0 /Max:100000',
             r'storrept reports generate /Report:MostRecentlyAccessed /Scope:D:\ /Days:36500 /Max:100000',
             r'storrept reports generate /Report:FileScreenAudit /Scope:D:\ /Max:100000']

# A store with a row of each kind.
ENTRY = r"""mkdir D:\a 1
mkdir D:\old 1
create D:\a\x.log 5000 1
create D:\a\y.log 5000 2
create D:\old\Y.LOG 1 2
create D:\a\z.log 5000 3
dirquota template add /Template:Home /Limit:1mb /Add-Notification:85,e,60,near
filescrn filegroup add /Filegroup:Music /Members:*.mp3|*.wav
mkdir D:\home 1
dirquota autoquota add /Path:D:\home /SourceTemplate:Home
filescrn screen add /Path:D:\home /Add-Filegroup:Music /Add-Notification:m,0,music
mkdir D:\home\u 7
dirquota quota add /Path:D:\a /Limit:20kb /Type:soft "/Add-Notification:50,m,0,[Quota Path] has [Quota Used]"
step 9
storrept reports add /Task:A /Report:LargeFiles /Scope:D:\ "/Schedule:daily 02:00 1" /MinSize:1
storrept reports add /Task:B /Report:LargeFiles /Scope:D:\ /Schedule:never
storrept reports add /Task:C /Report:FilesByType "/Schedule:daily 02:00 1" /Scope:D:\a"""

# Commands that are kept or not, refused or not, with acts, lists, a scan that finishes and one that doesn't.
SCRIPT = r"""mkdir D:\new 1
dirquota quota add /Path:D:\ /Limit:30kb /Add-Notification:90,e,0,full
step 2
usage D:\
step 9
create D:\home\song.mp3 1 4
# nothing
create D:\new\f 9000 5
create D:\new\g 9000 5
dirquota quota list
move D:\a\x.log D:\new\h
no command
dirquota quota scan /Path:D:\a
mkdir D:\home\v 2
remove D:\old\Y.LOG
resize D:\a\y.log 1
step 1"""


def timed(lines, first):
    """Lines with a moment each, one later than the one before. A note stays as it is."""
    return [line if line.startswith('#') else f'{first + place} {line}' for place, line in enumerate(lines)]


def script_of(lines):
    return ''.join(line + '\n' for line in lines).encode()


def pieces_of(script, size):
    return [script[place:place + size] for place in range(0, len(script), size)]


def packets(pieces):
    """The reading end of a pipe of which each read gives one of these pieces, none longer than a page."""
    end, start = os.pipe2(os.O_DIRECT | os.O_CLOEXEC)
    fcntl.fcntl(start, fcntl.F_SETPIPE_SZ, 1 << 20)
    for piece in pieces:
        os.write(start, piece)
    os.close(start)
    return end


def read_parts(folder):
    """The two files of the folder's store; None for one that is missing."""
    found = []
    for name in PARTS:
        try:
            with open(os.path.join(folder, name), 'rb') as part:
                found.append(part.read())
        except FileNotFoundError:
            found.append(None)
    return tuple(found)


def ran(words, parts, pieces=(), under=(), env=None):
    """One run over a store of these parts, in a folder of its own."""
    with tempfile.TemporaryDirectory() as folder:
        for name, part in zip(PARTS, parts):
            if part is not None:
                with open(os.path.join(folder, name), 'wb') as file:
                    file.write(part)
        script = packets(pieces)
        try:
            done = subprocess.run([*under, PROGRAM, *words], cwd=folder, stdin=script, capture_output=True, check=False,
                                  env=None if env is None else {**os.environ, **env})
        finally:
            os.close(script)
        return Ran(done.returncode, done.stdout, done.stderr, read_parts(folder))


def replayed(parts, lines, group=1):
    return ran(['replay', '--group', str(group)], parts, pieces_of(script_of(lines), 4096))


TOLD = {}


def told(parts, again):
    """What a store holds: what `show` and `tick` say, and a later run, which asks for all and then does these lines."""
    key = parts, tuple(again)
    if key not in TOLD:
        later = [ran(['show'], parts), ran(['tick', str(T + 100000)], parts),
                 replayed(parts, [*(f'4102444799 {line}' for line in QUESTIONS), *again])]
        TOLD[key] = [(run.status, run.shown) for run in later]
    return TOLD[key]


def case_of(name, words, parts, script=(), commands=(), size=4096):
    """A case of these words, whose commands are what a `replay` of these lines does."""
    pieces = pieces_of(script_of(script), size)
    whole = ran(words, parts, pieces)
    if whole.status != 0:
        raise SystemExit(f'{name}: status {whole.status}: {whole.said}')
    left = [told(replayed(parts, commands[:count]).parts, commands) for count in range(len(commands) + 1)]
    return Case(name, words, parts, pieces, whole.shown, commands, left)


def acknowledged(case, shown):
    """The last command of whose reply a byte was shown."""
    heads = re.finditer(rb'^(?:work )?(\d+) (?:ok|refused)', case.whole, re.M)
    return max((int(head[1]) for head in heads if head.start() < len(shown)), default=0)


def wrongs(case, run):
    """What is wrong with what a run of the case showed and left."""
    if not case.whole.startswith(run.shown):
        yield 'what was shown is no beginning of the whole text'
        return
    if run.status == 0 and run.shown != case.whole:
        yield 'all was done, but not shown'
    least = len(case.left) - 1 if run.status == 0 else acknowledged(case, run.shown)
    if told(run.parts, case.again) not in case.left[least:]:
        yield f'what is kept is no beginning of the commands with the first {least} of them'


def old(parts):
    """The same store in version 1: the first command that is kept, or the run, gives it a new image."""
    return parts[0][:24] + b'\1' + parts[0][25:], parts[1]


def work_case(parts, seed, count):
    """A made script: what its first lines do is what a shorter one does."""
    words = ['work', str(seed), str(count)]
    whole = ran(words, parts)
    left = [told(parts, ())] + [told(ran(['work', str(seed), str(length)], parts).parts, ())
                                for length in range(1, count + 1)]
    return Case('work', words, parts, [], whole.shown, (), left)


def init_case():
    fresh = ran(['init'], NO_STORE)
    return Case('init', ['init'], NO_STORE, [], b'', (), [told(NO_STORE, ()), told(fresh.parts, ())])


def image_case(fresh):
    """A run in the midst of which the records have more bytes than 1 MiB, so that there is a new image."""
    files = [f'{T} create D:\\{"n" * 96}{number:04} 0 1' for number in range(7770)]
    parts = replayed(fresh, files[:7766], 1024).parts
    return case_of('replay, with a new image', ['replay'], parts, files[7766:], files[7766:])


def cases():
    """All cases, from the one that makes a store on."""
    yield init_case()
    fresh = ran(['init'], NO_STORE).parts
    entry = replayed(fresh, timed(ENTRY.split('\n'), T), 32).parts
    lines = timed(SCRIPT.split('\n'), T + 100)
    for group in (1, 32):
        words = ['replay', '--group', str(group)]
        yield case_of(f'replay in groups of {group}', words, entry, lines, lines, 100)
    yield case_of('replay over a store of version 1', ['replay'], old(entry), lines[:4], lines[:4])
    yield case_of('show', ['show'], entry)
    yield case_of('outbox', ['outbox', '0'], entry)
    yield case_of('tick', ['tick', str(T + 100000)], entry,
                  commands=[f'{T + 100000} storrept reports run /Task:{task}' for task in 'AC'])
    yield case_of('expire', ['expire', r'D:\a', r'D:\old', '0', '*.log', str(T + 100000)], entry,
                  commands=[f'{T + 100000} move D:\\a\\{name}.log D:\\old\\{name}.log' for name in 'xyz'])
    yield work_case(fresh, 7, 48)
    yield image_case(fresh)
