"""What bench/lines, scans, journal, store, codec and store_cases share: programs, rivals, and how they are measured."""
import os
import re
import resource
import shutil
import subprocess
import sys
import tempfile

HERE = os.path.dirname(os.path.abspath(__file__))
COUNTED = shutil.which('valgrind') is not None
# The fewest syncs: what a line costs isn't to depend on the disk.
REPLAY = ('replay', '--group', '1024')
# GNU time: of the program's own peak. What the system tells of a child has in it what this script itself takes.
TIME = shutil.which('time')


def own_program():
    """The program that is measured: the word that the script was given, or what `rt run` builds."""
    return os.path.abspath(sys.argv[1]) if len(sys.argv) > 1 else os.path.join(HERE, '../crates/fsrm/out/fsrm')


def rival_program(folder):
    """The rival, built in this folder; None if there is no compiler for it."""
    if shutil.which('rustc') is None:
        return None
    rival = os.path.join(folder, 'rival')
    subprocess.run(['rustc', '-O', '--edition', '2021', '-o', rival, os.path.join(HERE, 'rival/main.rs')], check=True)
    return rival


def built(root, name, crates, above, words):
    """The program bench/NAME.rattle, built in this folder over these crates of the repository and what is kept of their
    proofs, and run once with these words. Above are the crates of the kit on which it stands."""
    with open(os.path.join(HERE, '../crates.txt'), encoding='utf-8') as lines:
        below = [line for line in lines if line.split(':')[0] in crates]
    with open(os.path.join(root, 'crates.txt'), 'w', encoding='utf-8') as lines:
        lines.writelines([*below, f'{name}: {" ".join(crates)} {above}\n'])
    for crate in crates:
        shutil.copytree(os.path.join(HERE, '../crates', crate), os.path.join(root, 'crates', crate))
    crate = os.path.join(root, 'crates', name)
    os.makedirs(os.path.join(crate, 'src'))
    shutil.copy(os.path.join(HERE, name + '.rattle'), os.path.join(crate, 'src/main.rt'))
    subprocess.run(['rt', 'run', '--jobs', '1', '--', *words], cwd=crate, capture_output=True, check=True)
    return os.path.join(crate, 'out', name)


def built_rival(root, name):
    """The program bench/NAME.rs, built in this folder."""
    program = os.path.join(root, name)
    source = os.path.join(HERE, name + '.rs')
    subprocess.run(['rustc', '-O', '--edition', '2021', '-o', program, source], check=True)
    return program


def processor_time():
    """The seconds that a processor worked for the programs that have ended."""
    used = resource.getrusage(resource.RUSAGE_CHILDREN)
    return used.ru_utime + used.ru_stime


def new_store(program, folder):
    """Makes a store in the folder. A rival, which keeps none, finds no line to read."""
    subprocess.run([program, 'init'], cwd=folder, stdin=subprocess.DEVNULL, check=True)


def replay(program, script, replies=os.devnull, under=()):
    """How long a processor works on a script, over a new store. What else the machine does counts for little there."""
    with tempfile.TemporaryDirectory() as store, open(script, 'rb') as lines, open(replies, 'wb') as written:
        new_store(program, store)
        begun = processor_time()
        subprocess.run([*under, program, *REPLAY], cwd=store, stdin=lines, stdout=written, check=True)
        return processor_time() - begun


def seconds(programs, script):
    """The least of five times for each of these programs, which run in turn."""
    times = [[replay(program, script) for program in programs] for _ in range(5)]
    return [min(column) for column in zip(*times)]


def peak(program, script, replies):
    """The most memory that the program had, in KiB, while it wrote these replies; None if GNU time isn't installed."""
    noted = replies + '.peak'
    replay(program, script, replies, [TIME, '-f', '%M', '-o', noted] if TIME else ())
    if TIME is None:
        return None
    with open(noted, encoding='ascii') as text:
        return int(text.read())


def counted(words, counts, **streams):
    """The instructions that these words take, which run as streams say; valgrind writes the rest to the file counts."""
    done = subprocess.run(
        ['valgrind', '--tool=callgrind', '--callgrind-out-file=' + counts, *words],
        stdout=subprocess.DEVNULL, stderr=subprocess.PIPE, check=True, **streams)
    return int(re.search(rb'Collected : (\d+)', done.stderr).group(1))


def instructions(program, script, folder):
    with tempfile.TemporaryDirectory() as store, open(script, 'rb') as lines:
        new_store(program, store)
        return counted([program, *REPLAY], os.path.join(folder, 'callgrind.out'), stdin=lines, cwd=store)
