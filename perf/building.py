"""Builds the programs that perf/run and perf/instructions measure, in a scratch folder outside of the checkout."""
import filecmp
import os
import shutil
import subprocess
import sys
import tempfile

PERF = os.path.dirname(os.path.abspath(__file__))
CHECKOUT = os.path.dirname(PERF)
# a folder for each checkout, which is kept: what was proved is not proved again
SCRATCH = os.path.join(tempfile.gettempdir(), 'planner-perf' + CHECKOUT.replace(os.sep, '-'))
LIBRARIES = ['gecodesearch', 'gecodeminimodel', 'gecodeint', 'gecodekernel', 'gecodesupport']


def scratch(name):
    return os.path.join(SCRATCH, name)


def call(command, folder=None, stdin=None):
    """Runs the command, whose output is shown only where it fails."""
    done = subprocess.run(command, cwd=folder, stdin=stdin or subprocess.DEVNULL, stdout=subprocess.PIPE, stderr=subprocess.STDOUT, check=False)
    if done.returncode:
        sys.stdout.buffer.write(done.stdout[-4000:])
        sys.exit(f'{" ".join(command)} ended with {done.returncode}')


# ---- the proved programs

def read(path):
    with open(path, encoding='utf-8') as file:
        return file.read()


def write_changed(path, text):
    os.makedirs(os.path.dirname(path), exist_ok=True)
    if not os.path.exists(path) or read(path) != text:
        with open(path, 'w', encoding='utf-8') as file:
            file.write(text)


def crate_lines():
    """The lines of crates.txt by crate."""
    lines = [line for line in read(os.path.join(CHECKOUT, 'crates.txt')).splitlines() if line and not line.startswith('#')]
    return {line.split(':')[0].split()[0]: line for line in lines}


def files_below(folder):
    found = set()
    for at, folders, files in os.walk(folder):
        folders[:] = [it for it in folders if it not in ('out', 'must-fail')]
        found.update(os.path.relpath(os.path.join(at, it), folder) for it in files)
    return found


def copy_crate(name):
    """Makes the scratch copy of a crate what the checkout has, with the proofs that are kept there if the copy has none yet."""
    source, copy = os.path.join(CHECKOUT, 'crates', name), scratch(f'tree/crates/{name}')
    wanted = files_below(source)
    for it in files_below(copy) - wanted:
        os.remove(os.path.join(copy, it))
    for it in wanted:
        old, new = os.path.join(source, it), os.path.join(copy, it)
        os.makedirs(os.path.dirname(new), exist_ok=True)
        if not os.path.exists(new) or not filecmp.cmp(old, new, shallow=False):
            shutil.copyfile(old, new)
    kept = os.path.join(source, 'out')
    if os.path.isdir(kept) and not os.path.isdir(os.path.join(copy, 'out')):
        shutil.copytree(kept, os.path.join(copy, 'out'))


def crates_below(name, lines):
    """The crate and all that it stands on; libraries of the kit have no line."""
    found, left = set(), [name]
    while left:
        it = left.pop()
        if it in lines and it not in found:
            found.add(it)
            left += lines[it].split(':')[1].split()
    return found


def copy_tree():
    """The crates of `plan` as the checkout has them now, beside them the program `measure`, and a template's program to compare memory with."""
    lines = crate_lines()
    crates = sorted(crates_below('plan', lines))
    for it in crates:
        copy_crate(it)
    make_template(scratch('tree/crates/template'))
    write_changed(scratch('tree/crates/measure/src/main.rt'), read(os.path.join(PERF, 'measure', 'main.rt.txt')))
    own = [f'measure:{lines["plan"].split(":")[1]}', 'template:']
    write_changed(scratch('tree/crates.txt'), '\n'.join([lines[it] for it in crates] + own) + '\n')


def make_template(folder):
    """Made before the scratch copy's crates.txt names it, since `rt new` reads that."""
    if os.path.isdir(folder):
        return
    write_changed(scratch('tree/crates.txt'), '')
    call(['rt', 'new', folder, 'start_io'])


def build_proved(name, arguments):
    """Proves and builds a program; `rt run` runs it once too."""
    print(f'proving and building {name} ..', file=sys.stderr, flush=True)
    with open(os.path.join(CHECKOUT, 'crates', 'plan', 'stdin'), 'rb') as sheet:
        call(['rt', 'run', '--', *arguments] if arguments else ['rt', 'run'], scratch(f'tree/crates/{name}'), sheet)
    return scratch(f'tree/crates/{name}/out/{name}')


def proved_programs():
    copy_tree()
    return {'plan': build_proved('plan', []), 'measure': build_proved('measure', ['bare']), 'template': build_template()}


def build_template():
    built = scratch('tree/crates/template/out/template')
    if not os.path.exists(built):
        print('proving and building a template ..', file=sys.stderr, flush=True)
        call(['rt', 'run'], scratch('tree/crates/template'))
    return built


# ---- the programs in C++

def compile_cc(name, libraries=()):
    os.makedirs(SCRATCH, exist_ok=True)
    built, source = scratch(name), os.path.join(PERF, name + '.cc')
    if not os.path.exists(built) or os.path.getmtime(built) < os.path.getmtime(source):
        call(['g++', '-std=c++17', '-O2', '-o', built, source, *[f'-l{it}' for it in libraries]])
    return built


def hand_written():
    return compile_cc('search')


def gecode():
    """The program over Gecode, or None where its library is not there."""
    if not os.path.isdir('/usr/include/gecode'):
        return None
    return compile_cc('gecode', LIBRARIES)
