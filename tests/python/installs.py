"""The package as it is installed, by the lines of docs/PYTHON.md, with each Python from 3.9 on that is here: with no
index, no compiler, and no package but pip."""

import os
import pathlib
import re
import shutil
import subprocess
import sys
import tempfile
import zipfile

from pages import blocks
from props.package import ROOT, fibs
from fibs import _library

VERSIONS = ['3.%d' % minor for minor in range(9, 14)]

# What is done with the package that was installed.
LOOK = """import sys
import fibs
print(fibs.read(b'3').kind, fibs._library._path())"""


def run(*words, cwd='/', **environment):
    """Runs a command to which nothing of the tree is told, and that reaches no index. Its status, and what it says."""
    known = {name: value for name, value in os.environ.items() if not name.startswith(('PYTHON', 'FIBS_', 'PIP_'))}
    told = subprocess.run(words, capture_output=True, text=True, cwd=cwd, env={
        **known, 'CC': 'false', 'PIP_NO_INDEX': '1', 'PIP_ROOT_USER_ACTION': 'ignore', 'PIP_CONFIG_FILE': os.devnull,
        'PIP_DISABLE_PIP_VERSION_CHECK': '1', **environment})
    return told.returncode, told.stdout + told.stderr


def pythons():
    """Each Python that is here, by what it is: this one, Debian's, and one of each version."""
    found = {}
    for name in [sys.executable, '/usr/bin/python3', *('python' + version for version in VERSIONS)]:
        program = shutil.which(name)
        if program:
            status, told = run(program, '-c', 'import sys; print(sys.executable, *sys.version_info[:2])')
            if status == 0:
                path, major, minor = told.split()
                found.setdefault(os.path.realpath(path), (path, (int(major), int(minor))))
    return [path for path, version in found.values() if version >= (3, 9)]


def has(program, module):
    return run(program, '-c', 'import ' + module)[0] == 0


def tree():
    """What is in the tree beside what it is to have, such as files of a build."""
    return {path for folder in ('python', 'lib', 'examples') for path in (ROOT / folder).rglob('*')}


class Place:
    """A folder with the tree in it, for a Python that is `python3` there."""

    def __init__(self, program):
        self.folder = pathlib.Path(tempfile.mkdtemp())
        for name in 'python', 'examples', 'scripts', 'docs':
            (self.folder / name).symlink_to(ROOT / name)
        (self.folder / 'bin').mkdir()
        # a program of its own name would look for its library beside it
        (self.folder / 'bin' / 'python3').write_text('#!/bin/sh\nexec %s "$@"\n' % program)
        (self.folder / 'bin' / 'python3').chmod(0o755)

    def __enter__(self):
        return self

    def __exit__(self, *error):
        shutil.rmtree(self.folder)

    def run(self, script):
        """Runs lines of the page. Its status, and what it says."""
        return run('sh', '-ec', script, cwd=self.folder, PATH='%s:%s' % (self.folder / 'bin', os.environ['PATH']),
                   PYTHONUSERBASE=str(self.folder / 'user'))

    def installed(self):
        """The kind of the wheel that was installed, and the files of the package."""
        info, = self.folder.glob('*/lib/python3*/site-packages/fibs-*.dist-info')
        tag = re.search(r'(?m)^Tag: (\S+)$', (info / 'WHEEL').read_text())[1]
        return tag, {path.name for path in (info.parent / 'fibs').iterdir()}


def recipe(word):
    """The block of the page that has this word."""
    found, = [block for block in blocks('sh') if word in block]
    return ''.join(line + '\n' for line in found.splitlines() if not line.startswith('make '))


def looked_at(counts, place, program, what):
    """The package that was installed is used, with the library in it."""
    tag, files = place.installed()
    counts.check(tag.startswith('py3-none-manylinux'), '%s: %s' % (what, tag))
    counts.check({'libfibs.so', 'py.typed', '__init__.py', 'messages.py'} <= files, '%s: %s' % (what, files))
    status, told = place.run('%s -B -c "%s"' % (program, LOOK.replace('\n', '; ')))
    counts.check(status == 0 and told.startswith('Message ' + str(place.folder)), '%s: %s' % (what, told))


def the_page_installs_it_in_a_venv(counts):
    for program in pythons():
        if not (has(program, 'venv') and has(program, 'ensurepip')):
            counts.leave_out('%s has no venv with pip' % program)
            continue
        before = tree()
        with Place(program) as place:
            status, told = place.run(recipe('-m venv'))
            counts.check(status == 0 and 'You play' in told, '%s: %s' % (program, told))
            if status == 0:
                looked_at(counts, place, 'venv/bin/python', program)
        counts.same(tree() - before, set(), '%s leaves nothing in the tree' % program)


def the_page_installs_it_for_one_user(counts):
    """Where the system allows it: Debian 12 and later do not."""
    for program in pythons():
        if not has(program, 'pip'):
            counts.leave_out('%s has no pip' % program)
            continue
        before = tree()
        with Place(program) as place:
            status, told = place.run(recipe('--user'))
            if 'externally-managed-environment' in told:
                counts.leave_out('the system of %s allows no packages but its own' % program)
                continue
            counts.check(status == 0, '%s: %s' % (program, told))
            if status == 0:
                looked_at(counts, place, 'python3', program)
        counts.same(tree() - before, set(), '%s leaves nothing in the tree' % program)


def the_page_makes_a_wheel_for_other_machines(counts):
    before = tree()
    with Place(sys.executable) as place:
        status, told = place.run('python3 -m venv venv\n' + recipe('scripts/wheel'))
        counts.check(status == 0, told)
        if status == 0:
            looked_at(counts, place, 'venv/bin/python', 'a wheel')
    counts.same(tree() - before, set(), 'nothing is left in the tree')


def made(folder, into, **environment):
    """The wheel that the files in a folder make, as they are built in a copy of it."""
    into.mkdir()
    script = 'import sys, fibs_backend; fibs_backend.build_wheel(sys.argv[1])'
    status, told = run(sys.executable, '-B', '-c', script, str(into), cwd=folder, **environment)
    return status, told, *into.iterdir()


def wheels_are_the_same_and_valid(counts):
    """Two builds make the same bytes; the hashes in it are those of its files."""
    with tempfile.TemporaryDirectory() as name:
        folder = pathlib.Path(name)
        first, second = [made(ROOT / 'python', folder / into, SOURCE_DATE_EPOCH='1790000000')[2]
                         for into in ('one', 'two')]
        counts.same(first.read_bytes(), second.read_bytes(), 'the same bytes')
        with zipfile.ZipFile(first) as archive:
            counts.same(archive.testzip(), None, 'a sound archive')
            counts.same({entry.date_time for entry in archive.infolist()}, {(2026, 9, 21, 14, 13, 20)}, 'one time')
            counts.check(b'Name: fibs\nVersion: %s\n' % fibs.__version__.encode()
                         in archive.read('fibs-%s.dist-info/METADATA' % fibs.__version__), 'its name and version')
        if shutil.which('auditwheel'):
            counts.same(run('auditwheel', 'show', str(first))[0], 0, 'auditwheel')


def without_a_library_the_loader_finds_one(counts):
    """Built in a copy of the folder alone, as pip before 21.3 does it: with the library beside the package, if it is
    there."""
    with tempfile.TemporaryDirectory() as name:
        folder = pathlib.Path(name)
        shutil.copytree(ROOT / 'python', folder / 'python', ignore=shutil.ignore_patterns('__pycache__'))
        shutil.copy(ROOT / 'lib' / 'libfibs.so', folder / 'python' / 'fibs' / 'libfibs.so')
        wheel = made(folder / 'python', folder / 'with')[2]
        counts.check('-py3-none-manylinux' in wheel.name, wheel.name)
        (folder / 'python' / 'fibs' / 'libfibs.so').rename(folder / _library.SONAME)
        wheel = made(folder / 'python', folder / 'without')[2]
        counts.check(wheel.name.endswith('-py3-none-any.whl'), wheel.name)
        with zipfile.ZipFile(wheel) as archive:
            archive.extractall(folder / 'there')
        told = run(sys.executable, '-B', '-c', LOOK, PYTHONPATH=str(folder / 'there'), LD_LIBRARY_PATH=name)
        counts.same(told, (0, 'Message %s\n' % _library.SONAME), 'the library of the loader is used')


TESTS = [the_page_installs_it_in_a_venv, the_page_installs_it_for_one_user, the_page_makes_a_wheel_for_other_machines,
         wheels_are_the_same_and_valid, without_a_library_the_loader_finds_one]
