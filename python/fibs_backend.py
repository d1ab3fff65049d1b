"""Builds the wheel of the package, by the standard library alone: what pip calls (PEP 517, PEP 660).

A library that `make lib` has built goes into the wheel, which is then named for what the library needs; without one the
wheel fits every machine, and the package uses the library that is installed. The settings of the build may name another
`library`, and a `label` for the version. The same files give the same bytes: each has the time of SOURCE_DATE_EPOCH, or
that of the first day that an archive can name. It leaves nothing in the tree.
"""

import ast
import base64
import hashlib
import os
import pathlib
import re
import sysconfig
import time
import zipfile

HERE = pathlib.Path(__file__).resolve().parent
PACKAGE = HERE / 'fibs'

# Where `make lib` leaves the library. Pip before 21.3 builds in a copy of this folder, in which there is the second.
LIBRARIES = HERE.parent / 'lib' / 'libfibs.so', PACKAGE / 'libfibs.so'

METADATA = """Metadata-Version: 2.1
Name: fibs
Version: %s
Summary: FIBS, the First Internet Backgammon Server: its lines, boards and rules, and a client
Requires-Python: >=3.9
Classifier: Operating System :: POSIX :: Linux
Classifier: Programming Language :: Python :: 3
Classifier: Topic :: Games/Entertainment :: Board Games
Classifier: Typing :: Typed
Description-Content-Type: text/plain

%s
%s
No licence has been chosen yet.
"""

# What is said of a library that has a label, and the machines of libraries by their number in the file.
LABELLED = """
Its library is built by rustc from the proved text without its proofs. That it does what the proved one does is tested,
not proved.
"""
MACHINES = {62: 'x86_64', 183: 'aarch64'}


class UnsupportedOperation(Exception):
    """What this can't make."""


def build_wheel(wheel_directory, config_settings=None, metadata_directory=None):
    settings = config_settings or {}
    named = [pathlib.Path(settings['library'])] if 'library' in settings else LIBRARIES
    library = next((path for path in named if path.exists()), None)
    files = {'fibs/' + path.name: path.read_bytes() for path in [*PACKAGE.glob('*.py'), PACKAGE / 'py.typed']}
    if library:
        files['fibs/libfibs.so'] = library.read_bytes()
    platform = _platform(library.read_bytes()) if library else 'any'
    return _wheel(wheel_directory, files, platform, settings.get('label', ''))


def build_editable(wheel_directory, config_settings=None, metadata_directory=None):
    return _wheel(wheel_directory, {'fibs.pth': b'%s\n' % os.fsencode(HERE)}, 'any')


def build_sdist(sdist_directory, config_settings=None):
    raise UnsupportedOperation('the sources of the package are those of the repository')


def _platform(library):
    """The machines on which a library runs: those of a C library that has all that it asks for."""
    system, _, machine = sysconfig.get_platform().replace('.', '_').partition('-')
    machine = MACHINES.get(int.from_bytes(library[18:20], 'little'), machine)
    asked = [int(minor) for minor in re.findall(rb'GLIBC_2\.(\d+)', library)]
    if not asked:
        return '%s_%s' % (system, machine.replace('-', '_'))
    return ('manylinux2014_%s' % machine) if max(asked) <= 17 else 'manylinux_2_%d_%s' % (max(asked), machine)


def _wheel(folder, files, platform, label=''):
    """Writes a wheel of these files. Its name."""
    page = (PACKAGE / '__init__.py').read_text('utf-8')
    version = re.search(r"(?m)^__version__ = '(.*)'$", page)[1] + ('+' + label if label else '')
    tag = 'py3-none-%s' % platform
    info = 'fibs-%s.dist-info/' % version
    said = ast.get_docstring(ast.parse(page)), LABELLED if label else ''
    files[info + 'METADATA'] = (METADATA % (version, *said)).encode()
    files[info + 'WHEEL'] = ('Wheel-Version: 1.0\nGenerator: fibs\nRoot-Is-Purelib: %s\nTag: %s\n'
                             % (str(platform == 'any').lower(), tag)).encode()
    record = ''.join('%s,sha256=%s,%d\n' % (name, _digest(data), len(data)) for name, data in sorted(files.items()))
    files[info + 'RECORD'] = (record + info + 'RECORD,,\n').encode()
    name = 'fibs-%s-%s.whl' % (version, tag)
    made = time.gmtime(max(int(os.environ.get('SOURCE_DATE_EPOCH', 0)), 315532800))[:6]
    with zipfile.ZipFile(os.path.join(folder, name), 'w', zipfile.ZIP_DEFLATED) as archive:
        for path, data in sorted(files.items(), key=lambda file: (file[0].startswith(info), file)):
            entry = zipfile.ZipInfo(path, made)
            entry.compress_type, entry.external_attr = zipfile.ZIP_DEFLATED, 0o100644 << 16
            archive.writestr(entry, data)
    return name


def _digest(data):
    return base64.urlsafe_b64encode(hashlib.sha256(data).digest()).rstrip(b'=').decode()


def _forget():
    """Takes away what Python kept of this file when pip imported it."""
    kept = pathlib.Path(__spec__.cached)
    kept.unlink(missing_ok=True)
    try:
        kept.parent.rmdir()
    except OSError:
        # it is not there, or has other files
        pass


_forget()
