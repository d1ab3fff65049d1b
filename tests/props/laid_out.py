"""What is badly laid out in the crates: wide lines, long files, idle or repeated imports, lemmas that say nothing."""
import re

WIDTH, LENGTH = 120, 800

# Code, definitions and proofs.
FILES = ['crates/*/src/**/*.rt', 'crates/*/specs/**/*.antt', 'crates/*/proofs/**/*.antt']

# Files of programs, all of them.
PROGRAMS = [*FILES, 'tests/**/*.py', 'tests/names', 'python/**/*.py', 'examples/**/*.py', 'scripts/*', 'rust/**/*.rs',
            'lib/*.c', 'js/*.js', 'js/*.ts']

# The formatter joins an attribute on one line, and a file has one line for each module from which it imports names.
JOINED = re.compile(r' *#!?\[tactic\(| *(?:pub )?(?:ghost )?use [\w.]+\.\{[^{}]*\};?$')

# Proof files with other names than these hold lemmas; these answer goals, whose names say what is asked.
ANSWERS = {'Answers.antt', 'Invariants.antt', 'Proof.antt'}

SIGNATURE = re.compile(r' *((?:abbrev |unfoldable |pub )*)([^\s:{(,;]+) :(?: |$)')
OTHERS = re.compile(r' *(?:abbrev |unfoldable |pub )*(?:record|data|use|open|mod) ')
MODULE = re.compile(r' *module ')

# The names that a file imports for its clauses, definitions and proofs, and what its comments are.
IMPORT = re.compile(r'(?m)^(?:ghost |pub )?use .*$')
GHOST = re.compile(r'(?m)^(?:ghost )?use ([\w.]+)\.\{([^}]*)\};?$')
FROM = re.compile(r'(?m)^((?:pub )?(?:ghost )?use [\w.]+)\.\{[^}]*\};?$')
COMMENT = {'.rt': re.compile(r'//.*'), '.antt': re.compile(r'(?m)(?:^|(?<=\s))--.*$')}


def files_of(top, patterns):
    """The files of these patterns, but for those that are made."""
    made = {'out', 'target', '__pycache__', 'dist'}
    return sorted({path for pattern in patterns for path in top.glob(pattern)
                   if path.is_file() and not made.intersection(path.relative_to(top).parts)})


def indent_of(line):
    return len(line) - len(line.lstrip(' '))


def wide_lines(text):
    """The lines that are wider than WIDTH, each with its number, but for those that are JOINED."""
    for number, line in enumerate(text.splitlines(), 1):
        if len(line) > WIDTH and not JOINED.match(line):
            yield number, 'has %d columns, and %d are the most' % (len(line), WIDTH)


def unused_names(text, suffix):
    """The names that a file imports for clauses, definitions and proofs and does not use, each with its line."""
    rest = IMPORT.sub('', COMMENT[suffix].sub('', text))
    words = {*re.split(r'[\s(){}\[\];,.]+', rest), *re.findall(r'\w+', rest)}
    for found in GHOST.finditer(text):
        if suffix == '.rt' and not found[0].startswith('ghost '):
            continue
        for name in (part.split(' as ')[-1].strip() for part in found[2].split(',')):
            parts = [part for part in name.split('◌') if part]
            if not (all(part in rest for part in parts) if '◌' in name or name == '[]' else name in words):
                yield text.count('\n', 0, found.start()) + 1, 'nothing here uses `%s`' % name


def repeated_imports(text, suffix):
    """The lines at the left that import from a module of which an earlier one does, each with its number."""
    seen = set()
    for found in FROM.finditer(text):
        if suffix == '.rt' and 'ghost ' not in found[1]:
            continue
        if found[1] in seen:
            yield text.count('\n', 0, found.start()) + 1, 'an earlier line also has `%s`' % found[1]
        seen.add(found[1])


def part_after(lines, at, indent, own):
    """The place behind the lines from `at` that are further in, or match `own`, with empty lines between them."""
    end = at
    for place in range(at, len(lines)):
        if not lines[place].strip():
            continue
        if indent_of(lines[place]) <= indent and not own.match(lines[place]):
            break
        end = place + 1
    return end


def is_one_step(lines, at, indent, name):
    """A signature of one line with a proof of one line: what it says is read at a glance."""
    first = part_after(lines, at + 1, indent, re.compile(r' *unfolding '))
    signature = [line for line in lines[at:first] if line.strip() and not line.lstrip().startswith('unfolding ')]
    last = part_after(lines, first, indent, re.compile(r' {%d}%s(?: |$)' % (indent, re.escape(name))))
    return len(signature) == 1 and sum(1 for line in lines[first:last] if line.strip()) == 1


def silent_lemmas(text):
    """The lemmas over which no comment says what they show, each with its number and its name.

    A lemma stands at the left of its file, or of a module of it. One that is private, and has one line of a signature
    and one of a proof, needs no comment.
    """
    lines, open_at = text.splitlines(), [0]
    for at, line in enumerate(lines):
        if not line.strip() or line.lstrip().startswith('--'):
            continue
        indent = indent_of(line)
        while open_at[-1] > indent:
            open_at.pop()
        if indent != open_at[-1] or OTHERS.match(line):
            continue
        if MODULE.match(line):
            open_at.append(indent + 2)
            continue
        found = SIGNATURE.match(line)
        if not found or at and lines[at - 1].lstrip().startswith('--'):
            continue
        if 'pub ' in found[1] or not is_one_step(lines, at, indent, found[2]):
            yield at + 1, 'no line over `%s` says what it shows' % found[2]


def faults(top):
    """Each file that is held to this, with its faults: the number of a line, and what is wrong there."""
    laid_out = set(files_of(top, FILES))
    for path in files_of(top, PROGRAMS):
        text = path.read_text(encoding='utf-8', errors='replace')
        wrong = []
        if path in laid_out:
            wrong += [*wide_lines(text), *unused_names(text, path.suffix), *repeated_imports(text, path.suffix)]
        if path.suffix == '.antt' and 'proofs' in path.relative_to(top).parts and path.name not in ANSWERS:
            wrong += silent_lemmas(text)
        count = len(text.splitlines())
        if count > LENGTH:
            wrong.append((count, 'the file has %d lines, and %d are the most' % (count, LENGTH)))
        yield path.relative_to(top), wrong
