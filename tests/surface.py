#!/usr/bin/env python3
"""Compares what a player sees of the program with one list: tests/surface.py [PROGRAM]

The man page, the help (the texts of tests/help, to which tests/program holds the program), the completions and
docs/PLAYING.md have the same subcommands, options, typed lines, refusals and statuses, and say the same of each: what
that is, is in tests/props/meanings.py. With a PROGRAM it is asked too whether it takes each typed line. A shell, or a
reader of man pages, that is not installed is left out. Prints a line for each case, and then `N passed, M failed`.
"""

import os
import pathlib
import re
import shutil
import subprocess
import sys
import tempfile

from props import meanings
from props.checks import Failed, same, try_all

ROOT = pathlib.Path(__file__).resolve().parent.parent

SUBCOMMANDS = ['connect', 'help', 'loop', 'plays', 'replay', 'show']

# The options of the program, of connect, of show, and of plays and replay; loop has the help alone.
OPTIONS = ['--help', '--version', '-V', '-h']

CONNECT_OPTIONS = ['--help', '--json', '--log', '--password-file', '-h']

SHOW_OPTIONS = ['--events', '--help', '--json', '-h']

JSON_OPTIONS = ['--help', '--json', '-h']

ALL_OPTIONS = sorted(set(OPTIONS + CONNECT_OPTIONS + SHOW_OPTIONS))

# The typed lines, without their names and texts; rlwrap completes their words from this file.
TYPED = (ROOT / 'completions' / 'typed').read_text().splitlines()

# Those that are lines of the plain account too. A terminal lists the others in its own `help`.
PLAIN = [line for line in TYPED if line not in meanings.TERMINAL]

# The first words of the lines that `connect` and `show` print.
PRINTED = """board: message text cut malformed unfinished phase confirmed directory lost sent refused ordered withdrawn
    fault unknown player no""".split()

PHASES = ['Over', 'AnswerDouble', 'OpponentActs', 'RollOrDouble', 'Move', 'Passing']

# The endings of which the page says more than of the others: those of fibs-play.
SIGNALS = ['129', '130', '131', '143']


def text_of(path):
    return (ROOT / path).read_text()


def part(text, begin, end):
    """What is between two texts."""
    return text.split(begin, 1)[1].split(end, 1)[0]


def page(section):
    """A section of the man page."""
    return part(text_of('docs/fibs.1') + '\n.Sh ', '.Sh %s\n' % section, '\n.Sh ')


def heads(text):
    """What the lists of a part of the man page name, without arguments."""
    found = re.findall(r'^\.It (?:Li|Cm) (.*)$', text, re.M)
    return [re.sub(r'^Li | Ar .*', '', one) for line in found for one in line.split(' , ')]


def typed_in(spans):
    """The typed lines that these are, in the order of the list. Each has to be one, with or without what follows it."""
    found = set()
    for span in spans:
        known = [line for line in TYPED if span == line or span.startswith(line + ' ')]
        if not known:
            raise Failed('%r is no typed line' % span)
        found.update(known)
    return [line for line in TYPED if line in found]


def run(words, **more):
    return subprocess.run(words, capture_output=True, text=True, timeout=60, check=False, **more)


# -- subcommands and options -----------------------------------------------------------------------------------------

def help_has_the_subcommands(_program):
    listed = part(text_of('tests/help/fibs.txt'), 'Commands:\n', '\n\n')
    same('help', sorted(line.split()[0] for line in listed.splitlines()), SUBCOMMANDS)
    same('the files of the help', sorted(path.stem for path in (ROOT / 'tests' / 'help').iterdir()),
         sorted(set(SUBCOMMANDS) - {'help'} | {'fibs'}))


def the_page_has_the_subcommands(_program):
    begun = re.findall(r'^\.Nm fibs\n\.Cm (\w+)', page('SYNOPSIS'), re.M)
    same('its synopsis', sorted(begun), SUBCOMMANDS)
    same('its list', sorted(heads(page('DESCRIPTION'))), SUBCOMMANDS)


def help_has_the_options(_program):
    parts = [('fibs', OPTIONS), ('connect', CONNECT_OPTIONS), ('show', SHOW_OPTIONS), ('plays', JSON_OPTIONS),
             ('replay', JSON_OPTIONS), ('loop', ['--help', '-h'])]
    for name, wanted in parts:
        listed = part(text_of('tests/help/%s.txt' % name) + '\n\n\n', '\nOptions:\n', '\n\n\n')
        found = [word for line in listed.splitlines() if re.match(r' {2,6}-', line)
                 for word in re.findall(r'(?<!\S)--?[a-zA-Z-]+', line)]
        same('help of %s' % name, sorted(found), wanted)


def the_page_has_the_options(_program):
    listed = re.findall(r'^\.It Fl (.*)$', page('DESCRIPTION'), re.M)
    found = [word.replace('Fl ', '-') for line in listed for word in re.sub(r' Ar .*', '', line).split(' , Fl ')]
    same('its options', sorted('-' + word for word in found), ALL_OPTIONS)


def bash_completes(_program):
    """What bash completes after some words."""
    asked = {
        ('fibs', ''): SUBCOMMANDS, ('fibs', 're'): ['replay'], ('fibs', '-'): OPTIONS,
        ('fibs', 'help', ''): SUBCOMMANDS,
        ('fibs', 'show', '-'): SHOW_OPTIONS,
        **{('fibs', name, '-'): JSON_OPTIONS for name in ('plays', 'replay')},
        ('fibs', 'loop', '-'): ['--help', '-h'], ('fibs', 'connect', '-'): CONNECT_OPTIONS,
        ('fibs', 'connect', 'fibs'): ['fibs.com'],
        ('fibs', 'connect', 'localhost', ''): ['4321'],
        ('fibs', 'connect', '--password-file', 'secret', 'localhost', ''): ['4321'],
        ('fibs', 'connect', '--log', 'game', 'localhost', ''): ['4321'],
        ('fibs', 'connect', '--password-file', 'typ'): ['typed'], ('fibs', 'connect', 'localhost', '4321', ''): [],
        ('fibs', 'show', 'typ'): ['typed'], ('fibs', 'show', '--json', 'one', 'typ'): ['typed'],
        ('fibs-play', 'fibs'): ['fibs.com'], ('fibs-play', 'localhost', ''): ['4321'],
        ('fibs-play', '-'): ['--help', '--log', '-h'], ('fibs-play', '--log', 'game', 'localhost', ''): ['4321'],
    }
    script = ('source ./fibs.bash; COMP_WORDS=("$@"); COMP_CWORD=$(($# - 1)); "_${1/-/_}"; '
              'printf "%s\\n" "${COMPREPLY[@]}"')
    for words, wanted in asked.items():
        done = run(['bash', '-c', script, 'bash', *words], cwd=ROOT / 'completions')
        same(' '.join(words), (sorted(done.stdout.split()), done.stderr), (wanted, ''))


def zsh_completes(_program):
    text = text_of('completions/_fibs')
    listed = part(text, 'subcommands=(\n', '\n    )')
    same('its subcommands', sorted(re.findall(r"^ *'(\w+):", listed, re.M)), SUBCOMMANDS)
    same('its options', [option for option in ALL_OPTIONS if option not in text], [])
    if shutil.which('zsh'):
        done = run(['zsh', '-n', 'completions/_fibs'], cwd=ROOT)
        same('zsh -n', (done.returncode, done.stderr), (0, ''))


def fish_completes(_program):
    text = text_of('completions/fibs.fish')
    same('its subcommands', sorted(re.findall(r'__fish_use_subcommand -a (\w+)', text)), SUBCOMMANDS)
    same('those of help', sorted(re.search(r"from help' -a '([^']*)'", text)[1].split()), SUBCOMMANDS)
    same('its options', sorted(re.findall(r'^complete -c fibs .*-l ([a-z-]+)', text, re.M)),
         sorted(option[2:] for option in ALL_OPTIONS if option.startswith('--')))
    if shutil.which('fish'):
        with tempfile.TemporaryDirectory() as home:
            done = run(['fish', '--no-config', '-c', 'source completions/fibs.fish; complete -C "fibs "'], cwd=ROOT,
                       env={'HOME': home, 'PATH': '/usr/bin:/bin'})
        same('fish', (sorted(line.split('\t')[0] for line in done.stdout.splitlines()), done.stderr), (SUBCOMMANDS, ''))


# -- lines -----------------------------------------------------------------------------------------------------------

def help_has_the_typed_lines(_program):
    listed = part(text_of('tests/help/connect.txt'), 'each line that is typed is one of\n', '\nThe answer is one of')
    firsts = [line[2:26].strip() for line in listed.splitlines() if re.match(r'  \S', line)]
    spans = [one for first in firsts if first != 'an empty line' for one in first.split(', ')]
    same('help', typed_in(spans + re.findall(r'`([^`]*)`', listed)), PLAIN)


def the_page_has_the_typed_lines(_program):
    spans = [head for head in heads(page('TYPED LINES')) if head]
    same('the page', typed_in(spans), TYPED)
    same('an empty line', re.findall(r'^\.It an empty line$', page('TYPED LINES'), re.M), ['.It an empty line'])


def the_players_page_has_the_typed_lines(_program):
    rows = re.findall(r'^\| (`.*?) \|', part(text_of('docs/PLAYING.md'), '## What you can type', '\n## '), re.M)
    same('docs/PLAYING.md', typed_in(re.findall(r'`([^`]*)`', ' '.join(rows))), TYPED)


def the_program_takes_the_typed_lines(program):
    """Offline each of them is answered, and not by `unknown`; so it is with a name and a text."""
    more = {'move': ['move 8-5 6-5'], 'say': ['say hi'], 'kibitz': ['kibitz hi'], 'whisper': ['whisper hi'],
            'shout': ['shout hi'], 'tell': ['tell bob hi'], 'message': ['message bob hi'],
            'invite': ['invite bob', 'invite bob 5'], 'join': ['join', 'join bob']}
    lines = [line for known in PLAIN for line in more.get(known, [known]) if known not in ('quit', 'open', 'players')]
    typed = ''.join(line + '\n' for line in ['secret', *lines, 'dance', 'players', 'open', 'quit', 'roll'])
    done = run([program, 'connect', '127.0.0.1', '1', 'ann'], input=typed)
    wanted = ['no connection'] + ['refused 2 Offline'] * len(lines) + ['unknown', 'no connection']
    same('the answers', (done.stdout.splitlines(), done.stderr), (wanted, ''))


def the_page_has_the_printed_lines(_program):
    found = [head.split()[0] for head in heads(page('PRINTED LINES'))]
    same('their first words', sorted(set(re.sub(r':.*', ':', word) for word in found)), sorted(PRINTED))
    same('the phases', [name for name in PHASES if '.Li ' + name not in page('PRINTED LINES')], [])
    formats = text_of('docs/FORMATS.md')
    rows = {'the faults': r'`fault NUMBER NAME` \|.*?: (.*?) \|',
            'the directory': r'NAME` \| the directory.*: (.*?) \|'}
    for kind, row in rows.items():
        for one in re.search(row, formats)[1].split(', '):
            same('%s of docs/FORMATS.md' % kind, '.Li %s' % one in page('PRINTED LINES'), True)


def the_refusals_are_the_same(_program):
    formats = re.search(r'`refused NUMBER NAME` \| the client refuses: (.*?) \|', text_of('docs/FORMATS.md'))[1]
    wanted = formats.split(', ')
    same('the page', re.findall(r'^\.It Li (\d+ \w+)$', page('REFUSALS'), re.M), wanted)
    same('its table', re.findall(r'^\| `refused (\d+ \w+)` \|', text_of('docs/FORMATS.md'), re.M), wanted)


def the_statuses_are_the_same(_program):
    formats = re.findall(r'^\| (\d+) \|', part(text_of('docs/FORMATS.md'), '## Statuses of `fibs`', '\n## '), re.M)
    same('the page', re.findall(r'^\.It (\d+)$', page('EXIT STATUS'), re.M), formats)
    same('help', re.findall(r'\d+', text_of('tests/help/fibs.txt').split('Exit status:')[1]), formats)
    same('signals', [one for one in SIGNALS if not re.search(r'\b%s\b' % one, page('EXIT STATUS'))], [])


def bare(text):
    """A part of the man page without its macros."""
    return ' '.join(re.sub(r'^\.\w+ ', '', line) for line in text.splitlines())


def listed_by_formats(kind):
    """The numbers and names that docs/FORMATS.md lists for a kind of line."""
    return re.search(r'^\| `%s` \|[^|]*?: (\d[^|]*?) \|$' % kind, text_of('docs/FORMATS.md'), re.M)[1].split(', ')


def described_by_the_page(section):
    """What a section of the man page says of the lines, refusals or statuses that it lists."""
    for item in re.split(r'^\.It ', page(section), flags=re.M)[1:]:
        head, _, said = item.partition('\n')
        said = bare(re.split(r'^\.El', said, flags=re.M)[0])
        yield [re.sub(r'^(?:Li|Cm) | Ar .*', '', one) for one in head.split(' , ')], head + ' ' + said


def described_by_table(path, head):
    """What a table of a page says: the spans of the first cell of each row, and the whole row."""
    for row in re.findall(r'^\| `.*\|$', part(text_of(path) + '\n## ', head, '\n## '), re.M):
        yield re.findall(r'`([^`]*)`', row.split(' | ')[0]), row


def described_by_help():
    """What the help of connect says of each typed line."""
    listed = part(text_of('tests/help/connect.txt'), 'each line that is typed is one of\n', '\nThe answer is one of')
    for item in re.split(r'\n(?=  \S)', '\n' + listed.strip('\n'))[1:]:
        said = ' '.join(line[26:].strip() for line in item.splitlines())
        yield item[2:26].strip().split(', '), item[2:26] + said


def held(where, rows, known):
    """Each row has the meaning of each line that it is about."""
    for spans, said in rows:
        for span in spans:
            for line, meaning in known.items():
                if span == line or span.startswith(line + ' '):
                    if not re.search(meaning, ' '.join(said.split()), re.I):
                        raise Failed('%s says of %r: %r' % (where, span, said))


def each_typed_line_means_the_same(_program):
    known = {**meanings.TYPED, **meanings.TERMINAL}
    same('lines without a meaning', [line for line in TYPED if line not in known], [])
    held('the page', described_by_the_page('TYPED LINES'), known)
    held('docs/PLAYING.md', described_by_table('docs/PLAYING.md', '## What you can type'), known)
    held('help', described_by_help(), known)


def each_refusal_means_the_same(_program):
    known = {'%d %s' % (number, name): meaning for number, name, meaning in meanings.REFUSALS}
    same('docs/FORMATS.md', listed_by_formats('refused NUMBER NAME'), list(known))
    held('the page', described_by_the_page('REFUSALS'), known)
    rows = described_by_table('docs/FORMATS.md', '## Why a line is refused')
    held('docs/FORMATS.md', [([span.replace('refused ', '') for span in spans], said) for spans, said in rows], known)


def each_fault_has_its_number(_program):
    for kind, table in ('fault NUMBER NAME', meanings.FAULTS), ('directory NUMBER NAME', meanings.DIRECTORY):
        same(kind, listed_by_formats(kind), ['%d %s' % row[:2] for row in table])
    spans = [span for spans, _said in described_by_table('docs/FORMATS.md', '## Why a line is refused') for span in spans]
    same('docs/FORMATS.md', [span for span in spans if span.startswith('fault')],
         ['fault %d %s' % row[:2] for row in meanings.FAULTS])


def each_wrong_line_means_the_same(_program):
    """The tables of docs/FORMATS.md: of wrong fields, of boards without a position, of events that are refused."""
    for head, table in ('## What a line is', meanings.FIELDS), ('## What `fibs plays LINE` prints', meanings.POSITIONS):
        known = {name: meaning for _number, name, meaning in table}
        rows = [([span.replace('position ', '') for span in spans], said)
                for spans, said in described_by_table('docs/FORMATS.md', head)]
        same(head, [span for spans, _said in rows for span in spans if span in known], list(known))
        held(head, rows, known)
    formats = part(text_of('docs/FORMATS.md'), '## Scripts of `fibs replay`', '\n## ')
    rows = re.findall(r'^\| (\d) \| `(\w+)` \| .*? \| (.*) \|$', formats, re.M)
    same('events', sorted(row[:2] for row in rows),
         [(str(number), name) for number, name, _meaning in meanings.EVENTS[1:]])
    held('events', [([name], said) for _number, name, said in rows],
         {name: meaning for _number, name, meaning in meanings.EVENTS})


def the_code_means_the_same(_program):
    for path, name, table in meanings.ENUMS:
        code = text_of('crates/' + path)
        numbers = re.findall(r'^ +%s::(\w+) => (\d+),' % name, code, re.M)
        same(path, [(int(number), one) for one, number in numbers], [row[:2] for row in table])
        cases = part(code, 'enum %s {\n' % name, '\n}')
        comments = re.findall(r'((?:^    ///.*\n)+)    (\w+)(?:\(.*\))?,', cases, re.M)
        same(path, [one for _said, one in comments], [row[1] for row in table])
        held(path, [([one], re.sub(r'^ *///', '', said, flags=re.M)) for said, one in comments],
             {one: meaning for _number, one, meaning in table})
    code = text_of('crates/fibs_engine/src/status.rt')
    same('statuses', [int(number) for number in re.findall(r'Status::\w+ => (\d+),', code)], list(meanings.STATUSES))


def the_header_and_the_package_mean_the_same(_program):
    """Each name, number and description of a status that the crates give."""
    header = {name: (int(number), said) for name, number, said in
              re.findall(r'FIBS_STATUS_(\w+) = (\d+),?(?:[ \n]*/\*(.*?)\*/)?', text_of('include/fibs.h'), re.S)}
    package = {name: (int(number), said) for name, said, number in
               re.findall(r'^class (\w+)\(.*\):\n    """(.*?)"""\n    status = (\d+)',
                          text_of('python/fibs/errors.py'), re.M)}
    page = part(text_of('docs/C.md'), '## Statuses', '\n## ')
    for family, prefix, table in meanings.FAMILIES:
        for number, name, meaning in table:
            upper = re.sub(r'(?<=[a-z])(?=[A-Z])|(?<=A)(?=Number)', '_', prefix + name).upper()
            same(upper, header.get(upper, (0, ''))[0], family + number)
            if header[upper][1].strip():
                held('include/fibs.h', [([name], header[upper][1])], {name: meaning})
            if family + number != 401:  # Python has a MemoryError of its own
                same(name, package.get(prefix + name, (0, ''))[0], family + number)
                held('python/fibs/errors.py', [([name], package[prefix + name][1])], {name: meaning})
        row = re.search(r'^\| %d(?: to|,) .*$' % (family + 1), page, re.M)[0]
        if family:
            same('docs/C.md', re.findall(r'`(\w+)`', row), [name for _number, name, _meaning in table])


def the_words_of_a_terminal_mean_the_same(_program):
    words, _, logins = text_of('crates/fibs_wording/src/reasons.rt').partition('fn login_words')
    for name, table, code in (('Refusal', meanings.REFUSALS, words), ('PlainFault', meanings.FAULTS, words),
                              ('PlainFault', meanings.LOGINS, logins)):
        rows = re.findall(r'^ +%s::(\w+) =>\s+(?:\{\s+)?b"(.*)"' % name, code, re.M)
        same(name, [one for one, _said in rows], [row[1] for row in table])
        held('a terminal', [([one], said) for one, said in rows], {one: meaning for _number, one, meaning in table})


def the_help_of_a_terminal_means_the_same(_program):
    """Each typed line has its entry in `help WORD` of a terminal, by itself or by its first word."""
    code = text_of('crates/fibs_wording/src/help.rt').split('// What is said of two words.', 1)[1]
    rows = []
    for text in re.findall(r'b"((?:[^"\\]|\\.|\\\n)*:(?:[^"\\]|\\.|\\\n)*)"', code):
        text = text.replace('\\n', '\n').replace('\\\n', '')
        heads_of = re.findall(r'(?:^|[.;] )([a-z][^:.;\n]*): ', text, re.M)
        rows.append(([re.sub(r' \(or .*\)', '', one) for head in heads_of for one in head.split(', ')], text))
    spans = [span for found, _said in rows for span in found]
    same('lines without help', [line for line in TYPED if not any(span == line or span.startswith(line + ' ')
                                                                 for span in spans)], [])
    held('help of a terminal', rows, {**meanings.TYPED, **meanings.TERMINAL})


def the_commands_of_the_formats_mean_the_same(_program):
    table = part(text_of('docs/FORMATS.md'), '## Commands to the server', '\n## ')
    rows = [(re.findall(r'`([^`]*)`', text), said) for said, text in re.findall(r'^\| (.*?) \| (.*?) \| ', table, re.M)]
    held('docs/FORMATS.md', [row for row in rows if row[1] != 'the first commands of a connection'], meanings.TYPED)


def each_status_means_the_same(_program):
    known = {str(status): meaning for status, meaning in meanings.STATUSES.items()}
    formats = part(text_of('docs/FORMATS.md') + '\n## ', '## Statuses of `fibs`', '\n## ')
    rows = re.findall(r'^\| (\d+) \| (.*) \|$', formats, re.M)
    same('docs/FORMATS.md', [status for status, _said in rows], list(known))
    held('docs/FORMATS.md', [([status], said) for status, said in rows], known)
    held('the page', described_by_the_page('EXIT STATUS'), known)
    said = ' '.join(text_of('tests/help/fibs.txt').split('Exit status:')[1].split())
    held('help', [([item.split()[0]], item) for item in re.split(r', (?=\d)', said)], known)


def the_picture_of_the_page_is_the_players(_program):
    drawn = part(page('THE PICTURE'), '.Bd -literal\n', '.Ed')
    same('its lines', len(drawn.splitlines()), 13)
    same('in docs/PLAYING.md', drawn in text_of('docs/PLAYING.md'), True)


# -- files -----------------------------------------------------------------------------------------------------------

def the_page_is_clean(_program):
    checks = [['mandoc', '-T', 'lint'], ['groff', '-ww', '-mandoc', '-z']]
    for words in checks:
        if shutil.which(words[0]):
            done = run([*words, 'docs/fibs.1'], cwd=ROOT)
            same(words[0], (done.returncode, done.stdout + done.stderr), (0, ''))


def fibs_play_is_plain_shell(_program):
    for words in ['dash', '-n'], ['bash', '--posix', '-n'], ['shellcheck']:
        if shutil.which(words[0]):
            done = run([*words, 'scripts/fibs-play'], cwd=ROOT)
            same(words[0], (done.returncode, done.stdout + done.stderr), (0, ''))


def fibs_play_tells_its_use(_program):
    for words, status in ([], 2), (['localhost'], 2), (['localhost', '4321'], 2), (['a', 'b', 'c', 'd'], 2), (
            ['-h'], 0), (['--help'], 0):
        done = run([ROOT / 'scripts' / 'fibs-play', *words], stdin=subprocess.DEVNULL)
        said, other = (done.stderr, done.stdout) if status else (done.stdout, done.stderr)
        same(repr(words), (done.returncode, said.splitlines()[:1], other),
             (status, ['usage: fibs-play [--log FILE] [HOST PORT [NAME]]'], ''))


def fibs_play_takes_what_the_settings_say(_program):
    """Where it has no arguments; a word that a shell would spread is one word, and a log may have spaces."""
    with tempfile.TemporaryDirectory() as room:
        config = pathlib.Path(room, 'config')
        for content, words, wanted in (
                ('# server a 1 b\nserver localhost 4321 *\nserver b 2 c\n', [], 'connect localhost 4321 *'),
                ('log my log\r\nserver localhost 4321 ann\r\n', [], 'connect --log my log localhost 4321 ann'),
                ('log my #1 log\nserver localhost 4321 ann\n', [], 'connect --log my #1 log localhost 4321 ann'),
                ('log my log\nserver localhost 4321 ann\n', ['--log', 'other', 'h', '1', 'n'],
                 'connect --log other h 1 n'),
                ('quiet\n', ['h', '1', 'n'], 'connect h 1 n')):
            config.write_text(content)
            done = run([ROOT / 'scripts' / 'fibs-play', *words], stdin=subprocess.DEVNULL, cwd=room,
                       env={**os.environ, 'FIBS': '/bin/echo', 'FIBS_CONFIG': str(config)})
            same(repr(content), (done.returncode, done.stdout.rstrip()), (0, wanted))


def make_installs_them(_program):
    wanted = {
        'bin/fibs-play': 'scripts/fibs-play', 'bin/fibs-mat': 'scripts/fibs-mat',
        **{'share/man/man1/%s.1' % name: 'docs/fibs.1' for name in ('fibs', 'fibs-play', 'fibs-mat')},
        'share/fibs/typed': 'completions/typed',
        'share/fibs/keys.pl': 'scripts/keys.pl', 'share/fibs/inputrc': 'scripts/inputrc',
        'share/fibs/config': 'examples/config', 'share/fibs/match_files.py': 'python/fibs/match_files.py',
        'share/bash-completion/completions/fibs': 'completions/fibs.bash',
        'share/bash-completion/completions/fibs-play': 'completions/fibs.bash',
        'share/zsh/site-functions/_fibs': 'completions/_fibs',
        'share/fish/vendor_completions.d/fibs.fish': 'completions/fibs.fish',
        'share/fish/vendor_completions.d/fibs-play.fish': 'completions/fibs.fish',
    }
    with tempfile.TemporaryDirectory() as room:
        done = run(['make', '-s', 'install-surface', 'PREFIX=' + room], cwd=ROOT)
        same('make', (done.returncode, done.stderr), (0, ''))
        top = pathlib.Path(room)
        # what runs leaves nothing beside it
        same('fibs-mat runs', run([top / 'bin' / 'fibs-mat', '--help']).returncode, 0)
        found = {str(path.relative_to(top)): path.read_text() for path in top.rglob('*') if path.is_file()}
        same('what is installed', found, {path: text_of(source) for path, source in wanted.items()})
        for name in 'fibs-play', 'fibs-mat':
            same('%s runs' % name, bool((top / 'bin' / name).stat().st_mode & 0o111), True)


def fibs_mat_finds_what_makes_the_files(_program):
    """If it lies alone, that of the package that is installed, whose library is not needed. If there is none, it says in
    one line how to get it."""
    with tempfile.TemporaryDirectory() as room:
        alone = shutil.copy(ROOT / 'scripts' / 'fibs-mat', room)
        known = {**os.environ, 'PYTHONPATH': str(ROOT / 'python'), 'FIBS_LIBRARY': '/nowhere/libfibs.so'}
        for words, env, wanted in (([], known, (0, '')), (['-I', '-S'], None, (
                4, 'fibs-mat: the file match_files.py is missing: make install brings it\n'))):
            done = run([sys.executable, '-B', *words, alone, '--help'], env=env)
            same(repr(words), (done.returncode, done.stderr), wanted)


CASES = [
    help_has_the_subcommands, the_page_has_the_subcommands, help_has_the_options, the_page_has_the_options,
    bash_completes, zsh_completes, fish_completes, help_has_the_typed_lines, the_page_has_the_typed_lines,
    the_players_page_has_the_typed_lines, the_page_has_the_printed_lines, the_refusals_are_the_same,
    the_statuses_are_the_same, each_typed_line_means_the_same, each_refusal_means_the_same, each_fault_has_its_number,
    each_wrong_line_means_the_same, the_code_means_the_same, the_header_and_the_package_mean_the_same,
    the_words_of_a_terminal_mean_the_same, the_help_of_a_terminal_means_the_same,
    the_commands_of_the_formats_mean_the_same, each_status_means_the_same,
    the_picture_of_the_page_is_the_players, the_page_is_clean, fibs_play_is_plain_shell, fibs_play_tells_its_use,
    fibs_play_takes_what_the_settings_say, make_installs_them, fibs_mat_finds_what_makes_the_files,
]


def main():
    program = pathlib.Path(sys.argv[1]).resolve() if len(sys.argv) > 1 else None
    return try_all(CASES + ([the_program_takes_the_typed_lines] if program else []), program)


if __name__ == '__main__':
    sys.exit(main())
