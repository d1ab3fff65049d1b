#!/usr/bin/env python3
"""Compares include/fibs.h with the library for C: c_header.py ARCHIVE

Each exported function of crates/fibs_c has its declaration, with the same parameters in the same order and types of
the same layout; each record of it and of crates/fibs_c has the same fields in the same order; each enumerator and each
macro has the library's own number; and the archive shows just these functions and those of lib/texts.c.
Prints what differs, and then `N passed, M failed`.
"""

import math
import pathlib
import re
import subprocess
import sys

ROOT = pathlib.Path(__file__).resolve().parent.parent
SOURCES = sorted(path for crate in ('fibs_c',)
                 for path in (ROOT / 'crates' / crate / 'src').rglob('*.rt'))

# The header's names of the records.
RECORDS = {'LinesHandle': 'fibs_lines', 'ClientHandle': 'fibs_client', 'DirectoryHandle': 'fibs_directory',
           'FedLine': 'fibs_fed', 'LineKind': 'fibs_kind', 'ToldLine': 'fibs_line', 'Told': 'fibs_told',
           'BoardRecord': 'fibs_board', 'FieldRecord': 'fibs_field', 'PlayStep': 'fibs_step',
           'DecisionRecord': 'fibs_decision', 'WireRecord': 'fibs_wire', 'OutstandingRecord': 'fibs_outstanding',
           'Heard': 'fibs_heard', 'PartRecord': 'fibs_part', 'PlayerRecord': 'fibs_player', 'EventsHandle': 'fibs_events',
           'NameRecord': 'fibs_name', 'EventRecord': 'fibs_event', 'HappenedRecord': 'fibs_happened',
           'SavedRecord': 'fibs_saved', 'NextRecord': 'fibs_next'}

NUMBERS = {'u8': 'uint8_t', 'u16': 'uint16_t', 'u32': 'uint32_t', 'u64': 'uint64_t', 'i32': 'int32_t',
           'usize': 'size_t', 'bool': 'bool', '*mut u8': 'void *'}

# The header's names of fields that have another name in the library.
FIELDS = {'numbers': 'number', 'rating': 'rating_hundredths'}


def without_comments(text):
    return re.sub(r'/\*.*?\*/', ' ', re.sub(r'//[^\n]*', ' ', text), flags=re.S)


def c_type(rust):
    """The type in C of a number or a record, with [N] after it if it is an array."""
    rust = rust.strip()
    array = re.fullmatch(r'\[(.+); (\d+)\]', rust)
    if array:
        # bytes of a text are chars, two dice are numbers
        return '%s[%s]' % ('char' if array[1] == 'u8' and array[2] != '2' else c_type(array[1]), array[2])
    return NUMBERS.get(rust) or RECORDS[rust]


def c_parameter(rust):
    """The parameters in C of one of the library: a slice is a pointer and a length; the allocator takes no room."""
    rust = rust.strip()
    if rust == 'Global':
        return []
    slice_of = re.fullmatch(r'&(mut )?\[(\w+)\]', rust)
    if slice_of:
        kind = 'char' if slice_of[2] == 'u8' else c_type(slice_of[2])
        return ['%s%s *' % ('' if slice_of[1] else 'const ', kind), 'size_t']
    reference = re.fullmatch(r'&(mut )?(\w+)', rust)
    if reference:
        return ['%s%s *' % ('' if reference[1] else 'const ', c_type(reference[2]))]
    return [c_type(rust)]


def library():
    """The functions, records and statuses of the library, as the header should have them."""
    functions, records, statuses = {}, {}, {}
    for source in SOURCES:
        text = re.sub(r'//[^\n]*', '', source.read_text())
        for name, parameters, answer in re.findall(
                r'no_mangle\)\]\s*pub extern "C" fn (\w+)\(([^)]*)\)(?: -> (\w+))?', text):
            types = [t for one in parameters.split(',') if ':' in one for t in c_parameter(one.split(':', 1)[1])]
            functions[name] = (c_type(answer) if answer else 'void', types)
        for name, body in re.findall(r'#\[repr\(C\)\].*?pub struct (\w+) \{(.*?)\n\}', text, re.S):
            body = re.sub(r'(?m)^.*\bghost\b.*$', '', body)
            fields = re.findall(r'(?:pub )?(\w+): ([^,\n]+|\[[^\]]+\]),', body)
            records[RECORDS[name]] = [(FIELDS.get(field, field), c_type(kind)) for field, kind in fields]
        statuses.update((name, int(number)) for name, number in
                        re.findall(r'pub const (\w+): u32 = (\d+);', text))
    return functions, records, statuses


def normal(kind):
    """A type of the header, as above."""
    kind = re.sub(r'\s+', ' ', kind).replace('* ', '*').strip()
    kind = re.sub(r'\s*\*$', ' *', kind)
    return kind.replace('fibs_status', 'uint32_t')


def declared(one):
    """The names and types of a declaration, such as `uint8_t player[64], opponent[64]`."""
    first, *others = one.split(',')
    match = re.fullmatch(r'\s*(.*?[\s*])(\w+)((?:\[\d+\])?)\s*', first, re.S)
    kind = normal(match[1])
    found = [(match[2], kind + match[3])]
    for other in others:
        match = re.fullmatch(r'\s*(\w+)((?:\[\d+\])?)\s*', other)
        found.append((match[1], kind + match[2]))
    return found


def header():
    """The same for the header."""
    text = without_comments((ROOT / 'include' / 'fibs.h').read_text())
    limits = {name: int(number) for name, number in re.findall(r'#define (FIBS_\w+) (\d+)', text)}
    limits.update(re.findall(r'#define (FIBS_\w+) "(.*?)"', text))
    text = re.sub(r'(?m)^#.*$', '', text)
    functions, records, constants = {}, {}, {}
    for name in re.findall(r'typedef struct \w+_held \*(\w+);', text):
        records[name] = [('at', 'void *')]
    for body, name in re.findall(r'typedef struct \w+ \{(.*?)\} (\w+);', text, re.S):
        records[name] = [field for one in body.split(';') if one.strip() for field in declared(one)]
    texts = re.findall(r'(?m)^const char \*(fibs_\w+)\([^)]*\);', text)
    for answer, name, parameters in re.findall(r'(?m)^(\w+) (fibs_\w+)\(([^)]*)\);', text):
        types = [] if parameters.strip() == 'void' else [declared(one)[0][1] for one in parameters.split(',')]
        functions[name] = (normal(answer), types)
    for body in re.findall(r'\benum \{(.*?)\};', text, re.S):
        number = -1
        for one in body.split(','):
            name, _, given = one.strip().partition('=')
            number = int(given) if given else number + 1
            if name.strip():
                constants[name.strip()] = number
    return functions, records, constants, limits, texts


# Statuses of refusals and faults, by the numbers that the crates give them.
FAMILIES = {'fibs_game/src/refusal.rt': ('Refusal', 0), 'fibs_commands/src/plain.rt': ('PlainFault', 100),
            'fibs_position/src/position_fault.rt': ('PositionFault', 200), 'fibs_fields/src/fault.rt': ('Fault', 300),
            'fibs_messages/src/directory/fault.rt': ('DirectoryFault', 400)}


def screaming(name):
    return re.sub(r'(?<!^)(?=[A-Z])', '_', name).upper()


def family_statuses():
    """The statuses of the crates' own refusals and faults."""
    found = {}
    for path, (kind, base) in FAMILIES.items():
        text = (ROOT / 'crates' / path).read_text()
        for name, number in re.findall(r'\b%s::(\w+) => (\d+),' % kind, text):
            found['FIBS_STATUS_%s%s' % ('FIELD_' if base == 300 else '', screaming(name))] = base + int(number)
            if base == 300:
                found['FIBS_FAULT_' + screaming(name)] = int(number)
    return found


def numbers_of(path, pattern):
    return {screaming(name): int(number) for name, number in
            re.findall(pattern, (ROOT / 'crates' / path).read_text(), re.S)}


# What each number of a board is, by its field (FIBS board style 3).
BOARD = {'LENGTH': 4, 'SCORE': 5, 'OPPONENT_SCORE': 6, 'PLACES': 7, 'TURN': 33, 'DICE': 34, 'OPPONENT_DICE': 36,
         'CUBE': 38, 'MAY_DOUBLE': 39, 'OPPONENT_MAY_DOUBLE': 40, 'WAS_DOUBLED': 41, 'COLOUR': 42, 'DIRECTION': 43,
         'HOME': 44, 'BAR': 45, 'OFF': 46, 'OPPONENT_OFF': 47, 'ON_BAR': 48, 'OPPONENT_ON_BAR': 49, 'CAN_MOVE': 50,
         'FORCED_MOVE': 51, 'DID_CRAWFORD': 52, 'REDOUBLES': 53, 'NUMBERS': 54}


def of_events():
    """The numbers of events, and of what they have."""
    path = 'fibs_c/src/records/events.rt'
    kinds = numbers_of(path, r'Event::(\w+)(?: \{[^}]*\})? => \w+\((\d+)[,)]')
    kinds.update((screaming(name), number) for name, number in re.findall(
        r'ensures \{ IsEvent result \(E\.(\w+) [^\n]*\n\{\n    let mut told = of_side\((\d+),',
        (ROOT / 'crates' / path).read_text()))
    sides = numbers_of(path, r'Side::(\w+) => (\d),')
    worths = numbers_of(path, r'Some\(Stake::(\w+)\) => (\d),')
    return {'EVENT': {'NONE': 0, **{name: int(number) for name, number in kinds.items()}},
            'SIDE': {'NONE': 0, 'PLAYER': sides['OWN'], 'OPPONENT': sides['OTHER']},
            'OFFER': {'NONE': 0, **numbers_of(path, r'Offer::(\w+) => (\d),')},
            'WORTH': {'UNKNOWN': 0, 'SINGLE': worths['NORMAL'], 'GAMMON': worths['GAMMON'],
                      'BACKGAMMON': worths['BACKGAMMON']}}


def enumerators():
    """The enumerators other than statuses, by the numbers in the library's code."""
    found = {'FIBS_FAULT_NONE': 0, 'FIBS_DECISION_NONE': 0, 'FIBS_KIND_TEXT': 0}
    decisions = (ROOT / 'crates/fibs_c/src/records/decisions.rt').read_text()
    kinds = {name: int(number) for number, name in re.findall(r'(\d) => Some\(Decision::(\w+)[,()]', decisions)}
    kinds.pop('Resign')
    kinds.update(('Resign' + name, int(number)) for name, number in re.findall(r'Stake::(\w+) => (\d)', decisions))
    fields = 'fibs_c/src/records/fields.rt'
    families = {
        'PHASE': numbers_of('fibs_c/src/positions.rt', r'Phase::(\w+) => (\d),'),
        'DECISION': {screaming(name): number for name, number in kinds.items()},
        'FIELD': {**numbers_of(fields, r'pub fn (\w+)\([^)]*\) -> FieldPart[^{]*\{[^{]*\{\s*FieldPart::of_\w+\((\d),'),
                  **numbers_of(fields, r'Field::(Text)\(text\) => FieldPart::of_bytes\((\d)')},
        'KIND': numbers_of('fibs_c/src/records/kinds.rt', r'Reading::(Numbered|Board|Malformed)\b.{1,200}?kind: (\d),'),
        'BOARD': {name: field - 4 for name, field in BOARD.items()}}
    families['KIND']['MESSAGE'] = families['KIND'].pop('NUMBERED')
    families.update(of_events())
    boards = (ROOT / 'crates/fibs_c/src/boards.rt').read_text()
    families['OWNER'] = {name.upper(): int(number) for number, name in
                         re.findall(r'(\d) (?:the )?(nobody|player|opponent|both)', boards)}
    for family, numbers in families.items():
        found.update(('FIBS_%s_%s' % (family, name), number) for name, number in numbers.items())
    return found


def names_of_events():
    """The names of events in JSON, by their numbers in the library."""
    numbers = of_events()['EVENT']
    named = dict(re.findall(r'Event::(\w+)(?: \{ \.\. \})? => b"(\w+)"',
                            (ROOT / 'crates/fibs_json/src/happened.rt').read_text()))
    return [name for _, name in sorted((numbers[screaming(variant)], name) for variant, name in named.items())]


def names_in_c():
    """The tables of names in lib/texts.c, and what they should be."""
    text = without_comments((ROOT / 'lib/texts.c').read_text())
    tables = {name: re.findall(r'"(\w*)"', body) for name, body in
              re.findall(r'static const char \*const (\w+)\[\] = \{(.*?)\};', text, re.S)}
    phases = dict(re.findall(r'Phase::(\w+) => "(\w+)"', (ROOT / 'crates/fibs_position/src/phase.rt').read_text()))
    numbers = numbers_of('fibs_c/src/positions.rt', r'Phase::(\w+) => (\d),')
    by_number = {numbers[screaming(variant)]: name for variant, name in phases.items()}
    decisions = (ROOT / 'crates/fibs_c/src/records/decisions.rt').read_text()
    kinds = {0: 'None'}
    kinds.update((int(n), name) for n, name in re.findall(r'(\d) => Some\(Decision::(\w+)[,()]', decisions))
    kinds.update((int(n), 'Resign' + name) for name, n in re.findall(r'Stake::(\w+) => (\d)', decisions))
    return tables, {'phases': [by_number.get(n, '') for n in range(7)], 'decisions': [kinds[n] for n in range(9)],
                    'kinds': ['text', 'message', 'board', 'malformed'], 'events': ['none', *names_of_events()]}


def limits_of():
    """The macros, from the place that the library has them in."""
    def read(path, pattern):
        return int(re.search(pattern, (ROOT / path).read_text())[1].replace('_', ''))
    version = re.search(r'#define FIBS_VERSION "(.*)"', (ROOT / 'include/fibs.h').read_text())[1].split('.')
    names = re.findall(r'=> "(\w+)"', (ROOT / 'crates/fibs_c/src/records/status.rt').read_text())
    return {
        'FIBS_MAX_LINE': read('crates/fibs_lines/src/lib.rt', r'pub const LIMIT: usize = ([\d_]+);'),
        'FIBS_MAX_BOARD': read('crates/fibs_fields/src/boards/print.rt', r'const LINE_LEN: usize = ([\d_]+);'),
        'FIBS_MAX_COMMAND': read('crates/fibs_commands/src/text.rt', r'pub type CommandText = ArrayString<(\d+)>'),
        'FIBS_MAX_WIRE': read('crates/fibs_c/src/records/wire.rt', r'pub bytes: \[u8; (\d+)\]'),
        'FIBS_MAX_NAME': read('crates/fibs_c/src/records/boards.rt', r'pub player: \[u8; (\d+)\]'),
        'FIBS_MAX_STATUS_NAME': max(map(len, names)),
        'FIBS_MAX_STEPS': read('crates/fibs_c/src/records/decisions.rt', r'pub steps: \[PlayStep; (\d+)\]'),
        'FIBS_MAX_PLAYS': math.comb(15 + 4 - 1, 4),
        'FIBS_MAX_NEXT': read('crates/fibs_c/src/turn.rt', r'pub steps: \[PlayStep; (\d+)\]'),
        'FIBS_MAX_EVENTS': read('crates/fibs_events/src/happened.rt', r'const MOST_EVENTS: usize = (\d+);'),
        'FIBS_MAX_PLAYERS': read('crates/fibs_messages/src/directory/directory.rt', r'const MOST_PLAYERS: usize = ([\d_]+);'),
        'FIBS_VERSION': '.'.join(version), 'FIBS_VERSION_MAJOR': int(version[0]),
        'FIBS_VERSION_MINOR': int(version[1]), 'FIBS_VERSION_PATCH': int(version[2])}


class Counts:
    passed = failed = 0

    def same(self, what, wanted, found):
        if wanted == found:
            self.passed += 1
        else:
            self.failed += 1
            print('%s:\n  the library has %s\n  the header has  %s' % (what, wanted, found))


def main():
    functions, records, own = library()
    c_functions, c_records, constants, limits, texts = header()
    counts = Counts()
    for name in sorted(set(functions) | set(c_functions)):
        counts.same(name, functions.get(name), c_functions.get(name))
    for name in sorted(set(records) | set(c_records)):
        counts.same(name, records.get(name), c_records.get(name))
    wanted = {**family_statuses(), **enumerators()}
    wanted.update(('FIBS_STATUS_' + name, number) for name, number in own.items())
    for name in sorted(set(wanted) | set(constants)):
        counts.same(name, wanted.get(name), constants.get(name))
    macros = limits_of()
    for name in sorted(set(macros) | set(limits)):
        counts.same(name, macros.get(name), limits.get(name))
    tables, names = names_in_c()
    for name, table in names.items():
        counts.same('the names of ' + name, table, tables.get(name))
    nm = subprocess.run(['nm', '-g', '--defined-only', sys.argv[1]], capture_output=True, text=True)
    shown = sorted(line.split()[-1] for line in nm.stdout.splitlines() if re.search(r' [A-Z] ', line))
    counts.same('the archive', sorted([*functions, *texts]), shown)
    print('%d passed, %d failed' % (counts.passed, counts.failed))
    return 1 if counts.failed else 0


if __name__ == '__main__':
    sys.exit(main())
