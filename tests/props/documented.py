"""Which public items of a library have a doc comment that is a sentence, and which have none."""
import re

# An item that is public; what it makes public of others; a module of it; a method of a type or a trait.
ITEM = re.compile(r'^pub (?:(?:const|unsafe) )*(?:extern "C" )?(fn|struct|enum|trait|const|static|type) (\w+)')
USED = re.compile(r'(?m)^pub use ([\w:]+)::(\{[^}]*\}|\w+)(?: as (\w+))?;')
MODULE = re.compile(r'(?m)^pub mod (\w+);')
METHOD = re.compile(r'    (pub )?(?:(?:const|unsafe) )*fn (\w+)')
ATTRIBUTE = re.compile(r' *#\[[^\n]*\]$')

# The first paragraph of a comment as a sentence: it begins as one, and it ends as one, or with a list to come.
SENTENCE = re.compile(r'[A-Z`0-9].*[.:?]', re.S)


def comment_over(lines, at):
    """The first paragraph of the doc comment over a line, in one line; empty if there is none."""
    said = []
    for line in reversed(lines[:at]):
        if line.lstrip().startswith('///'):
            said.append(line.lstrip()[3:].strip())
        elif not ATTRIBUTE.match(line):
            break
    return ' '.join('\n'.join(reversed(said)).partition('\n\n')[0].split())


def body(lines, at):
    """The numbers of the lines between a line and the brace that ends what begins there."""
    end = next((number for number in range(at, len(lines)) if lines[number].startswith('}')), at)
    return range(at + 1, end)


class Sources:
    """The crates of a tree, each file as its lines."""

    def __init__(self, top):
        self.crates, self.read = top / 'crates', {}

    def lines(self, file):
        if file not in self.read:
            self.read[file] = file.read_text().splitlines()
        return self.read[file]

    def module(self, file, name):
        """The file of a module of a file, which may be one that it makes public of others."""
        below = (file.parent if file.name == 'lib.rt' else file.with_suffix('')) / (name + '.rt')
        if below.exists():
            return below
        for path, names, _ in USED.findall('\n'.join(self.lines(file))):
            if name in re.findall(r'\w+', names):
                return self.module(self.led_to(file, path.split('::')), name)
        raise LookupError('%s has no module %s' % (file, name))

    def led_to(self, file, path):
        """The file of the module to which a path leads from a file."""
        first, *rest = path
        if first == 'crate' or (self.crates / first).is_dir():
            crate = file.relative_to(self.crates).parts[0] if first == 'crate' else first
            file = self.crates / crate / 'src' / 'lib.rt'
        else:
            file = self.module(file, first)
        for name in rest:
            file = self.module(file, name)
        return file

    def items(self, file):
        """Each public item that others reach by a module: its name, its kind, its file and its line."""
        lines = self.lines(file)
        for at, line in enumerate(lines):
            found = ITEM.match(line)
            if found:
                yield found[2], found[1], file, at
        text = '\n'.join(lines)
        for name in MODULE.findall(text):
            yield from self.items(self.module(file, name))
        for path, names, other in USED.findall(text):
            there = self.led_to(file, path.split('::'))
            known = {item[0]: item for item in self.items(there)}
            for name in re.findall(r'\w+', names):
                if name in known:
                    yield (other or name, *known[name][1:])
                else:
                    yield from self.items(self.module(there, name))

    def methods(self, name, kind, file, at):
        """The public methods of a type, wherever its crate has them, or those of a trait."""
        if kind == 'trait':
            blocks = [(file, at)]
        else:
            own = ITEM.match(self.lines(file)[at])[2]
            head = re.compile(r'impl(?:<[^>]*>)? %s\b(?!.* for )' % own)
            top = self.crates / file.relative_to(self.crates).parts[0] / 'src'
            blocks = [(other, number) for other in sorted(top.rglob('*.rt'))
                      for number, line in enumerate(self.lines(other)) if head.match(line)]
        for other, number in blocks:
            for inner in body(self.lines(other), number):
                found = METHOD.match(self.lines(other)[inner])
                if found and (found[1] or kind == 'trait'):
                    yield '%s::%s' % (name, found[2]), 'fn', other, inner


def documented(top, libraries):
    """Each public item of these libraries, once: where it is, its name, and why its doc comment is no sentence."""
    sources, known = Sources(top), {}
    for item in (item for name in libraries for item in sources.items(top / 'crates' / name / 'src' / 'lib.rt')):
        for name, _, file, at in (item, *sources.methods(*item)):
            said = comment_over(sources.lines(file), at)
            why = not SENTENCE.fullmatch(said) and ('has %r for a sentence' % said if said else 'has no doc comment')
            known[file, at] = ('%s:%d' % (file.relative_to(top), at + 1), name, why)
    return [known[key] for key in sorted(known)]
