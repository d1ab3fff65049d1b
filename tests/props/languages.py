"""The table of docs/CLIENT.md beside the four languages: which of its calls a language does not have."""
import re

HEAD = '| What | Rust | JavaScript | Python | C |'


def bodies(text, pattern):
    """What stands within the braces of each type or `impl` that the pattern begins, by its name."""
    found = {}
    for begun in re.finditer(pattern, text):
        depth, at = 1, begun.end()
        while depth and at < len(text):
            depth += {'{': 1, '}': -1}.get(text[at], 0)
            at += 1
        found[begun[1]] = found.get(begun[1], '') + text[begun.end():at]
    return found


class Languages:
    """What each language has."""

    def __init__(self, top):
        def texts(*patterns):
            return '\n'.join(path.read_text() for pattern in patterns for path in sorted(top.glob(pattern)))
        rust = texts('rust/src/*.rs', 'crates/*/src/**/*.rt')
        self.rust, self.of_rust = rust, bodies(rust, r'(?m)^impl(?:<[^>]*>)? (\w+)(?:<[^>]*>)? \{')
        script = texts('js/index.d.ts')
        self.script, self.of_script = script, bodies(script, r'(?m)^export (?:class|interface) (\w+)[^{]*\{')
        python = texts('python/fibs/*.py')
        self.python = python
        self.of_python = {}
        for name, body in re.findall(r'(?ms)^class (\w+)\b.*?:\n(.*?)(?=^\S|\Z)', python):
            self.of_python[name] = self.of_python.get(name, '') + body
        self.header = texts('include/fibs.h')

    def has(self, language, call):
        """Whether a language has a call, as `Type::name`, `Type.name` or `name`."""
        owner, _, name = call.replace('::', '.').rpartition('.')
        if language == 'Rust':
            return bool(re.search(r'pub (?:const )?fn %s\b' % name, self.of_rust.get(owner, '') if owner else self.rust))
        if language == 'JavaScript':
            if owner:
                return bool(re.search(r'(?m)^  (?:get )?%s[(:]' % name, self.of_script.get(owner, '')))
            return bool(re.search(r'(?m)^export function %s\(' % name, self.script))
        if language == 'Python':
            if owner:
                return bool(re.search(r'(?m)^    (?:def )?%s\b' % name, self.of_python.get(owner, '')))
            return bool(re.search(r'(?m)^def %s\(' % name, self.python))
        return bool(re.search(r'\b%s\(' % name, self.header))


def lacking(top):
    """The calls of the table that a language does not have, and what is wrong with the table."""
    page = (top / 'docs' / 'CLIENT.md').read_text()
    if page.count(HEAD) != 1:
        return ['docs/CLIENT.md has no table of the calls in each language']
    known, wrong = Languages(top), []
    languages = HEAD.strip('| ').split(' | ')[1:]
    rows = page[page.index(HEAD):].split('\n\n')[0].splitlines()[2:]
    for row in rows:
        what, *cells = row.strip('| ').split(' | ')
        calls = [re.fullmatch(r'`([\w:.]+)`', cell) for cell in cells]
        if len(cells) != len(languages) or not all(calls):
            wrong.append('docs/CLIENT.md: %s: a call in each language is wanted' % what)
            continue
        wrong += ['docs/CLIENT.md: %s: there is no %s in %s' % (what, call[1], language)
                  for language, call in zip(languages, calls) if not known.has(language, call[1])]
    return wrong if len(rows) > 20 else wrong + ['docs/CLIENT.md: the table is short']
