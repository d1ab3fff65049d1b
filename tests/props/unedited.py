"""Which functions with a clause that others than their crate can call have no edit of their own that must fail.

A method of a public trait, or of a stream, has the clause that its trait states, in each type that has the trait.
"""
import os
import re

from emptied import METHODS, functions_of, modules_of, texts_of

# What is declared public, and for C; the public modules of a file, and what it makes public of others; what only tests
# use; laws, whose bodies are proofs.
PUBLIC = re.compile(r' *pub (?:const |unsafe |extern "C" )*fn ')
OF_C = re.compile(r' *pub (?:unsafe )?extern "C" fn ')
MODULES = re.compile(r'(?m)^pub mod (\w+);')
USED = re.compile(r'(?m)^pub use ([^;]+);')
OF_TESTS = re.compile(r'tests$|^fibs_bench$|^fibs_test_tools$')
LAWS = re.compile(r'(?:^|/)laws(?:\.rt$|/)')

# A public trait with what it states; a method of it, with its clauses; the head of a trait's methods in a type; and the
# methods of a stream that have a clause in Rust's library.
TRAIT = re.compile(r'(?ms)^pub trait (\w+)(.*?)^}')
STATED = re.compile(r'(?ms)^    fn (\w+)((?:(?!^    fn ).)*)')
OF_TYPE = re.compile(r'impl\b[^{]*?\b(\w+)(?:<[^>]*>)? for ')
OF_STREAMS = {'Read': {'read'}, 'Write': {'write', 'flush'}}


def edited(folder, texts, functions):
    """The paths of the functions in which the edits of a crate change something."""
    paths, edits = set(), os.path.join(folder, 'edits')
    for name in sorted(os.listdir(edits)) if os.path.isdir(edits) else []:
        file = None
        with open(os.path.join(edits, name), encoding='utf-8') as it:
            lines = it.read().splitlines()
        for word, _, text in (line.partition(': ') for line in lines):
            if word == 'file':
                file = text
            elif word == 'old':
                at = texts[file].partition(text)[0].count('\n')
                paths.update(one.path for one in functions if one.file == file and one.first <= at <= one.last)
    return paths


def offered(texts):
    """The modules of a crate that others reach, and the names that they have of its other modules."""
    modules, names = {()}, set()
    for file in sorted(texts, key=lambda it: len(modules_of(it))):
        above = tuple(modules_of(file))
        if above in modules:
            modules.update((*above, name) for name in MODULES.findall(texts[file]))
            names.update(name for used in USED.findall(texts[file]) for name in re.findall(r'\w+', used))
    return modules, names


def is_offered(function, modules, names):
    """True if others than its crate can call a public function: it, or the type of which it is a method, is in a module
    that they reach, or they have its name."""
    *above, name = function.path.split('::')
    owner = above.pop() if above and above[-1][0].isupper() else name
    return tuple(above) in modules or owner in names


def stated(crates):
    """The methods that the public traits of these crates state a clause of, by the trait's name."""
    traits = dict(OF_STREAMS)
    for text in (text for texts in crates.values() for text in texts.values()):
        for trait, body in TRAIT.findall(text):
            traits[trait] = {name for name, clauses in STATED.findall(body) if 'ensures' in clauses}
    return traits


def trait_of(function, lines):
    """The trait of which a function is a method in a type, or None."""
    head = next((line for line in reversed(lines[:function.first]) if METHODS.match(line)), '')
    found = function.is_bound and OF_TYPE.match(head)
    return found[1] if found else None


def has_clause(function, lines, reached, traits):
    """True if others than its crate can call a function, by its modules and names or by a trait, and it has a clause."""
    head = lines[function.first:function.opening + 1]
    if function.path.rpartition('::')[2] in traits.get(trait_of(function, lines), ()):
        return True
    is_public = PUBLIC.match(head[0]) and (is_offered(function, *reached) or OF_C.match(head[0]))
    return bool(is_public) and any(line.lstrip().startswith('ensures') for line in head)


def shown(function, trait):
    """The name of a function, with its type's before it if it is a method. Its path has the trait's behind the type's."""
    *above, name = function.path.split('::')
    if not above or not above[-1][0].isupper():
        return name
    return '%s::%s' % (above[-1].rpartition(trait)[0] if trait else above[-1], name)


def unedited(top):
    """Each of them as its crate and its name, which a method's type stands before."""
    found, folder = [], os.path.join(top, 'crates')
    crates = {crate: texts_of(os.path.join(folder, crate)) for crate in sorted(os.listdir(folder))}
    traits = stated(crates)
    for crate, texts in crates.items():
        functions = functions_of(texts)
        known, reached = edited(os.path.join(folder, crate), texts, functions), offered(texts)
        for one in functions:
            if one.path in known or OF_TESTS.search(crate) or LAWS.search(one.file[4:]):
                continue
            if has_clause(one, texts[one.file].splitlines(), reached, traits):
                found.append((crate, shown(one, trait_of(one, texts[one.file].splitlines()))))
    return found
