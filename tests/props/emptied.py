"""The functions of a crate's text, and copies of a crate in which only some of them still have their bodies.

The prover judges a function by its own contract and by the contracts of those that it calls. So what it says of a
function stays the same if others lose their bodies: such a body is `unreachable!()`, and its proof a hole. It says the
same too of a copy of a function, under another name, which nothing calls.
"""
import os
import re
import shutil

# A function's head, with what may stand before it; the head of a block of methods; that of a type.
HEAD = re.compile(r'( *)(?:pub(?:\([a-z]+\))? )?(?P<is>(?:const |unsafe |extern "C" )*)fn (\w+)')
METHODS = re.compile(r"(?:impl|trait)\b(?:<[^{]*?>)? *([^{]*)")
TYPE = re.compile(r"(?m)^(?:pub(?:\([a-z]+\))? )?(?:struct|enum) (\w+)")
EMPTY = "unreachable!()"
# What is written of a proof, beside lemmas: what the prover asks for, or all of it.
ANSWERED = ("Answers.antt", "Invariants.antt")
WRITTEN = (*ANSWERED, "Proof.antt")
# The file of the one hole on which the proofs of functions without bodies rest.
HOLE = "OfEmptied"


class Function:
    """A function: its path below the crate, its file, and the lines on which its attributes, its head, its body begin,
    and on which it ends."""

    def __init__(self, path, file, begin, first, opening, last):
        self.path = path
        self.file = file
        self.begin = begin
        self.first = first
        self.opening = opening
        self.last = last
        # what is computed at compile time, and what has one proof with others, stays whole
        self.may_be_emptied = True
        # a trait has no room for a method more, nor a proof of several functions for another one
        self.is_bound = False


def modules_of(file):
    """The modules that lead to a file."""
    return [it for it in file.removeprefix("src/").removesuffix(".rt").split("/") if it not in ("lib", "main")]


def types_of(texts):
    """Each type of a crate, with the modules that lead to it: the prover names a method by where its type stands."""
    return {name: modules_of(file) for file, text in texts.items() for name in TYPE.findall(text)}


def owner_of(line, file, types):
    """The path of what a block of methods is of, with its trait's name behind it. The prover names a method of a trait by
    where the block stands."""
    trait, _, of = METHODS.match(line)[1].rpartition(" for ")
    of = re.match(r"(?:\w+::)*(\w+)", of)
    if not of:
        return None
    words = re.findall(r"(?<!')\b\w+\b(?!::)", trait)
    modules = modules_of(file) if trait else types.get(of[1], modules_of(file))
    return [*modules, of[1] + "".join(it for it in words if len(it) > 1)]


def opening_of(lines, first, indent):
    """The line of the brace that opens a body, or None if there is none."""
    for at in range(first, len(lines)):
        line = lines[at]
        if line == f"{indent}{{":
            return at
        if at == first or line.startswith(f"{indent})"):
            if line.endswith("{"):
                return at
            if line.endswith((";", "}")):
                return None
        elif line and not line.startswith((f"{indent} ", f"{indent}where")):
            return None
    return None


def functions_in(file, text, types):
    """The functions of a file that have a body."""
    lines, found, owner, is_of_trait, at = text.splitlines(), [], None, False, 0
    while at < len(lines):
        line, first = lines[at], at
        at += 1
        if METHODS.match(line):
            owner = owner_of(line, file, types)
            is_of_trait = line.startswith("trait") or " for " in line
        head = HEAD.match(line)
        if not head or (head[1] and not owner):
            continue
        opening = opening_of(lines, first, head[1])
        last = opening and next((it for it in range(opening, len(lines)) if lines[it] == f"{head[1]}}}"), None)
        if last:
            path = "::".join([*(owner if head[1] else modules_of(file)), head[3]])
            begin = next(it for it in range(first, -1, -1) if it == 0 or not lines[it - 1].startswith(f"{head[1]}#["))
            function = Function(path, file, begin, first, opening, last)
            is_shared = any("#[cycle(" in it for it in lines[begin:first])
            function.may_be_emptied = "const" not in head["is"] and not is_shared
            function.is_bound = is_shared or bool(head[1]) and is_of_trait
            found.append(function)
            at = last + 1
    return found


def functions_of(texts):
    """All functions of a crate, from the texts of its files."""
    types = types_of(texts)
    return [it for file, text in texts.items() for it in functions_in(file, text, types)]


def texts_of(folder):
    """The text of each file of a crate's code."""
    texts = {}
    for at, folders, names in os.walk(f"{folder}/src"):
        folders.sort()
        for name in sorted(names):
            if name.endswith(".rt"):
                with open(f"{at}/{name}", encoding="utf-8") as it:
                    texts[os.path.relpath(f"{at}/{name}", folder)] = it.read()
    return texts


def emptied(texts, kept):
    """The texts in which all functions but these have no body, and the paths of those that lost it."""
    made, lost = {}, []
    types = types_of(texts)
    for file, text in texts.items():
        lines = text.split("\n")
        for function in reversed(functions_in(file, text, types)):
            if function.may_be_emptied and function.path not in kept:
                indent = re.match(" *", lines[function.first])[0]
                lines[function.opening + 1 : function.last] = [f"{indent}    {EMPTY}"]
                lost.append(function.path)
        made[file] = "\n".join(lines)
    return made, lost


def with_copy(texts, path, copy, edited):
    """The text with a copy of a function behind it, at another path, as the function stands in edited texts; with the
    text's file."""
    it = next(it for it in functions_of(edited) if it.path == path)
    added = edited[it.file].split("\n")[it.begin : it.last + 1]
    head = it.first - it.begin
    added[head] = re.sub(r"\bfn \w+", f"fn {copy.rpartition('::')[2]}", added[head], count=1)
    it = next(it for it in functions_of(texts) if it.path == path)
    lines = texts[it.file].split("\n")
    lines[it.last + 1 : it.last + 1] = ["", *added]
    return {it.file: "\n".join(lines)}


def copy_proof(folder, path, copy):
    """Writes what was written of a function's proof for a copy of it too."""
    old, new = (f"{folder}/proofs/{it.replace('::', '/')}" for it in (path, copy))
    if not os.path.isdir(old):
        return
    shutil.copytree(old, new)
    # (a name that is a word of antt's stands in marks)
    named = re.compile(r"\.".join(["proofs", *(f"«?{re.escape(it)}»?" for it in path.split("::")), ""]))
    renamed = f"proofs.{copy.replace('::', '.')}."
    for written in os.listdir(new):
        with open(f"{new}/{written}", encoding="utf-8") as it:
            text = it.read()
        with open(f"{new}/{written}", "w", encoding="utf-8") as it:
            it.write(named.sub(renamed, text))


def may_be_copied(function, folder):
    """True if a copy of a function of the crate in this folder can be proved as it is: by what the prover makes of it,
    and answers and invariants. A proof by hand names more that is the function's own."""
    *above, name = function.path.split("::")
    place = "/".join([folder, "proofs", *above])
    if function.is_bound or os.path.isdir(f"{place}/+{name}"):
        return False
    return not os.path.isdir(f"{place}/{name}") or {*os.listdir(f"{place}/{name}")} <= {*ANSWERED}


def write_holes(folder, crate, lost):
    """Writes proofs of these functions of a copy of a crate, which rest on one hole: of each the prover prints what it
    has to show, which takes as long as many a proof."""
    if not lost:
        return
    os.makedirs(f"{folder}/proofs", exist_ok=True)
    with open(f"{folder}/proofs/{HOLE}.antt", "w", encoding="utf-8") as it:
        it.write("pub hole {ℓ} : {A : Type ℓ} → A\nhole = ?\n")
    with open(f"{folder}/proofs/Lib.antt", "a", encoding="utf-8") as it:
        it.write(f"\npub mod {HOLE}\n")
    for path in lost:
        *above, name = path.split("::")
        place = "/".join(["proofs", *above])
        # a function that calls itself has the proof of a cycle
        shutil.rmtree(f"{folder}/{place}/+{name}", ignore_errors=True)
        os.makedirs(f"{folder}/{place}/{name}", exist_ok=True)
        for written in WRITTEN:
            if os.path.exists(f"{folder}/{place}/{name}/{written}"):
                os.remove(f"{folder}/{place}/{name}/{written}")
        module = ".".join(["Rattle", crate, "proofs", *above, name, "Statement"])
        with open(f"{folder}/{place}/{name}/Proof.antt", "w", encoding="utf-8") as it:
            it.write(f"use {module}.{{statement}}\nuse Rattle.{crate}.proofs.{HOLE}.{{hole}}\n\n")
            it.write(f"pub {name}_spec : {{M : Type 1}} → statement M\n{name}_spec = hole\n")
