#!/usr/bin/env python3
"""Spells this repository's own definitions, lemmas and fields as today's Rattle does: in snake case, with underscores.

usage: tools/respell.py [FOLDER]     once, right after port.py, in the checkout FOLDER (default: that of this file)

A name of specs/ or proofs/ that begins with a small letter and has a dash or a capital in it gets underscores:
`sumOn` is `sum_on`, `and-true` is `and_true`. Where a lemma would fall together with the definition that it is about,
it ends in `_lem`. Types, modules, functions of src/, exported names, strings, inputs and outputs keep their names, and
so does a name in a file that imports it from a library. Must-fail edits and the code spans of the pages turn with the
files.

It also renames specs/Contracts.antt, whose name Rattle now takes, to specs/Clauses.antt, and writes `#![tactic(auto)]`
into each root file. A label that port.py named like a definition gets another name.
"""
import collections
import os
import re
import sys

WORD = r"[^\s(){}.;,@\"«»`]+"
NAME = re.compile(WORD)
DECLARED = re.compile(
    r"^\s*(?:(?:abbrev|unfoldable|pub)\s+)*([a-z][^\s(){}.;,@\"«»:]*)\s*(?:[({].*[)}]\s*)*:\s", re.M
)
USE = re.compile(r"^\s*use (\S+?)\.?(?:\{([^}]*)\})?(?: as \S+)?$", re.M)
GHOST_USE = re.compile(r"^\s*ghost use (\S+?)\.?(?:\{([^}]*)\})?;$", re.M)
# Names that are bound in a proof alone, and so are declared nowhere.
BOUND = (
    "planBuffer placingBuffer no-held in-S never-fall same-free same-volumes same-loads soFar other-rest "
    "other-rest' as-great read-rations a-fits b-fits c-fits"
).split()

# Names that fall together in a file alone, or that don't in a crate.
IN_FILES = {
    "schedules/specs/AsFunctions.antt": {"one_more": "one_more_lem"},
    "line/specs/FieldSteps.antt": {"is_digit": "is_digit_lem"},
    "demands/specs/Outcome.antt": {"held_word": "held_word_lem"},
    "demands/specs/OutcomeLaws.antt": {"held_word": "held_word_lem"},
    "schedules/specs/Rest.antt": {"in-slot": "in_slot"},
    "schedules/specs/RestLaws.antt": {"in-slot": "in_slot"},
}

# Labels that port.py made of a definition's name: the definition keeps it.
LABELS = {
    "listing_after": "listing_bytes",
    "placing_after": "placing_bytes",
    "placing_1_after": "hall_1",
    "placing_2_after": "hall_2",
    "placing_3_after": "hall_3",
    "placing_4_after": "hall_4",
    "out_after": "out_bytes",
    "numbers_after": "numbers_put",
    "seed_after": "seed_drawn",
}


def walk(root, folder, ending):
    for at, folders, files in os.walk(os.path.join(root, folder)):
        folders[:] = sorted(f for f in folders if f not in ("out", "target", ".git"))
        for f in sorted(files):
            if f.endswith(ending):
                yield os.path.join(at, f)


def read(path):
    with open(path, encoding="utf-8") as f:
        return f.read()


def write(path, text, before):
    if text != before:
        with open(path, "w", encoding="utf-8") as f:
            f.write(text)


def is_lemma_file(root, path):
    parts = os.path.relpath(path, root).split(os.sep)
    return parts[2] == "specs" or (parts[2] == "proofs" and len(parts) == 4)


def snake(name):
    return re.sub(r"(?<=[a-z0-9])[A-Z]", lambda m: "_" + m[0].lower(), name).replace("-", "_")


def needs(name):
    return re.search(r"\w-\w", name) or re.search(r"[a-z0-9][A-Z]", name)


def declarations(root):
    declared = set(BOUND)
    for path in walk(root, "crates", ".antt"):
        if is_lemma_file(root, path):
            declared |= set(DECLARED.findall(re.sub(r"(?m)^\s*--.*$", "", read(path))))
    return declared


def beside_libraries(root, own):
    """The names that would fall together with one that the same file imports from a library."""
    met = set()
    for path in list(walk(root, "crates", ".antt")) + list(walk(root, "crates", ".rt")):
        text = read(path)
        library = from_libraries(text, own)
        own_names = {name for name in set(NAME.findall(text)) if needs(name) and name not in library}
        met |= {name for name in own_names if snake(name) in library}
    return met


def names(declared, met):
    """Each name that turns, with what it becomes."""
    groups = collections.defaultdict(list)
    for name in declared:
        groups[snake(name)].append(name)
    table = {}
    for new, olds in groups.items():
        # The definition has the plain name, the lemma about it the longer one. A name that is spelled so already stays.
        definition = [o for o in olds if "-" not in o]
        for old in olds:
            plain = (len(olds) == 1 or old in definition) and old not in met
            table[old] = new if plain else new + "_lem"
    return {o: n for o, n in table.items() if o != n}


def from_libraries(text, own):
    got = set()
    for path, items in USE.findall(text) + GHOST_USE.findall(text):
        crate = re.match(r"Rattle\.(\w+)\.", path + ".")
        if not (crate and crate[1] in own):
            got |= set(re.findall(r"[^\s{},]+", items))
    return got


class WithThoseOfPort(dict):
    """For what port.py leaves alone, the edits and the pages: it has turned names of the files already."""

    def __init__(self, table, declared):
        super().__init__(table)
        self.declared = declared

    def get(self, name, other):
        if name not in self and name[:1].islower() and needs(name) and snake(name) in self.declared:
            return snake(name)
        return super().get(name, other)


def turn_code(text, table, stay):
    return NAME.sub(lambda m: table.get(m[0], m[0]) if m[0] not in stay else m[0], text)


def turn_comment(text, table, stay):
    text = re.sub(r"`[^`\n]*`", lambda m: turn_code(m[0], table, stay), text)
    return re.sub(r"(?<![\w`.-])[a-z]+[A-Z]\w*(?![\w-])", lambda m: table.get(m[0], m[0]), text)


def turn_antt(text, table, own):
    stay = from_libraries(text, own)
    parts = re.split(r"((?<![^\s(){}.;,@\"«»])--(?:[ \t][^\n]*)?(?=\n|$)|\"(?:[^\"\\\n]|\\.)*\")", text)
    return "".join(
        turn_code(p, table, stay) if i % 2 == 0 else p if p.startswith('"') else turn_comment(p, table, stay)
        for i, p in enumerate(parts)
    )


def turn_rt(text, table, own):
    stay = from_libraries(text, own)
    parts = re.split(r"(//[^\n]*|b?\"(?:[^\"\\\n]|\\.)*\")", text)
    return "".join(
        turn_code(p, table, stay) if i % 2 == 0 else turn_comment(p, table, stay) if p.startswith("//") else p
        for i, p in enumerate(parts)
    )


def turn_page(text, table):
    parts = re.split(r"(^```.*?^```$)", text, flags=re.M | re.S)
    return "".join(
        re.sub(r"`[^`\n]+`", lambda m: turn_code(m[0], table, set()), p) if i % 2 == 0 else p
        for i, p in enumerate(parts)
    )


def main():
    root = sys.argv[1] if len(sys.argv) > 1 else os.path.join(os.path.dirname(os.path.realpath(__file__)), "..")
    root = os.path.realpath(root)
    own = sorted(os.listdir(os.path.join(root, "crates")))
    declared = declarations(root)
    table = names(declared, beside_libraries(root, own))
    wide = WithThoseOfPort(table, declared)
    for crate in own:
        path = os.path.join(root, "crates", crate, "specs", "Contracts.antt")
        if os.path.exists(path):
            os.rename(path, os.path.join(os.path.dirname(path), "Clauses.antt"))
            for kind in (".antt", ".rt"):
                for it in walk(root, "crates", kind):
                    before = read(it)
                    text = before.replace(f"Rattle.{crate}.specs.Contracts.", f"Rattle.{crate}.specs.Clauses.")
                    if os.path.relpath(it, root) == os.path.join("crates", crate, "specs", "Lib.antt"):
                        text = re.sub(r"(?m)^pub mod Contracts$", "pub mod Clauses", text)
                    write(it, text, before)
    for path in walk(root, "crates", ".antt"):
        before = read(path)
        of_file = IN_FILES.get(os.path.relpath(path, os.path.join(root, "crates")), {})
        write(path, turn_antt(before, table | of_file, own), before)
    for path in walk(root, "crates", ".rt"):
        before = read(path)
        text = re.sub(r"\bensures (\w+) \{", lambda m: f"ensures {LABELS.get(m[1], m[1])} {{", before)
        write(path, turn_rt(text, table, own), before)
    for path in walk(root, "crates", ".edit"):
        before = read(path)
        text = before.replace("specs/Contracts.antt", "specs/Clauses.antt")
        turned = re.sub(r"(?m)^(old|new): .*$", lambda m: turn_code(m[0], wide, set()), text)
        write(path, turned, before)
    for path in list(walk(root, "docs", ".md")) + [os.path.join(root, "README.md")]:
        before = read(path)
        write(path, turn_page(before, wide), before)
    for crate in own:
        for f in ("lib.rt", "main.rt"):
            path = os.path.join(root, "crates", crate, "src", f)
            if os.path.exists(path):
                before = read(path)
                if "#![tactic" not in before:
                    lines = before.splitlines(keepends=True)
                    at = next((i for i, l in enumerate(lines) if not l.startswith("//")), len(lines))
                    ends = at == len(lines) or lines[at].strip() == ""
                    lines.insert(at, "#![tactic(auto)]\n" + ("" if ends else "\n"))
                    write(path, "".join(lines), before)
    for old, new in sorted(table.items()):
        print(f"{old}\t{new}")
    return 0


if __name__ == "__main__":
    raise SystemExit(main())
