#!/usr/bin/env python3
"""Brings the names of definitions and lemmas to the kit's spelling; run once, after port.py, at the top of the repository.

A name is in snake case: `writeRoot` becomes `write_root`, `same-answer` becomes `same_answer`. A dash stays only where it joins the
name of a definition to one of the library's, as in `occ-append`. What begins with a capital letter, functions of src/, the answers in a function's own Proof.antt and the
names of the library stay. In comments a name is turned where it stands in backquotes.

Usage: tools/spelling.py [--show]    --show prints the names and turns nothing
"""
import collections
import pathlib
import re
import sys

TOP = pathlib.Path(__file__).resolve().parent.parent
WORD = r"[^\s(){}\[\].;,@\"«»:=|]+"
SIGNATURE = re.compile(rf"^(\s*)((?:(?:unfoldable|abbrev|pub|mutual) )*)((?:{WORD})(?: {WORD})*?)(?: \{{[^}}]*\}})*\s+:(?:\s|$)")
NO_NAMES = {"record", "data", "module", "where", "let", "in", "use", "pub", "abbrev", "elim"}
IMPORT = re.compile(r"^(?:unfoldable )?(?:pub )?(?:ghost )?use ([^\s{};]+?)(?:\.\{([^}]*)\})?;?$", re.M)
TOKEN = re.compile(r"(?<![\w'\-⁺₀-₉])\.?[A-Za-z_][\w'₀-₉\-⁺]*")
# What lemmas are named after beside the repository's own definitions.
LIBRARY = set("append take drop set sets length map replicate get_or".split())
ANSWERS = "Proof.antt"


def files(*patterns):
    found = [p for pattern in patterns for p in TOP.glob(pattern)]
    return sorted(p for p in found if "out" not in p.relative_to(TOP).parts)


def snake(name):
    name = re.sub(r"(?<=[a-z0-9])([A-Z])", r"_\1", name)
    return re.sub(r"[A-Z]", lambda m: m.group().lower(), name)


def declared():
    """The names that specs/ and proofs/ declare, with the files."""
    names = collections.defaultdict(set)
    for path in files("crates/*/specs/**/*.antt", "crates/*/proofs/**/*.antt"):
        if path.name == ANSWERS:
            continue
        text = path.read_text()
        for name in re.findall(r" as ([a-z][\w']*)[,}]", text):
            names[name].add(path)
        for line in text.splitlines():
            if line.lstrip().startswith(("--", "let ", "use ", "pub use ", "|")):
                continue
            found = SIGNATURE.match(line)
            for name in found.group(3).split() if found else ():
                if name not in NO_NAMES and re.fullmatch(r"[a-z][\w'₀-₉\-]*", name):
                    names[name].add(path)
    return names


def foreign():
    """The names that are imported from the library."""
    names = set()
    for path in files("crates/**/*.antt", "crates/**/*.rt"):
        for module, items in IMPORT.findall(path.read_text()):
            own = re.match(r"Rattle\.(\w+)\.", module)
            if not own or not (TOP / "crates" / own.group(1)).is_dir():
                names |= {item.strip() for item in items.split(",")}
    return names


def joined(name, definitions):
    """Dashes where they join the names of definitions, one of the library's among them, and nothing else; low lines elsewhere."""
    words = name.split("-")

    def parts(rest):
        if not rest:
            return []
        for i in range(1, len(rest) + 1):
            behind = parts(rest[i:]) if "_".join(rest[:i]) in definitions else None
            if behind is not None:
                return ["_".join(rest[:i]), *behind]
        return None

    found = parts(words)
    return "-".join(found) if found and len(found) > 1 and LIBRARY & set(found) else "_".join(words)


def turned():
    """Old names to new ones. Where two fall together, the definition takes the name, and the lemma `_lem` behind it."""
    names = declared()
    library = foreign()
    rules = "/rules/specs/"
    definitions = LIBRARY | {snake(n) for n, places in names.items() if "-" not in n and any(rules in str(p) for p in places)}
    turn = {n: joined(snake(n), definitions) for n in names if n not in library}
    turn = {n: new for n, new in turn.items() if n != new}
    for new, olds in together(turn, names).items():
        first = min(olds, key=lambda n: ("-" in n, n == new, n))
        for old in olds:
            turn[old] = new if old == first else f"{new}_lem"
    return turn


def together(turn, names):
    """The new names that several names would have."""
    olds = collections.defaultdict(set)
    for old, new in turn.items():
        olds[new].add(old)
    return {new: old | ({new} & set(names)) for new, old in olds.items() if len(old | ({new} & set(names))) > 1}


def in_text(text, turn):
    def put(found):
        word = found.group()
        dot = word.startswith(".")
        new = turn.get(word[dot:])
        return word if new is None else word[:dot] + new

    return TOKEN.sub(put, text)


def in_line(line, mark, turn):
    """One line of code; of a comment only what stands in backquotes."""
    at = line.find(mark)
    if at < 0 or (at > 0 and line[at - 1] not in " "):
        return in_text(line, turn)
    code, comment = line[:at], line[at:]
    return in_text(code, turn) + re.sub(r"`[^`]*`", lambda m: in_text(m.group(), turn), comment)


def main():
    turn = turned()
    if "--show" in sys.argv:
        for name, new in sorted(turn.items()):
            print(name, new)
        return
    for path in files("crates/**/*.antt", "crates/**/*.rt"):
        mark = "--" if path.suffix == ".antt" else "//"
        text = path.read_text()
        new = "\n".join(in_line(line, mark, turn) for line in text.split("\n"))
        if new != text:
            path.write_text(new)


main()
