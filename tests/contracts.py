"""The public contracts of the crates, and those that docs/ARCHITECTURE.md excuses from having two refuted facts."""
import functools
import pathlib
import re

import functions

TOP = pathlib.Path(__file__).resolve().parent.parent
SECTION = "### What would notice a statement gone weak"


LAWFUL = re.compile(r"impl.* for .*\{\s+ghost ")


def in_file(path):
    """The public functions of one file that ensure something, by their full names. A trait's functions for a type are public too, and the type
    says in ghost lines before them what they ensure."""
    lawful = False
    for name, text in functions.pieces(path):
        if not text.startswith(" "):
            lawful = bool(LAWFUL.match(text))
        ensures = functions.PUBLIC.match(text) and re.search(r"\bensures\b", text[:functions.body_at(text)])
        if name and (lawful or ensures):
            yield name


@functools.cache
def public():
    """Every public function with a contract, as `crate::module::function`. Of a program none is: nothing else can call it."""
    libraries = [path.parent for path in sorted(TOP.glob("crates/*/src/lib.rt"))]
    return [name for folder in libraries for path in sorted(folder.glob("**/*.rt")) for name in in_file(path)]


def excused():
    """The contracts that the document excuses, each with its reason."""
    text = (TOP / "docs" / "ARCHITECTURE.md").read_text()
    section = re.split(r"^#+ ", text.split(SECTION, 1)[1], maxsplit=1, flags=re.M)[0]
    rows = [line.split("|") for line in section.splitlines() if line.startswith("| `")]
    return {name: row[2].strip() for row in rows for name in re.findall(r"`(\w+(?:::\w+)+)`", row[1])}


def judge(name, refuted, reason):
    """Whether a contract has two refuted facts, or an excuse in their place, and words, if any."""
    if refuted < 2:
        return reason is not None, f"{name}: refuted facts against it: {refuted}; " + (reason or "AND NO WORD WHY")
    if reason is not None:
        return False, f"{name}: AN EXCUSE THAT IS NOT NEEDED, refuted facts against it: {refuted}"
    return True, ""
