"""The functions of the crates' sources: in which of them a line stands, which of its crate one rests on, and where its proof stands."""
import functools
import pathlib
import re

CRATES = pathlib.Path(__file__).resolve().parent.parent / "crates"
# What a piece of a source file begins with: a function, a type's functions, or something that is none. A trait's functions for a type have
# the names of both before their own: the type's with a capital, and the trait's with that of the type that it is given.
PIECE = re.compile(
    r'^(?:impl(?:<.*?>)? (?:(\w+)(?:<(.*?)>)? for )?(\w+)(?:<.*?>)? (?:where .*)?\{'
    r'|( *)(?:pub(?:\(\w+\))? )?(?:const )?(?:extern "C" )?fn (\w+)'
    r"|(?:pub )?(?:ghost )?(?:const|struct|enum|trait|type|use|mod) )", re.M)
PUBLIC = re.compile(r" *pub (?!\()")
CLAUSE = re.compile(r"\b(?:requires|ensures|ghost)\b[^{}]*$")
CYCLE = re.compile(r"^ *#\[cycle\((\w+)\)\]\n(?: *#\[.*\]\n)*.*\bfn (\w+)", re.M)


def prefix_of(path):
    """What the names of a file's functions begin with."""
    crate, _, *modules = path.relative_to(CRATES).with_suffix("").parts
    return "::".join([crate, *(m for m in modules if m not in ("lib", "main", "mod")), ""])


def pieces(path):
    """The pieces of a source file, each with the full name of its function, or None."""
    text, type_name = path.read_text(), ""
    matches = list(PIECE.finditer(text))
    for match, end in zip(matches, [*(m.start() for m in matches[1:]), len(text)]):
        trait, given, own, indent, name = match.groups()
        if own:
            type_name = f"{own[0].upper()}{own[1:]}{trait}{given or ''}::" if trait else f"{own}::"
        yield name and prefix_of(path) + (type_name if indent else "") + name, text[match.start():end]


def closing(text, at):
    """Where the brace closes that opens there."""
    depth = 0
    for brace in re.compile(r"[{}]").finditer(text, at):
        depth += 1 if brace[0] == "{" else -1
        if depth == 0:
            return brace.start()
    raise ValueError(f"no end of {text[at:at + 60]!r}")


def body_at(text):
    """Where the body of a function opens: at the first brace that opens no clause. A trait's function may have none."""
    end = 0
    while (at := text.find("{", end)) >= 0 and CLAUSE.search(text, end, at):
        end = closing(text, at) + 1
    return at if at >= 0 else len(text)


def function_at(path, line):
    """The function in which a line stands, or None where it stands in none."""
    return next((name for name, text in pieces(path) if line in text), None) if path.suffix == ".rt" else None


@functools.cache
def called_in(crate):
    """The words that each function of a crate calls, or seems to."""
    sources = sorted((CRATES / crate / "src").rglob("*.rt"))
    return {name: set(re.findall(r"\b(\w+)\(", text[body_at(text):])) for path in sources for name, text in pieces(path) if name}


@functools.cache
def rests_on(crate, function):
    """The functions of a crate that one calls, by itself or through others; by their last names, so that they may be too many."""
    words = called_in(crate)
    reached, new = set(), {function}
    while new:
        called = set().union(*(words[name] for name in new))
        reached |= new
        new = {name for name in words if name.rpartition("::")[2] in called} - reached
    return reached - {function}


@functools.cache
def cycles(crate):
    """The cycle of calls, by its name, that each function's attribute says it is in."""
    sources = sorted((CRATES / crate / "src").rglob("*.rt"))
    return {prefix_of(path) + name: cycle for path in sources for cycle, name in CYCLE.findall(path.read_text())}


def proof_folders(function):
    """The folders, from the crate's on, where the proof of a function may stand. Functions that call one another have one, with a `+` before its
    name; so has one that calls itself."""
    crate, *modules, name = function.split("::")
    cycle = cycles(crate).get(function, name)
    return ["/".join(["proofs", *modules, last]) for last in (name, f"+{cycle}")]
