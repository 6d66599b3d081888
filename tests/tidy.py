#!/usr/bin/env python3
"""Nothing in the crates is idle: no name, no import, no dependency; comments name what exists; no line is too long.

Five rules over the .antt and .rt files that git tracks or would track, read as text, with no prover:
- idle names: what an .antt file defines is used outside its own definition, in its file or in one that imports it;
- idle imports: what a `use` or `ghost use` brings is used in its file, or passed on to one that uses it;
- idle dependencies: what crates.txt says a crate rests on is named in some file of the crate;
- lost names: a path `crate::function` in a comment, and each name in backquotes, exists;
- long lines: a line of .antt has at most 200 characters.
A fault is printed as file:line: words. The last line printed is 'N passed, M failed', which counts rules.
"""
import collections
import pathlib
import re
import subprocess
import sys

TOP = pathlib.Path(__file__).resolve().parent.parent
WIDTH = 200

TEXT = r'"(?:\\.|[^"\\])*"'
WORD = r'[^\s(){}.;,@"«»]+'
USE = re.compile(r"^(?:unfoldable )?(pub )?(?:ghost )?use ([^\s{};]+?)(?:(\.|::)\{([^}]*)\}| as (\S+?))?;?$", re.M)
CLAUSE = re.compile(r"\b(?:requires|ensures)\*?(?: \w+)? \{|\bghost \w+(?: =|:) \{")
# The line that begins a definition: marks, a name or several, a colon. A clause has none before its `=`.
MARKS = r"( *)(?:(?:unfoldable|abbrev|pub|axiom) )*"
NAMES = rf"(?!let |\| )({WORD}(?: (?!= ){WORD})*?)(?: \{{[^}}=:]*\}})?"
HEAD = re.compile(rf"^{MARKS}(?:(record|data) ({WORD})|{NAMES} :(?=\s|$))", re.M)
OTHER = re.compile(r" *(?:module|open|infix[lr]?|mutual)\b")

Import = collections.namedtuple("Import", "line public path leaf name")
Definition = collections.namedtuple("Definition", "name kind owner first last")


def line_of(text, at):
    return text.count("\n", 0, at) + 1


def lines_only(text):
    return "\n" * text.count("\n")


def parts(name):
    """The words that a name is written with: `◌when◌` as `when`, any other as it stands."""
    return [part for part in name.split("◌") if part] or [name]


def clauses(code):
    """Where the contracts of a source stand, and its ghost members: from each one's opening brace to the one that closes it."""
    for match in CLAUSE.finditer(code):
        end, depth = match.end(), 1
        while depth:
            depth += {"{": 1, "}": -1}.get(code[end], 0)
            end += 1
        yield match.end(), end - 1


def split(code):
    """A source as its contracts alone and as its code alone, each on its lines."""
    contracts, rest, last = [], [], 0
    for begin, end in clauses(code):
        contracts += [lines_only(code[last:begin]), code[begin:end]]
        rest += [code[last:begin], lines_only(code[begin:end])]
        last = end
    return "".join([*contracts, lines_only(code[last:])]), "".join([*rest, code[last:]])


def imported(match, line):
    public, path, mark, leaves, name = match.groups()
    if leaves is None:
        yield Import(line, public, path, None, name or re.split(r"::|\.", path)[-1])
        return
    for leaf in filter(None, map(str.strip, leaves.split(","))):
        leaf, _, name = leaf.partition(" as ")
        yield Import(line, public, f"{path}::{leaf}" if mark == "::" else path, leaf, name or leaf)


def read(antt):
    """The lines of each name that a text of antt's uses; and what it picks: fields, labels, names behind a path."""
    named, picked = collections.defaultdict(list), set()
    before, line = "", 1
    for match in re.finditer(rf"\n|(\.?)({WORD})(?=(\s+=(?!\S))?)|\S", antt):
        word = match[2]
        if match[0] == "\n":
            line += 1
            continue
        if word and (match[1] or match[3] and before in ("{", ";")):
            picked.add(word)
        elif word:
            for part in {word, *parts(word)}:
                named[part].append(line)
        before = match[0]
    return named, picked


def ends(line, depth, head):
    """Whether a line is no more of a definition that far to the right."""
    indent = len(line) - len(line.lstrip())
    return bool(line.strip()) and (indent < depth or indent == depth and bool(head or OTHER.match(line)))


def defined(lines):
    """Each definition with the lines that are its own; fields and constructors with the type that has them."""
    heads = {n: m for n, line in enumerate(lines, 1) if (m := HEAD.match(line))}
    owner = None
    for n, match in heads.items():
        last = n
        while last < len(lines) and not ends(lines[last], len(match[1]), last + 1 in heads):
            last += 1
        names = (match[3] or match[4]).split()
        if owner and n <= owner.last:
            kind = "field" if owner.kind == "record" else "constructor"
            yield from (Definition(name, kind, owner, n, last) for name in names)
        elif len(names) == 1:
            yield (item := Definition(names[0], match[2], None, n, last))
            owner = item if match[2] else owner


class File:
    """What a file imports, defines and says, without comments and quoted texts. Lines count from 1."""

    def __init__(self, path):
        self.path = path
        self.crate = path.split("/")[1]
        self.module = (self.crate, ".".join(pathlib.PurePath(path).with_suffix("").parts[2:]))
        self.text = (TOP / path).read_text()
        self.is_antt = path.endswith(".antt")
        comment = rf"{TEXT}|(?<!\S){'--' if self.is_antt else '//'}.*"
        self.comments = [(line_of(self.text, m.start()), m[0]) for m in re.finditer(comment, self.text) if m[0][0] != '"']
        code = re.sub(comment, lambda m: '""' if m[0][0] == '"' else "", self.text)
        self.imports = [i for m in USE.finditer(code) for i in imported(m, line_of(code, m.start()))]
        code = USE.sub(lambda m: lines_only(m[0]), code)
        self.antt, self.rust = (code, "") if self.is_antt else split(code)
        self.definitions = list(defined(code.split("\n"))) if self.is_antt else []
        self.named, self.picked = read(HEAD.sub(r"\1:", self.antt) if self.is_antt else self.antt)

    def lines(self, name):
        """The lines on which the file uses a name: as it stands or, of an operator, by its rarest part."""
        return self.named.get(name) or min((self.named.get(part, []) for part in parts(name)), key=len)

    def uses(self, item):
        """Whether the file uses what it imports."""
        if "::" in item.path:
            return re.search(rf"\b{item.name}\b", self.rust) is not None
        return bool(self.lines(item.name))


def module_of(path):
    """The crate and the module that a path of antt's means, if it is one of the repository."""
    match = re.fullmatch(r"Rattle\.(\w+)\.(.+)", path)
    return match and (match[1], match[2])


def reached(files):
    """Every module and name that a file imports and uses."""
    for file in files:
        for item in file.imports:
            module = module_of(item.path)
            if module is None:
                continue
            if item.leaf is None:
                for name in re.findall(rf"(?<![^\s(){{}};,@]){re.escape(item.name)}\.({WORD})", file.antt):
                    yield module, name
            elif item.public or file.uses(item):
                yield module, item.leaf
                above, _, last = module[1].rpartition(".")
                yield (module[0], above), last


def cited():
    """Each name that a document says is proved, with the end of a path that stands on the same line."""
    for document in ("ARCHITECTURE.md", "TRACE.md"):
        for line in (TOP / "docs" / document).read_text().splitlines():
            words = set(re.split(r"[:\s]+", " ".join(re.findall(r"`([^`]+)`", line))))
            yield from ((word, path) for path in words if path.endswith(".antt") for word in words)


def idle_names(files):
    """A theorem may stand alone where a document cites it; the prover itself takes what stands under a goal's name."""
    known, picked, final = set(reached(files)), set().union(*(f.picked for f in files)), set(cited())
    for file in files:
        goals = set(re.findall(r"^(?:abbrev )?pub (\S+) : goal\.", file.antt, re.M))
        for item in file.definitions:
            own = item.owner or item
            module = (file.crate, f"{file.module[1]}.{own.name}") if item.owner else file.module
            # A tactic reads the fields of an invariant, and names none; a field of specs/ is promised, whether a proof names it or not.
            read = file.path.endswith("/Invariants.antt") or item.kind == "field" and "/specs/" in file.path
            here = item.kind != "field" and any(not own.first <= line <= own.last for line in file.lines(item.name))
            picks = item.owner and item.name in picked
            theorem = any(name == item.name and file.path.endswith(f"/{path}") for name, path in final)
            alone = not item.kind and (theorem or item.name in goals)
            if not (read or here or picks or alone or (module, item.name) in known):
                yield file.path, item.first, f"nothing uses `{item.name}`"


def idle_imports(files):
    """What a `pub use` passes on, another crate names behind this crate's name."""
    for file in files:
        others = [path for f in files if f.crate != file.crate for path in [f.text, *(item.path for item in f.imports)]]
        for item in file.imports:
            passed = item.public and any(re.search(rf"\b{file.crate}::{item.name}\b", text) for text in others)
            if not passed and not file.uses(item):
                yield file.path, item.line, f"nothing uses `{item.name}`"


def idle_dependencies(files):
    for n, line in enumerate((TOP / "crates.txt").read_text().splitlines(), 1):
        crate, _, needs = line.split("#")[0].partition(":")
        texts = [path for f in files if f.crate in crate.split()[:1] for path in [f.antt, f.rust, *(i.path for i in f.imports)]]
        for need in needs.split():
            if not any(re.search(rf"\bRattle\.{need}\.|(?<!:)\b{need}::", text) for text in texts):
                yield "crates.txt", n, f"no file of {crate.split()[0]} names {need}"


def exists(path):
    """Whether a path of Rattle's, crate::module::name or crate::name, leads to something."""
    crate, *rest = path.split("::")
    place = TOP / "crates" / crate / "src"
    while len(rest) > 1 and (place / rest[0]).with_suffix(".rt").is_file():
        place /= rest.pop(0)
    sources = [place / "lib.rt", place / "main.rt", place.with_suffix(".rt")]
    text = "".join(source.read_text() for source in sources if source.is_file())
    return all(re.search(rf"\b(?:fn|struct|enum|const|mod) {name}\b|\bpub use \S+::(?:{name}|\{{(?:[^}}]*\W)?{name}\b[^}}]*\}});", text) for name in rest)


def lost_names(files):
    """A name in backquotes is one of a crate, module, definition or function, or a word of its file or its crate's code."""
    items = {f.crate for f in files} | {part for f in files for part in f.module[1].split(".")}
    items |= {d.name for f in files for d in f.definitions}
    items |= {name for f in files for name in re.findall(r"\b(?:fn|struct|enum|const) (\w+)", f.rust)}
    for file in files:
        code = " ".join(f.rust for f in files if f.crate == file.crate)
        known = items | file.named.keys() | file.picked | set(re.findall(r"\w+", code))
        for n, comment in file.comments:
            paths = re.findall(r"\w+(?:::\w+)+", comment)
            quoted = " ".join(re.findall(r"`([^`]+)`", comment))
            words = [word for word in re.findall(WORD, quoted) if re.search(r"\w", word) and "::" not in word]
            for name in [path for path in paths if not exists(path)] + [word for word in words if word not in known]:
                yield file.path, n, f"there is no `{name}`"


def long_lines(files):
    """The formatter keeps a line break before any word, but puts an import on one line; so only a line with a word too long for it cannot be broken."""
    for file in files:
        for n, line in enumerate(file.text.splitlines() if file.is_antt else [], 1):
            if USE.match(line):
                continue
            indent, words = len(line) - len(line.lstrip()), re.findall(rf"{TEXT}|\S+", line)
            if len(line) > WIDTH and indent + max(map(len, words)) <= WIDTH:
                yield file.path, n, f"{len(line)} characters"


def main():
    command = ["git", "ls-files", "-co", "--exclude-standard", "crates"]
    shown = subprocess.run(command, cwd=TOP, capture_output=True, text=True, check=True)
    files = [File(f) for f in shown.stdout.splitlines() if f.endswith((".antt", ".rt")) and (TOP / f).is_file()]
    failed = 0
    rules = (idle_names, idle_imports, idle_dependencies, lost_names, long_lines)
    for rule in rules:
        faults = list(rule(files))
        failed += bool(faults)
        for path, line, words in faults:
            print(f"{path}:{line}: {rule.__name__}: {words}")
    print(f"{len(rules) - failed} passed, {failed} failed")
    return 1 if failed else 0


if __name__ == "__main__":
    sys.exit(main())
