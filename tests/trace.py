#!/usr/bin/env python3
"""Every name in docs/TRACE.md exists: each file, each definition, function or theorem in it, and each wrong edit.

A name stands in backquotes, in one of three forms:
- PATH:NAME, a definition in a file, where a path that begins with a crate's name is meant below crates/;
- PATH, a file;
- CRATE/EDIT, a wrong edit.
Each table row of the trace has at least one such name beyond the paper's words, and none that is spelled like one but
has another form. The last line printed is 'N passed, M failed', which counts names and rows.
"""
import pathlib
import re
import sys

TOP = pathlib.Path(__file__).resolve().parent.parent
TRACE = TOP / "docs" / "TRACE.md"
FILE = r"[\w./-]+\.(?:antt|rt|c|h|py|csv|txt|md|in)|[\w./-]+/(?:stdin|stdout)"

NAME = rf"({FILE})(?::(\S+))?"
EDIT = r"(\w+)/(\w+)"

# How a definition of a name looks in a file of each kind.
DEFINED = {
    ".antt": r"^\s*(?!let )(?:(?:unfoldable|abbrev|pub)\s+)*(?:(?:record|data)\s+NAME\b|(?:[\w-]+ )*NAME(?: [\w-]+)* :(?:\s|$))",
    ".rt": r"\b(?:fn|struct|enum|const) NAME\b",
    ".py": r"^\s*def NAME\(|^NAME = ",
}


def found(path):
    """The file that a path of the trace means, if it is there."""
    return next((p for p in (TOP / "crates" / path, TOP / path) if p.is_file()), None)


def defined(path, name):
    pattern = DEFINED.get(path.suffix, r"\bNAME\b").replace("NAME", re.escape(name))
    return re.search(pattern, path.read_text(), re.M) is not None


def edit_exists(crate, name):
    places = (TOP / "crates" / crate / "must-fail", TOP / "tests" / "edits" / crate, TOP / "tests" / crate / "edits")
    return any((place / f"{name}.edit").is_file() for place in places)


def fault(word):
    """What is wrong with a word in backquotes; nothing, if it is right or no name at all."""
    if match := re.fullmatch(NAME, word):
        path = found(match[1])
        if path is None:
            return f"{word}: there is no such file"
        if match[2] and not defined(path, match[2]):
            return f"{word}: the file does not define it"
    elif match := re.fullmatch(EDIT, word):
        if not edit_exists(match[1], match[2]):
            return f"{word}: there is no such edit"
    return None


def row_fault(row):
    """What is wrong with a table row, if anything."""
    words = re.findall(r"`([^`]+)`", row.split("|", 2)[2])
    names = [word for word in words if re.fullmatch(NAME, word) or re.fullmatch(EDIT, word)]
    strange = [word for word in words if "/" in word and word not in names]
    if strange:
        return f"neither a file, a definition in one nor an edit: {', '.join(strange)}"
    return None if names else f"traced to nothing: {row}"


def main():
    text = TRACE.read_text()
    words = sorted(set(re.findall(r"`([^`\n]+)`", text)))
    rows = [line for line in text.splitlines() if line.startswith("| ") and not line.startswith(("| document 01", "| document 02"))]
    faults = [f for f in [*map(fault, words), *map(row_fault, rows)] if f]
    for line in faults:
        print(line)
    failed = len(faults)
    print(f"{len(words) + len(rows) - failed} passed, {failed} failed")
    return 1 if failed or not rows else 0


if __name__ == "__main__":
    sys.exit(main())
