#!/usr/bin/env python3
"""Every file of the repository has its place: a crate that crates.txt lists, or one of the folders below.

`rt ci` refuses a Rattle or antt file that no listed crate has; this test does so for files of every kind. Every
wrong edit begins with words that say what it gets wrong. The last line printed is 'N passed, M failed'.
"""
import pathlib
import re
import subprocess
import sys

import crates

TOP = pathlib.Path(__file__).resolve().parent.parent

# What stands outside the crates, as patterns over paths from the top.
PLACES = [
    r"README\.md",
    r"Makefile",
    r"tools/(prove|spelling\.py)",
    r"crates\.txt",
    r"\.git(ignore|attributes)",
    r"\.ci/run",
    r"docs/[A-Z-]+\.md",
    r"docs/changes/Q-\d\d\.md",
    r"tests/[a-z_]+\.(py|c)",
    r"tests/edits/[a-z_]+/[a-z0-9_]+\.edit",
    r"tests/independent/[a-z_]+\.(c|h|py)",
    r"tests/independent/edits/[a-z0-9_]+\.edit",
    r"bench/[a-z]+\.(c|h|py)",
    r"include/vekszalir\.(h|pc\.in)",
    r"examples/(host\.(c|txt)|slow_line\.c|dump\.c|(basket|boxes)\.csv)",
]

# What a crate may hold.
PARTS = r"(src/.+\.rt|specs/.+\.antt|proofs/.+\.antt|must-fail/[a-z0-9_]+\.edit|stdin|stdout|args|data/.+)"


def stray(files):
    names = "|".join(sorted(map(re.escape, crates.listed())))
    allowed = re.compile("|".join([rf"crates/({names})/{PARTS}", *PLACES]))
    return [f"stray file: {f}" for f in files if not allowed.fullmatch(f)]


def unlisted(_):
    folders = {p.name for p in (TOP / "crates").iterdir() if p.is_dir()}
    return [f"crates/{name} is not listed in crates.txt" for name in sorted(folders - set(crates.listed()))]


def wordless(files):
    edits = [f for f in files if f.endswith(".edit")]
    return [f"{f} does not say what it gets wrong" for f in edits if not re.match(r"(?![a-z-]+: )\S+ \S", (TOP / f).read_text())]


def main():
    shown = subprocess.run(["git", "ls-files", "-co", "--exclude-standard"], cwd=TOP, capture_output=True, text=True, check=True)
    files = [f for f in shown.stdout.splitlines() if (TOP / f).exists()]
    failed = 0
    for test in (stray, unlisted, wordless):
        faults = test(files)
        failed += bool(faults)
        for fault in faults:
            print(fault)
    print(f"{3 - failed} passed, {failed} failed")
    return 1 if failed else 0


if __name__ == "__main__":
    sys.exit(main())
