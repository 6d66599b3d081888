"""What crates.txt says: the crates, lowest first or not, and what each rests on."""
import functools
import pathlib

TOP = pathlib.Path(__file__).resolve().parent.parent


@functools.cache
def lines():
    """The line of each crate. Behind its name may stand its kind, as `staticlib`."""
    rows = [line.split("#")[0].strip() for line in (TOP / "crates.txt").read_text().splitlines()]
    return {row.partition(":")[0].split()[0]: row for row in rows if row}


def listed():
    """Each crate with what it rests on, the kit's libraries among that."""
    return {name: row.partition(":")[2].split() for name, row in lines().items()}


def needed(crate):
    """A crate with all of the repository that it rests on."""
    found, todo = set(), [crate]
    while todo:
        if (name := todo.pop()) in listed() and name not in found:
            found.add(name)
            todo += listed()[name]
    return found
