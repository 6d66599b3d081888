"""The names of goals and facts, which a proof cites, where an edit of the code has changed them.

They are made of the code's own words: behind `if byte == 10` a goal is named `returns-then-byte-eq10`, and the proof may cite `c.if-byte-eq10.true`;
that `slots[i]` is within bounds is `bounds-slots-i`. With 13 for 10, or c for i, the same goal has another name, and a proof that cites the old one
would be refused for that alone. So the proof is given the new name, and shows whether it holds of the wrong code. Only conditions and operands are
exchanged, and only for what the check says is there now; calls and branches keep their names, so that code of another shape is still refused for
its shape.
"""
import difflib
import re

NAME = r"[\w'+-]+"
MISSING = re.compile(rf"has no (?:field )?`(?:\w+\.)?({NAME})`")
OFFERED = re.compile(rf"[`.]({NAME})(?=[`,)])")
# The words of a name behind which the code's own stand, to the name's end.
BEHIND = r"(?:then|else|if|joined|index|(?:\w+_)?bounds|overflow_\w+?|nonzero_\w+?)-"
CODE = re.compile(rf"((?:.*-)?{BEHIND})(.+)", re.I)


def words_in(name):
    """What a name has of the code's own words."""
    return {match[2] for match in map(CODE.fullmatch, name.split("+")) if match}


def differing(old, new):
    """The code's words in a name for which another name has other ones, each with what it has, if the two are alike but for that."""
    old, new = old.split("+"), new.split("+")
    pairs = [(CODE.fullmatch(o), CODE.fullmatch(n)) for o, n in zip(old, new)]
    if len(old) != len(new) or any(o != n and not (p and q and p[1] == q[1]) for o, n, (p, q) in zip(old, new, pairs)):
        return {}
    return {p[2]: q[2] for p, q in pairs if p and p[2] != q[2]}


def exchanged(told, text):
    """The code's words in the names that a proof cites in vain, each with what stands in its place, by what is told of the function. Of that the
    proof cites nothing so far."""
    cited = set().union(*map(words_in, re.findall(NAME, text)))
    missing = dict.fromkeys(name for message in told for name in MISSING.findall(message))
    offered = dict.fromkeys(name for message in told for name in OFFERED.findall(message) if not words_in(name) <= cited)
    found = {}
    for name in missing:
        options = [option for option in offered if differing(name, option)]
        if options:
            found |= differing(name, max(options, key=lambda option: difflib.SequenceMatcher(None, name, option).ratio()))
    return found


def renamed(text, exchanges):
    """A proof's text with the code's words exchanged in the names that it cites."""
    if not exchanges:
        return text
    old = "|".join(map(re.escape, sorted(exchanges, key=len, reverse=True)))
    return re.sub(rf"((?i:{BEHIND}))({old})(?![\w'])(?!-\d)", lambda match: match[1] + exchanges[match[2]], text)
