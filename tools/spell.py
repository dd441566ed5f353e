#!/usr/bin/env python3
"""Gives the repository's own definitions and lemmas today's spelling: words in snake case, an underscore for a dash.

Run once at the top, right after the toolchain's own script has turned its names: tools/spell.py. The table is
tools/spelling.txt. Strings, Rust code, must-fail edits' file names and foreign lemmas stay as they are.
"""
import re
from pathlib import Path

TOP = Path(__file__).resolve().parent.parent
TABLE = [line.split() for line in (TOP / "tools/spelling.txt").read_text().splitlines() if not line.startswith("#")]
NAMES = dict(TABLE)
# S is a variable in these files, and one_more, line_of, lengths_differ, S are names that others have elsewhere
ONLY = {
    "S": lambda f: f.name not in ("CubeFinish.antt", "CubeSteps.antt", "Resonance.antt"),
    "one_more": lambda f: "/laws/" in str(f),
    "lengths_differ": lambda f: "/batch/" in str(f),
}
EDGE = r"A-Za-z0-9_'₀-₉⁰-⁹α-ωΑ-Ω\-"
WORD = re.compile(rf"(?<![{EDGE}])(?:{'|'.join(re.escape(a) for a in sorted(NAMES, key=len, reverse=True))})(?![{EDGE}])")


def turned(file, text):
    def one(match):
        name = match.group(0)
        return NAMES[name] if ONLY.get(name, lambda f: True)(file) else name

    return WORD.sub(one, text)


def split(line, mark):
    """The line's code and its comment."""
    at = re.search(rf"(^|\s){mark}(\s|$)", line)
    return (line[: at.start()], line[at.start() :]) if at else (line, "")


def comment(file, text):
    """Names stand in comments between backticks."""
    return re.sub(r"`[^`]*`", lambda m: m.group(0) if m.group(0) == "`S`" else turned(file, m.group(0)), text)


def antt(file, text):
    lines = (split(line, "--") for line in text.split("\n"))
    return "\n".join(turned(file, code) + comment(file, rest) for code, rest in lines)


def ghost(file, text):
    """Of Rattle source the ghost lines alone: imports and clauses. The rest is Rust."""
    def one(line):
        code, rest = split(line, "//")
        if re.match(r"\s*(ghost|requires|ensures|invariant)\b", code):
            code = turned(file, code)
        return code + comment(file, rest)

    return "\n".join(one(line) for line in text.split("\n"))


def edit(file, text):
    """An edit of a definition is antt; one of code is Rust."""
    return antt(file, text) if re.search(r"^file: specs/", text, re.M) or "/across.d/" in str(file) else ghost(file, text)


def pages(file, text):
    return comment(file, text)


KINDS = [("crates/*/specs/**/*.antt", antt), ("crates/*/proofs/**/*.antt", antt), ("crates/*/src/**/*.rt", ghost),
         ("crates/*/must-fail/*.edit", edit), ("checks/across.d/*.edit", edit), ("README.md", pages), ("docs/*.md", pages)]
for pattern, kind in KINDS:
    for file in sorted(TOP.glob(pattern)):
        old = file.read_text()
        new = kind(file, old)
        if new != old:
            file.write_text(new)
            print(file.relative_to(TOP))
