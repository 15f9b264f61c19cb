#!/usr/bin/env python3
"""Brings the repository's own names in antt to today's spelling, once, after the kit's port.py: words in snake case.

- A definition, lemma, field or variable in camel case becomes snake case: `inOrder` is `in_order`, `digitsOf-length` is `digits_of-length`.
- A name that specs/ declares with dashes becomes snake case: the field `run-codes` is `run_codes`. In a lemma's name a dash joins two names, and stays.
Types, facts and modules keep their capitals. Functions of src/, exported names, strings, inputs and outputs keep their names.

usage: python3 tools/respell.py [--dry]    at the top of the repository
"""
import collections
import pathlib
import re
import sys

TOKEN = re.compile(r"[^\s(){}\[\].,;:λ\"`«»]+")
DECLARED = re.compile(r"^\s*(?:(?:unfoldable|abbrev|pub|record|data|mutual)\s+)*([^\s:({]+)(?:\s+[({].*?)?\s:\s")
CAMEL = re.compile(r"^[a-z][a-z0-9]*(?:[A-Z][a-z0-9]*)+$")
# what falls together with another name of the same file gets a name of its own
OTHERWISE = {
    "check-bits": "check_bits_right",
    "coefficients-left": "coefficients_held",
    "reserved-left": "reserved_held",
    "vendor-left": "vendor_held",
    "in-attempt": "in_its_attempt",
    "in-table": "in_the_table",
    "isFramed": "is_between_flags",
}


def snake(part):
    return re.sub(r"([A-Z])", lambda m: "_" + m[1].lower(), part)


def antt_files():
    return sorted(p for p in pathlib.Path("crates").rglob("*.antt") if "out" not in p.parts)


def tokens(text):
    for line in text.split("\n"):
        yield from TOKEN.findall(line.split("--")[0])


def names():
    """The old names with their new ones."""
    found = {}
    seen = collections.Counter()
    for path in antt_files():
        text = path.read_text()
        for token in tokens(text):
            seen[token] += 1
        if path.parts[2] == "specs":
            for line in text.split("\n"):
                m = DECLARED.match(line.split("--")[0])
                if m and "-" in m[1] and re.match(r"[a-z]", m[1]):
                    found[m[1]] = m[1].replace("-", "_")
    for token in seen:
        parts = token.split("-")
        if any(CAMEL.match(p) and len(p) > 3 for p in parts) and token not in found and re.match(r"[a-z]", token):
            found[token] = "-".join(snake(p) if CAMEL.match(p) and len(p) > 3 else p for p in parts)
    found.update(OTHERWISE)
    return {a: b for a, b in found.items() if a != b}


def turned(text, to, dashes=True):
    def one(m):
        t = m[0]
        return to[t] if t in to and (dashes or "-" not in t) else t

    parts = re.split(r'("(?:[^"\\]|\\.)*")', text)
    return "".join(p if i % 2 else TOKEN.sub(one, p) for i, p in enumerate(parts))


def words(text, to):
    """Plain text and code of other languages: camel case anywhere, names with dashes between backquotes alone."""
    camel = {a: b for a, b in to.items() if "-" not in a}
    text = re.sub(r"(?<![\w-])[a-z][A-Za-z0-9]*[A-Z][A-Za-z0-9]*(?![\w-])", lambda m: camel.get(m[0], m[0]), text)
    return re.sub(r"`[^`\n]+`", lambda m: TOKEN.sub(lambda t: to.get(t[0], t[0]), m[0]), text)


def main():
    dry = "--dry" in sys.argv
    to = names()
    bad = 0
    for path in antt_files():
        text = path.read_text()
        here = collections.defaultdict(set)
        for token in set(tokens(text)):
            here[to.get(token, token)].add(token)
        for new, olds in here.items():
            if len(olds) > 1:
                bad += 1
                print(f"falls together: {path}: {sorted(olds)}")
    print(f"{len(to)} names, {bad} fall together in a file")
    if dry:
        return
    changed = 0
    for path in antt_files():
        text = path.read_text()
        mine = to
        if path.name == "Proof.antt":
            # there such a name may be that of a call
            used = {t for line in text.split("\n") if line.startswith("use ") for t in TOKEN.findall(line)}
            mine = {a: b for a, b in to.items() if a not in OTHERWISE or a in used or "-" not in a}
        changed += write(path, "\n".join(code(line, mine) for line in text.split("\n")))
    for path in sorted(pathlib.Path("crates").rglob("*.rt")):
        changed += write(path, words(path.read_text(), to))
    for path in sorted(pathlib.Path("crates").rglob("*.edit")):
        changed += write(path, turned(path.read_text(), to))
    pages = [p for p in pathlib.Path("docs").rglob("*.md") if "landings" not in p.parts] + [pathlib.Path("README.md"), pathlib.Path("CONTRIBUTING.md")]
    for path in pages + sorted(pathlib.Path("tests").rglob("*.py")) + sorted(pathlib.Path("tests").rglob("test")) + sorted(pathlib.Path("tests").rglob("*.md")):
        if path.is_file():
            changed += write(path, words(path.read_text(), to))
    print(f"{changed} files changed")


def code(line, to):
    """A line of antt: its code, and in its comment what stands for itself."""
    at = line.find("--")
    # a string may hold two dashes
    if at >= 0 and line[:at].count('"') % 2 == 0:
        return turned(line[:at], to) + words(line[at:], to)
    return turned(line, to)


def write(path, text):
    if text == path.read_text():
        return 0
    path.write_text(text)
    return 1


if __name__ == "__main__":
    main()
