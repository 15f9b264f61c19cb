#!/usr/bin/env python3
"""Brings the names in pages, tests and comments to the spelling that the crates' definitions and theorems have since the port: a name that
specs/ or proofs/ declared at the commit OLD and that no longer stands there becomes its snake case, where that stands there.

usage: python3 tools/respell_pages.py OLD [--dry]    at the top of the repository; docs/PORT.md has OLD
"""
import pathlib
import re
import subprocess
import sys

DECLARED = re.compile(r"^\s*(?:(?:unfoldable|abbrev|pub|record|data|mutual)\s+)*([^\s:({]+)(?=\s+[:({])", re.M)
TOKEN = re.compile(r"[^\s(){}\[\].,;:λ\"`«»|/<>]+")
PAGES = ["README.md", "CONTRIBUTING.md", "docs/PROMISES.md", "docs/RESULTS.md", "docs/DECISIONS.md", "docs/DESIGN.md", "docs/READINGS.md",
         "docs/TRUST.md", "docs/PERFORMANCE.md", "docs/GLOSSARY.md", "docs/SCOPE.md"]


def declared(text):
    return {m[1] for m in DECLARED.finditer(text) if re.match(r"[A-Za-z]", m[1])}


def old_names(commit):
    files = subprocess.run(["git", "ls-tree", "-r", "--name-only", commit, "crates"], capture_output=True, text=True, check=True).stdout.split()
    names = set()
    for file in files:
        if file.endswith(".antt"):
            names |= declared(subprocess.run(["git", "show", f"{commit}:{file}"], capture_output=True, text=True, check=True).stdout)
    return names


def snake(word):
    return re.sub(r"(?<=[a-z0-9])([A-Z])", lambda m: "_" + m[1].lower(), word)


def main():
    old = old_names(sys.argv[1])
    antt = [p for p in sorted(pathlib.Path("crates").rglob("*.antt")) if "out" not in p.parts]
    new = set().union(*(declared(p.read_text()) for p in antt))
    to = {}
    for name in old - new:
        if re.match(r"[A-Z]", name):
            continue
        for one in (snake(name), name.replace("-", "_"), snake(name).replace("-", "_")):
            if one != name and one in new:
                to[name] = one
                break
    if "--dry" in sys.argv:
        print(sorted(to.items()))
        return

    def turned(text, quoted):
        if quoted:
            return re.sub(r"`[^`\n]+`", lambda m: TOKEN.sub(lambda t: to.get(t[0], t[0]), m[0]), text)
        return re.sub(r"(?<![\w-])[a-z]\w*[A-Z]\w*(?![\w-])", lambda m: to.get(m[0], m[0]), turned(text, True))

    def write(path, text):
        if text != path.read_text():
            path.write_text(text)
            print(path)

    for page in PAGES:
        write(pathlib.Path(page), turned(pathlib.Path(page).read_text(), False))
    for path in antt + [p for p in sorted(pathlib.Path("crates").rglob("*.rt")) if "out" not in p.parts]:
        mark = "--" if path.suffix == ".antt" else "//"
        write(path, "\n".join(a + m + turned(b, False) if m else a for a, m, b in (line.partition(mark + " ") for line in path.read_text().split("\n"))))


main()
