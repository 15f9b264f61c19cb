"""docs/PROMISES.md against the tree: every name in it is there, its rows are the rules of docs/SCOPE.md, and its gaps are told.

With --write the block of gaps in PROMISES.md is made again and the rows of docs/DECISIONS.md are numbered from 1 on; without it the test
fails where either is stale.
"""
import pathlib
import re
import sys

ROOT = pathlib.Path(__file__).resolve().parents[2]
CRATES = ROOT / "crates"
DOCS = ROOT / "docs"
PROMISES = DOCS / "PROMISES.md"
DECISIONS = DOCS / "DECISIONS.md"
BEGIN = "<!-- Made by `python3 tests/promises/promises.py --write`; not by hand. -->\n"
END = "<!-- End of what is made. -->\n"
wrong = []


def text(crate, folder, kind):
    return "\n".join(f.read_text() for f in sorted((CRATES / crate / folder).rglob(f"*.{kind}")))


def declared(crate, name, folder):
    """Whether specs/ or proofs/ declares a name: a definition, a theorem or a record."""
    return re.search(rf"^\s*(?:unfoldable |abbrev )?(?:pub )?(?:record |data )?{re.escape(name)} [:({{]", text(crate, folder, "antt"), re.M)


def promised(path, predicate):
    """Whether the function's contract names the predicate."""
    crate, *_, function = path.split("::")
    found = re.search(rf"fn {function}(?:<[^>]*>)?\((.*?)\n\s*\{{\n", text(crate, "src", "rt"), re.S)
    if function.startswith("sdsl_"):
        found = re.search(rf"fn {function}\((.*?)\n\{{\n", text(crate, "src", "rt"), re.S)
    return found and re.search(rf"\b{predicate}\b", found.group(1))


def in_second(group, functions):
    source = (ROOT / "tests/second" / f"second_{group}.c").read_text()
    return [f for f in functions if not re.search(rf"^static void {f}\(", source, re.M) or not re.search(rf"^\s+{f}\(", source, re.M)]


def page(row, file, number, heading):
    """A page is there, and so is the section that is named: by its number, or by its heading in quotation marks."""
    path = ROOT / file
    there = path.exists()
    if there and number:
        there = re.search(rf"^(?:\*\*|\| |## ){re.escape(number)}[ .|]", path.read_text(), re.M)
    if there and heading:
        there = re.search(rf"^#+ {re.escape(heading)}$", path.read_text(), re.M)
    if not there:
        wrong.append(f"{row}: {file} {number or heading or ''}")
    return ""


def programs(edit):
    """The wrong programs of an edit: those that it names, or the one that it is."""
    return re.findall(r"^# (\w+) \([\w:/]+\)", edit.read_text(), re.M) or [edit.stem]


def check(row, column, cell):
    cell = re.sub(r'([\w/]*\w\.md)(?: (\d[\d.]*)|, "([^"]*)")?', lambda m: page(row, *m.groups()), cell)
    last = None
    for m in re.finditer(r"`([^`]*)`(?: `([^`]*)`)?", cell):
        name, predicate = m.groups()
        if "::" in name:
            right = promised(name, predicate)
        elif column == 4 and ": " in name:
            group, *functions = re.split(r"[:,] ", name)[1:]
            right = not in_second(group, functions)
        elif column == 4:
            right = (ROOT / "tests" / name / "test").exists()
        elif column == 3:
            crate, edit = name.split("/")
            files = (CRATES / crate / "must-fail").glob("*.edit")
            right = any(f.stem == edit or edit in programs(f) for f in files)
        else:
            last, name = name.split(": ") if ": " in name else (last, name)
            right = last is None or declared(last, name, "specs" if column == 1 else "proofs")
        if not right:
            wrong.append(f"{row}: {m.group(0)}")


def spread(words):
    """The numbers that 'A2, F4 to F6' names."""
    out = []
    for part in words.split(", "):
        ends = re.findall(r"([A-Z])(\d+)", part)
        out += [f"{ends[0][0]}{n}" for n in range(int(ends[0][1]), int(ends[-1][1]) + 1)]
    return out


def joined(numbers):
    """'A2, F4 to F6' for the numbers A2, F4, F5, F6: three or more in a row are told by their ends."""
    runs = []
    for n in numbers:
        if runs and n == f"{runs[-1][-1][0]}{int(runs[-1][-1][1:]) + 1}":
            runs[-1].append(n)
        else:
            runs.append([n])
    return ", ".join(f"{r[0]} to {r[-1]}" if len(r) > 2 else ", ".join(r) for r in runs)


def gaps(rows):
    """The block that tells the empty cells, and how many wrong programs there are."""
    out = []
    for title, column in (("No definition", 1), ("No promise", 2), ("No must-fail edit", 3), ("No test", 4)):
        out.append(f"- {title}: {joined([n for n, cells in rows.items() if not cells[column]]) or 'none'}.")
    names = [line.split(":")[0].split()[0] for line in (ROOT / "crates.txt").read_text().splitlines() if re.match(r"\w+( staticlib)?:", line)]
    edits = {n: [programs(f) for f in sorted((CRATES / n / "must-fail").glob("*.edit"))] for n in names}
    count = {n: sum(map(len, e)) for n, e in edits.items()}
    out.append(f"- Wrong programs: {sum(count.values())}, in {sum(map(len, edits.values()))} edits of {sum(map(bool, count.values()))} crates out of {len(names)}. "
               f"Crates with none: {', '.join(n for n in names if not count[n]) or 'no crate'}; with one: {', '.join(n for n in names if count[n] == 1) or 'no crate'}.")
    return "\n".join(out) + "\n"


def numbered(decisions):
    """The page of decisions with its rows numbered from 1 on, in the order in which they stand. A new row has + for its number."""
    n = 0

    def next_number(m):
        nonlocal n
        n += 1
        return f"| {n} |"

    return re.sub(r"^\| (?:\d+[a-z]?|\+) \|", next_number, decisions, flags=re.M)


rows = {}
for line in PROMISES.read_text().splitlines():
    if re.match(r"\| [A-Z]\d+ \|", line):
        cells = [c.strip() for c in line.split("|")[1:-1]]
        if len(cells) != 6 or cells[0] in rows:
            wrong.append(f"{cells[0]}: not a row of its own with six cells")
            continue
        rows[cells[0]] = cells[1:]
        for column in range(1, 5):
            check(cells[0], column, cells[1 + column])
wrong += [f"{n}: nothing in any cell" for n, cells in rows.items() if not any(cells[1:])]

ruled = [n for m in re.finditer(r"^(?:- \*\*([A-Z]\d[^*]*)\*\*|\| ([A-Z]\d+) \|) ", (DOCS / "SCOPE.md").read_text(), re.M) for n in spread(m[1] or m[2])]
wrong += [f"{n}: twice in docs/SCOPE.md" for n in sorted(set(ruled)) if ruled.count(n) > 1]
wrong += [f"{n}: in docs/SCOPE.md and not in docs/PROMISES.md" for n in ruled if n not in rows]
wrong += [f"{n}: in docs/PROMISES.md and not in docs/SCOPE.md" for n in rows if n not in ruled]

before, made, after = re.fullmatch(rf"(.*?{re.escape(BEGIN)})(.*?)({re.escape(END)}.*)", PROMISES.read_text(), re.S).groups()
if "--write" in sys.argv:
    PROMISES.write_text(before + gaps(rows) + after)
    DECISIONS.write_text(numbered(DECISIONS.read_text()))
else:
    stale = [line for line in made.splitlines() if line not in gaps(rows).splitlines()]
    if made != gaps(rows):
        wrong.append(f"docs/PROMISES.md: the block of gaps is stale (--write makes it again): {stale}")
    if DECISIONS.read_text() != numbered(DECISIONS.read_text()):
        wrong.append("docs/DECISIONS.md: the rows are not numbered 1, 2, 3 .. (--write does it)")

for w in wrong:
    print("  " + w)
print(("FAIL" if wrong else "pass") + f": docs/PROMISES.md, {len(rows)} rows")
sys.exit(bool(wrong))
