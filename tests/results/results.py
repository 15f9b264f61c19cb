"""docs/RESULTS.md against the sources: every public function has a row, a contract for every input, and a theorem that its result is the only one.

A public function is reached by another crate, or exported and called by a test in C. `results.py --callers` lists by which. The exports of
crate host_c are the functions of crate host for C, each with the same contract (tests/contracts): they have no rows of their own. Nor have
the fifteen of crate outside, by name: what they give comes from the system, and no contract can say what that is. Nine of them hand on all that
they do and have no ensures either. Only programs may use them.
"""
import pathlib
import re
import sys

ROOT = pathlib.Path(__file__).resolve().parents[2]
EXPORTS = "host_c"
OUTSIDE = "outside"
HANDED_ON = {f"{OUTSIDE}::{name}" for name in ("arg_count", "option", "open", "complain", "fail", "print", "print_version", "refuse", "tell_status")}
OF_THE_SYSTEM = HANDED_ON | {f"{OUTSIDE}::{name}" for name in ("room", "arg", "word", "said", "read_full", "fill")}
wrong = []


def functions():
    """Each public function, as crate::function or crate::Type::function, with its contract."""
    for source in sorted((ROOT / "crates").glob("*/src/**/*.rt")):
        crate = source.relative_to(ROOT / "crates").parts[0]
        if crate == EXPORTS:
            continue
        owner = ""
        lines = source.read_text().split("\n")
        for i, line in enumerate(lines):
            if m := re.match(r"impl(?:<[^>]*>)? (\w+)", line):
                owner = m[1] + "::"
            elif line == "}":
                owner = ""
            if m := re.match(r"\s*pub (?:extern \"C\" )?fn (\w+)", line):
                contract = []
                for more in lines[i:]:
                    if more.strip() == "{":
                        break
                    contract.append(more)
                yield f"{crate}::{owner}{m[1]}", "\n".join(contract)


def statement(crate, theorem):
    """A theorem's statement: from its name to its first equation."""
    for file in sorted((ROOT / "crates" / crate / "proofs").rglob("*.antt")):
        m = re.search(rf"^ *pub {re.escape(theorem)} :(.*?)^ *(?:unfolding|{re.escape(theorem)}) ", file.read_text(), re.M | re.S)
        if m:
            return m[1]
    return None


def callers(found):
    """For each public function: the other crates that call it, and the C tests that call it where it is exported."""
    text, named = {}, {}
    for source in sorted((ROOT / "crates").glob("*/src/**/*.rt")):
        crate = source.relative_to(ROOT / "crates").parts[0]
        text[crate] = text.get(crate, "") + re.sub(r"^\s*//.*", "", source.read_text(), flags=re.M)
    for line in (ROOT / "crates.txt").read_text().splitlines():
        if m := re.match(r"(\w+)(?: staticlib)?:(.*)", line):
            named[m[1]] = m[2].split()
    exported = {name for body in text.values() for name in re.findall(r'pub extern "C" fn (\w+)', body)}
    text.pop(EXPORTS)  # which calls every function of host
    tests = {}
    for file in sorted((ROOT / "tests").glob("*/*.c")):
        if file.name != "mock.c":  # which stands in for the library
            tests["tests/" + file.parent.name] = tests.get("tests/" + file.parent.name, "") + file.read_text()
    for name, contract in found.items():
        crate, *owner, function = name.split("::")
        if owner:  # a method: x.function(..) or Owner::function(..) in a crate that names this one
            call = rf"(?:\.|\b{owner[0]}::){function}\("
        else:
            call = rf"\b{crate}::{function}\(|^use {crate}::{function};"
        yield name, [c for c in text if c != crate and crate in named[c] and re.search(call, text[c], re.M)] + [
            test for test, body in tests.items() if function in exported and re.search(rf"\b{function}\b", body)]


rows = {}
for line in (ROOT / "docs/RESULTS.md").read_text().split("\n"):
    if m := re.match(r"\| `([\w:]+)` \| `(\w+)` \| `([\w]+): ([^`]+)` \|$", line):
        if m[1] in rows:
            wrong.append(f"{m[1]} stands twice")
        rows[m[1]] = m.groups()[1:]
    elif line.startswith("| `"):
        wrong.append(f"this is no row: {line}")

found = dict(functions())
for line in (ROOT / "crates.txt").read_text().splitlines():
    if (m := re.match(r"(\w+)(?: staticlib)?:(.*)", line)) and OUTSIDE in m[2].split() and not (ROOT / "crates" / m[1] / "src/main.rt").exists():
        wrong.append(f"{m[1]} is no program and uses {OUTSIDE}")
for name, contract in found.items():
    if re.search(r"\brequires\*?\b", contract):
        wrong.append(f"{name} has a requires")
    if name not in HANDED_ON and not re.search(r"\bensures\b", contract):
        wrong.append(f"{name} has no ensures")
    if name in OF_THE_SYSTEM:
        continue
    if name not in rows:
        wrong.append(f"{name} has no row")
        continue
    predicate, crate, theorem = rows[name]
    ensures = contract[contract.find("ensures"):]
    if not re.search(rf"\b{predicate}\b", ensures):
        wrong.append(f"{name}: its ensures does not cite {predicate}")
    said = statement(crate, theorem)
    if said is None:
        wrong.append(f"{name}: there is no theorem {crate}: {theorem}")
    elif len(re.findall(rf"(?<![\w-]){predicate}(?![\w-])", said)) < 2:
        wrong.append(f"{name}: {crate}: {theorem} does not take {predicate} twice")
for name in rows:
    if name not in found:
        wrong.append(f"{name} is not a public function")

reached = dict(callers(found))
for name, by in reached.items():
    if not by:
        wrong.append(f"{name} is public and nothing reaches it")
if sys.argv[1:] == ["--callers"]:
    for name, by in reached.items():
        print(f"{name}: {', '.join(by) or 'nothing'}")
    sys.exit()

for w in wrong:
    print(f"  {w}")
if wrong or not found:
    print(f"FAIL: docs/RESULTS.md, {len(wrong)} wrong")
    sys.exit(1)
print(f"pass: one result per call: {len(rows)} public functions, each with a contract for every input and its theorem")
print(f"pass: each is reached by another crate or by a test in C, {sum(map(len, reached.values()))} callers in all (results.py --callers lists them)")
