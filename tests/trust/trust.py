"""docs/TRUST.md against the tree: its table of specs/ names every crate that has definitions, with their number of files and lines."""
import pathlib
import re
import sys

ROOT = pathlib.Path(__file__).resolve().parents[2]


def counted(crate):
    """How many files of definitions a crate has, and how many lines that define: no comments, no `use`, nothing blank."""
    files = [f for f in sorted((ROOT / "crates" / crate / "specs").glob("*.antt")) if f.name != "Lib.antt"]
    lines = [line.strip() for f in files for line in f.read_text().splitlines()]
    return len(files), sum(1 for line in lines if line and not line.startswith(("--", "use ")))


names = [line.split(":")[0].split()[0] for line in (ROOT / "crates.txt").read_text().splitlines() if ":" in line and not line.startswith("#")]
true = {n: counted(n) for n in names if counted(n)[0]}
said = {m[1]: (int(m[2]), int(m[3])) for m in re.finditer(r"^\| (\w+) \| (\d+) \| (\d+) \|", (ROOT / "docs/TRUST.md").read_text(), re.M)}
total = sum(n for _, n in true.values())
stated = re.search(r"([\d,]+) lines define something", (ROOT / "docs/TRUST.md").read_text())
wrong = [f"{n}: said {said.get(n)}, is {true.get(n)}" for n in sorted(set(said) | set(true)) if said.get(n) != true.get(n)]
if not stated or int(stated[1].replace(",", "")) != total:
    wrong.append(f"all lines that define: said {stated and stated[1]}, are {total}")
if "--write" in sys.argv:
    page = ROOT / "docs/TRUST.md"
    text = re.sub(r"[\d,]+ lines define something", f"{total:,} lines define something", page.read_text())
    text = re.sub(r"^\| (\w+) \| \d+ \| \d+ \|", lambda m: "| {} | {} | {} |".format(m[1], *true.get(m[1], (0, 0))), text, flags=re.M)
    page.write_text(text)
    print("docs/TRUST.md has the numbers; a crate without a row, and a row without a crate:", sorted(set(said) ^ set(true)))
    sys.exit()
for w in wrong:
    print("  " + w)
print(("FAIL" if wrong else "pass") + f": docs/TRUST.md counts the definitions of {len(true)} crates, {total} lines")
sys.exit(bool(wrong))
