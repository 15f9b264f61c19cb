"""The pages name only what is there: links, files, pages, sections of SCOPE and readings; and nothing leans on a paper that is not in the
repository. The names in docs/PROMISES.md are tests/promises' part."""
import pathlib
import re
import sys

ROOT = pathlib.Path(__file__).resolve().parents[2]
SKIPPED = {".git", "build"}
files = sorted(f for top in ROOT.iterdir() if top.name not in SKIPPED for f in [top, *top.rglob("*")] if f.is_file() and "out" not in f.relative_to(ROOT).parts)
pages = [f for f in files if f.suffix == ".md"]
crates = "|".join(sorted(f.name for f in (ROOT / "crates").iterdir()))
headings = re.findall(r"^## (.*)$", (ROOT / "docs/SCOPE.md").read_text(), re.M)
readings = re.findall(r"^\*\*(\d+\.\d+) ", (ROOT / "docs/READINGS.md").read_text(), re.M)
failed = 0


def told(title, wrong):
    global failed
    failed += bool(wrong)
    for w in wrong:
        print("  " + w)
    print(("FAIL" if wrong else "pass") + ": " + title)


def there(path):
    """Whether a path from the top of the tree is there, a module of antt also without its ending. `make` makes what is in build/."""
    return (ROOT / path).exists() or (ROOT / (path + ".antt")).exists()


def text(file):
    return file.read_text(errors="replace")


links, paths, names, cites = [], [], [], []
for page in pages:
    name = page.relative_to(ROOT)
    links += [f"{name}: ({m[1]})" for m in re.finditer(r"\]\(([^)#\s]+)[^)]*\)", text(page)) if "://" not in m[1] and not (page.parent / m[1]).exists()]
    for m in [] if page.name == "PROMISES.md" else re.finditer(rf"(?<![\w./~-])((?:docs|tests|crates|examples|bench|include|man|tools)/[\w./-]*\w|(?:{crates})/(?:src|specs|proofs|must-fail)/[\w./-]*\w)(?![\w*/.-]*\*)", text(page)):
        if "NAME" not in m[1] and ".." not in m[1] and not there(m[1]) and not there("crates/" + m[1]):
            paths.append(f"{name}: {m[1]}")
    names += [f"{name}: {m[0]}" for m in re.finditer(r"\b[A-Z]{3,}(?:-[A-Z]+)*\.md\b", text(page)) if not any((d / m[0]).exists() for d in (ROOT, ROOT / "docs", page.parent))]
    cites += [f"{name}: READINGS {m[1]}" for m in re.finditer(r"READINGS(?:\.md)?,? (\d+\.\d+)", text(page)) if m[1] not in readings]

sections = [f"{f.relative_to(ROOT)}: SCOPE, \"{m[1]}\"" for f in files if f.suffix in (".rt", ".antt", ".md", ".py", ".c", ".h")
            for m in re.finditer(r'(?<!`)SCOPE(?:, |\'s | \()"([A-Z][^"]*)"', re.sub(r"\n *(?://|--) ", " ", text(f))) if m[1] not in headings]
absent = [f"{f.relative_to(ROOT)}: {m[0]}" for f in files if f != pathlib.Path(__file__).resolve()
          for m in re.finditer(r"\b(?:issue \d+|[Dd]ocument 0\d\b|[Rr]equest \([ivx]+\))", text(f))]

told(f"every link of {len(pages)} pages leads somewhere", links)
told("every file that a page names is there", paths)
told("every page that a page names is there", names)
told("every reading that a page cites is in docs/READINGS.md", cites)
told("every section of SCOPE that is cited is there", sections)
told("nothing leans on a paper that is not in the repository", absent)
sys.exit(bool(failed))
