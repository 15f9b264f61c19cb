"""No line of src/ and specs/ is over 160 characters, and none of proofs/ over 400."""
import pathlib
import sys

ROOT = pathlib.Path(__file__).resolve().parents[2]
failed = 0
for parts, most in (("src", "specs"), 160), (("proofs",), 400):
    long = []
    for part in parts:
        for file in sorted(ROOT.glob(f"crates/*/{part}/**/*")):
            if file.suffix in (".rt", ".antt"):
                for n, line in enumerate(file.read_text().splitlines(), 1):
                    if len(line) > most:
                        long.append(f"  {file.relative_to(ROOT)}:{n}: {len(line)} characters")
    print(*long, sep="\n", end="\n" if long else "")
    print(("FAIL" if long else "pass") + f": no line of {' and '.join(p + '/' for p in parts)} is over {most} characters")
    failed += bool(long)
sys.exit(bool(failed))
