"""The multiplications that some functions can come to, read off the machine code of an archive; and those in a crate's source.

    narrow.py OBJDUMP ARCHIVE NAME..   a line 'COUNT KIND' for each kind of multiplication in these functions and in whatever they call
    narrow.py --source FOLDER          a line 'FUNCTION LINE' for each * in the code of a crate, and for each call of a method to multiply;
                                       contracts and comments are left out

The first ends with status 1, and names the instruction, where one multiplies more than the small controller can, 16 by 16 bits with a
product of 32, and where one is not understood. A multiplication that is not known to be narrow is wide. One in registers of 32 bits that
keeps 32 is counted under its own kind: compilers use it for single numbers of 16 bits, and it does not show how many bits come in.

Named and not looked into: the C library's memcpy, memmove and memset.
"""
import collections
import pathlib
import re
import sys

sys.path.insert(0, str(pathlib.Path(__file__).resolve().parents[1] / "stack"))
from stack import ENDS, OUTSIDE, PLAIN, read  # noqa: E402

# Multiplies, and what else takes products of its operands, in AT&T spelling; of floats too.
MULTIPLIES = re.compile(r"v?(p?mul|imul|mulx|pmadd|pclmul|[a-z]*f?n?madd|[a-z]*f?n?msub|dpp|pdp)")
VECTOR = re.compile(r"v?(pmullw|pmulhw|pmulhuw|pmaddwd)")  # 16 by 16 bits, the low or high half, or sums of two whole products
OTHER = ENDS | {"call", "ret", "push", "pushq", "pop", "popq"}  # with the jumps, all that stack.py knows beside PLAIN
LETTERS = ["ax", "bx", "cx", "dx", "si", "di", "bp", "sp"]
BITS_32 = {f"%e{r}" for r in LETTERS} | {f"%r{n}d" for n in range(8, 16)}
BITS_16 = {f"%{r}" for r in LETTERS} | {f"%r{n}w" for n in range(8, 16)}


def narrow(instruction):
    """The kind of a narrow multiplication; None for a wide one."""
    name, operands = instruction.name, instruction.operands
    if VECTOR.fullmatch(name):
        return name
    if name in ("mul", "imul", "mulw", "imulw") and len(operands) == 1 and (operands[0] in BITS_16 or name.endswith("w")):
        return "16 by 16 bits, 32 in two registers"
    if name in ("imul", "imulw", "imull") and len(operands) > 1:
        if operands[-1] in BITS_32:
            return "imul, 32 bits kept"
        if operands[-1] in BITS_16:
            return "imul, 16 bits kept"
    return None


def goes_to(name, i):
    """The function that a call or jump leads to: a relocation's, or the one named behind its place; None where that is not known."""
    if i.target is not None:
        return i.target[0]
    found = re.search(r"<(.+?)(?:\+0x[0-9a-f]+)?>$", i.operands[0]) if not i.operands[0].startswith("*") else None
    return found and found[1]


def reached(functions, names):
    """These functions and all that they call or jump to."""
    todo, found = list(names), []
    while todo:
        name = todo.pop()
        if name in found or name in OUTSIDE:
            continue
        if name not in functions:
            sys.exit(f"narrow.py: {name} is not in the archive")
        found.append(name)
        for i in functions[name]:
            if i.name == "call" or i.name.startswith("j"):
                to = goes_to(name, i)
                if to is None:
                    sys.exit(f"narrow.py: {name}+{i.at:#x}: {i.text}: where it goes is not known")
                todo.append(to)
    return found


def compiled(objdump, archive, names):
    functions, _, _ = read(objdump, archive)
    kinds, wrong = collections.Counter(), []
    for name in reached(functions, names):
        for i in functions[name]:
            where = f"{name}+{i.at:#x}: {i.text}"
            if MULTIPLIES.match(i.name):
                kind = narrow(i)
                kinds[kind] += 1
                wrong += [] if kind else [f"wide: {where}"]
            elif not (PLAIN.fullmatch(i.name) or i.name in OTHER or i.name.startswith("j")):
                wrong.append(f"not understood: {where}")
    for kind, count in sorted((k, c) for k, c in kinds.items() if k):
        print(f"{count} {kind}")
    for text in wrong:
        print(text)
    return 1 if wrong else 0


def without_contracts(text):
    """The code without comments, ghost imports and contracts, each from its word to the brace that closes it."""
    text = re.sub(r"//[^\n]*", "", text)
    text = re.sub(r"^ghost use [^;]*;", "", text, flags=re.M)
    while m := re.search(r"^\s+(?:requires|ensures) \{", text, re.M):
        depth, end = 1, m.end()
        while depth:
            depth += {"{": 1, "}": -1}.get(text[end], 0)
            end += 1
        text = text[:m.start()] + text[end:]
    return text


def source(folder):
    for file in sorted(pathlib.Path(folder).rglob("*.rt")):
        for part in re.split(r"^ *(?=(?:pub )?fn )", without_contracts(file.read_text()), flags=re.M):
            function = re.match(r"(?:pub )?fn (\w+)", part)
            for line in part.split("\n"):
                for _ in re.findall(r"\*|\b\w*mul\w*\(", line):
                    print(function[1] if function else "-", line.strip())


if __name__ == "__main__":
    if sys.argv[1] == "--source":
        source(sys.argv[2])
    else:
        sys.exit(compiled(sys.argv[1], sys.argv[2], sys.argv[3:]))
