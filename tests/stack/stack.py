"""How much stack each exported function takes at most, read off the machine code of an archive.

    stack.py OBJDUMP ARCHIVE              a line 'NAME OCTETS' for each global function
    stack.py OBJDUMP ARCHIVE --write PAGE  puts them into the table of docs/PERFORMANCE.md

A function is walked from its first instruction along every jump, with the number of octets that lie between its caller's stack and the
stack pointer; the return address counts. Wherever two ways meet, that number has to be the same. What a call takes is added to the depth
it is made at. Whatever is not understood ends the reading: an instruction that is not in the lists below, a stack pointer that is changed
otherwise than by a constant, a call or jump whose target is not known, recursion.

Named and not counted: the C library's memcpy, memmove and memset (their return address is counted).
"""
import pathlib
import re
import subprocess
import sys

OUTSIDE = {"memcpy", "memmove", "memset"}
WORD = 8  # octets of an address, and of what push and pop move

# Instructions that leave the stack pointer alone unless it is their last operand; in AT&T spelling, with or without a letter for the size.
PLAIN = re.compile(
    r"(mov|movabs|movz[bwl]?|movs[bwl]|movslq|lea|add|adc|sub|sbb|and|andn|or|xor|not|neg|inc|dec|shl|shr|sar|sal|rol|ror|rcl|rcr|shld"
    r"|shrd|shlx|shrx|sarx|rorx|mul|mulx|imul|div|idiv|cmp|test|bt|bts|btr|btc|bsf|bsr|tzcnt|lzcnt|popcnt|bswap|xchg|cmov[a-z]+|set[a-z]+"
    r"|cltq|cqto|cltd|cwtl|nop|(rep )?(movs|stos)|data16|cs"
    r"|mov(a|u|h|l|msk)p[sd]|mov(dq[au]|d|q|ss|sd)|cvt[a-z0-9]+|(add|sub|mul|div|and|or|xor|max|min|unpckl|unpckh|shuf|ucomi|comi)[sp][sd]"
    r"|p(add|sub|and|andn|or|xor|cmp(eq|gt)|mull|mulh|mulu|madd|sll|srl|sra|shuf|unpck[lh]|ack[su]s|movmsk|min|max|insr|extr|clmul)[a-z0-9]*"
    r")[bwlq]?")
ENDS = {"ud2"}


class NotUnderstood(Exception):
    pass


class Instruction:
    def __init__(self, at, text):
        self.at = at
        text = re.sub(r"\s+#.*", "", text).strip()
        parts = text.split(None, 1)
        while parts[0] in ("data16", "cs", "rep", "repz", "bnd", "notrack") and len(parts) > 1:
            parts = parts[1].split(None, 1)
        self.name = parts[0]
        self.operands = re.findall(r"(?:\([^)]*\)|[^,(])+", parts[1]) if len(parts) > 1 else []
        self.text = text
        self.target = None  # what the linker puts here: a name, and how far behind it


def run(objdump, *arguments):
    return subprocess.run([objdump, *arguments], check=True, capture_output=True, text=True).stdout


def place(name, addend):
    """A relocation's name and addend; the name of a section .text.NAME is that of its function."""
    return (name.removeprefix(".text.") if name.startswith(".text.") else name, addend)


def split(value):
    m = re.fullmatch(r"(.+?)(?:([+-])0x([0-9a-f]+))?", value)
    return m[1], int((m[2] or "+") + (m[3] or "0"), 16)


def read(objdump, archive):
    """The functions (a list of instructions each), the jump tables' entries by section, and the global names."""
    functions, tables = {}, {}
    current = None
    for line in run(objdump, "-drw", "--no-show-raw-insn", archive).split("\n"):
        if m := re.match(r"[0-9a-f]+ <(.+)>:$", line):
            current = functions.setdefault(m[1], [])
        elif m := re.match(r"\s+([0-9a-f]+):\t(?!\s*[0-9a-f]+: R_)(.*?)(?:\t([0-9a-f]+): R_X86_64_(\w+)\t(\S+))?\s*$", line):
            current.append(Instruction(int(m[1], 16), m[2]))
            if m[5]:
                current[-1].target = place(*split(m[5]))
    section = None
    for line in run(objdump, "-r", archive).split("\n"):
        if m := re.match(r"RELOCATION RECORDS FOR \[(.+)\]:", line):
            section = m[1]
        elif (m := re.match(r"([0-9a-f]+) R_X86_64_PC32 +(\S+)", line)) and section.startswith(".rodata"):
            tables.setdefault(section, {})[int(m[1], 16)] = place(*split(m[2]))
    exported = {m[1] for m in re.finditer(r"^[0-9a-f]+ g .* \.text\S*\s+[0-9a-f]+ (\S+)$", run(objdump, "-t", archive), re.M)}
    return functions, tables, exported


class Reader:
    def __init__(self, objdump, archive):
        self.functions, self.tables, self.exported = read(objdump, archive)
        self.known = {}
        self.open = []

    def fail(self, name, i, why):
        raise NotUnderstood(f"{name}+{i.at:#x}: {i.text}: {why}")

    def call(self, name, i, depth):
        """The depth that a call to what `i` names reaches, made at this depth with the return address not yet there."""
        if i.target is None or i.target[1] != -4:
            self.fail(name, i, "what is called is not known")
        callee = i.target[0]
        if callee in OUTSIDE:
            return depth + WORD
        if callee not in self.functions:
            self.fail(name, i, f"calls {callee}")
        return depth + self.stack(callee)

    def jumped(self, name, i, code, index):
        """The places that a jump through a table may go to: lea TABLE(%rip),B .. movslq (B,I,4),T; add B,T; jmp *T."""
        m = re.fullmatch(r"\*%(\w+)", i.operands[0])
        before = code[max(0, index - 8):index]
        base = next((c.operands[0] for c in reversed(before) if m and c.name == "add" and c.operands[1] == f"%{m[1]}"), None)
        if base is None or not any(c.name == "movslq" and c.operands[0].startswith(f"({base},") for c in before):
            self.fail(name, i, "where it goes is not known")
        leas = [c for c in code if c.name == "lea" and c.target and c.target[0] in self.tables]
        made = [c for c in leas if c.operands[1] == base and c.at < i.at]
        if not made:
            self.fail(name, i, "its table is not known")
        section, start = made[-1].target[0], made[-1].target[1] + 4
        end = min([c.target[1] + 4 for c in leas if c.target[0] == section and c.target[1] + 4 > start], default=float("inf"))
        places = [addend - (at - start) for at, (to, addend) in sorted(self.tables[section].items()) if start <= at < end and to == name]
        if not places:
            self.fail(name, i, "its table is empty")
        return places

    def stack(self, name):
        """The deepest that a call of this function goes, its return address counted."""
        if name in self.known:
            return self.known[name]
        if name in self.open:
            raise NotUnderstood(f"recursion: {' calls '.join(self.open + [name])}")
        self.open.append(name)
        code = self.functions[name]
        where = {i.at: k for k, i in enumerate(code)}
        depths, todo, deepest = {}, [(0, WORD)], WORD
        while todo:
            k, depth = todo.pop()
            if k >= len(code):
                raise NotUnderstood(f"{name}: runs past its end")
            i = code[k]
            if k in depths:
                if depths[k] != depth:
                    self.fail(name, i, f"reached with {depths[k]} and with {depth} octets")
                continue
            depths[k] = depth
            following, depth, reached = self.follow(name, code, k, where, depth)
            deepest = max(deepest, depth, reached)
            todo += [(f, depth) for f in following]
        self.open.pop()
        self.known[name] = deepest
        return deepest

    def follow(self, name, code, k, where, depth):
        """What comes after instruction k, at which depth, and how deep the instruction itself reaches."""
        i = code[k]
        reached = depth
        for m in re.finditer(r"-0x([0-9a-f]+)\(%rsp", i.text):  # below the stack pointer: the red zone
            reached = depth + int(m[1], 16)
        if i.name == "ret":
            if depth != WORD:
                self.fail(name, i, f"returns with {depth} octets")
            return [], depth, reached
        if i.name in ENDS:
            return [], depth, reached
        if i.name == "call":
            return [k + 1], depth, self.call(name, i, depth)
        if i.name.startswith("j"):
            onward = [] if i.name == "jmp" else [k + 1]
            if i.operands[0].startswith("*"):
                places = self.jumped(name, i, code, k)
            elif i.target is not None:  # a tail call: the return address is the caller's
                return onward, depth, self.call(name, i, depth - WORD)
            else:
                places = [int(i.operands[0].split()[0], 16)]
            if any(p not in where for p in places):
                self.fail(name, i, "goes into the middle of an instruction")
            return [where[p] for p in places] + onward, depth, reached
        last = i.operands[-1] if i.operands else ""
        if i.name in ("push", "pushq"):
            return [k + 1], depth + WORD, reached
        if i.name in ("pop", "popq") and last not in ("%rsp", "%esp"):
            return [k + 1], depth - WORD, reached
        if not PLAIN.fullmatch(i.name):
            self.fail(name, i, "not understood")
        changes = last in ("%rsp", "%esp", "%sp", "%spl") and not i.name.startswith(("cmp", "test"))
        changes = changes or i.name.startswith("xchg") and any(re.fullmatch(r"%r?e?spl?", o) for o in i.operands)
        if changes:
            m = re.fullmatch(r"\$(-?)0x([0-9a-f]+)", i.operands[0])
            if not m or last != "%rsp" or i.name not in ("add", "sub"):
                self.fail(name, i, "changes the stack pointer otherwise than by a constant")
            by = int(m[1] + m[2], 16)
            depth += by if i.name == "sub" else -by
            if depth < WORD:
                self.fail(name, i, "takes away its caller's stack")
        return [k + 1], depth, reached


def main():
    reader = Reader(sys.argv[1], sys.argv[2])
    if not reader.exported:
        sys.exit("stack.py: no function is exported")
    try:
        taken = [(name, reader.stack(name)) for name in sorted(reader.exported)]
    except NotUnderstood as why:
        sys.exit(f"stack.py: {why}")
    if len(sys.argv) == 5 and sys.argv[3] == "--write":
        page = pathlib.Path(sys.argv[4])
        rows = "".join(f"| `{name}` | {octets} |\n" for name, octets in taken)
        page.write_text(re.sub(r"(?:^\| `sdsl_\w+` \| \d+ \|\n)+", rows, page.read_text(), flags=re.M))
    else:
        print("\n".join(f"{name} {octets}" for name, octets in taken))


if __name__ == "__main__":
    main()
