"""demands/specs/Contracts.antt and FromC.antt against crates/host/src: for each exported function the record `KeepsFor` asks for the predicate
that its `ensures` cites, with the same arguments in the same order, every number of the struct that it returns, and all memory that it may write;
and `from_c` tests each argument by its type. So nothing is asked of a library that the compiled one does not promise, and nothing is left out.

What is exported is crate host_c: each of its functions takes what the function of host of that name takes, promises the same, and is a call of it.

At the end an error of each kind is planted, and has to be found.
"""
import pathlib
import re
import sys

ROOT = pathlib.Path(__file__).resolve().parents[2]
# an argument's type, and the test that `from_c` makes of it
TESTS = {
    "u32": "u32", "usize": "usize", "i32": "i32", "&[u8]": "buffer", "&mut [u8]": "buffer",
    "Supervisor": "supervisor", "Receiver": "receiver", "DataOverhead": "overhead",
}
# the fields of a returned struct that are a state to go on with
STATES = ("state", "register")


def split(text, opening="([{", closing=")]}"):
    """The parts of a text at its outermost spaces."""
    parts, depth = [""], 0
    for ch in text:
        depth += (ch in opening) - (ch in closing)
        if ch == " " and depth == 0:
            parts.append("")
        else:
            parts[-1] += ch
    return [p for p in parts if p]


FUNCTION = r'(\w+)\((.*?)\)\s*(?:-> (\w+))?\n    ensures \{ (.*?) \}\n\{\n(.*?)\n\}\n'


def joined(words):
    return " ".join(words.split())


def arguments(text):
    return [a.strip().split(": ", 1) for a in text.split(",") if a.strip()]


def exported(sources, exports):
    """Each exported function: its arguments with their types, the fields of what it returns, the predicate that it ensures and that one's arguments."""
    structs = {m[1]: re.findall(r"pub (\w+):", m[2]) for m in re.finditer(r"pub struct (\w+) \{(.*?)\n\}", "\n".join(sources.values()), re.S)}
    for m in re.finditer(r'pub extern "C" fn ' + FUNCTION, "\n".join(exports.values()), re.S):
        words = split(joined(m[4]))
        yield m[1], arguments(m[2]), structs.get(m[3]), words[0], words[1:]


def said(function):
    """What a function takes, gives and promises."""
    return arguments(function[2]), function[3], joined(function[4])


def named(text):
    """The names that a file's clauses cite, each with the module that it is of."""
    return {word.strip(): m[1] for m in re.finditer(r"^ghost use (\S+)\.\{(.*?)\};", text, re.M) for word in m[2].split(",")}


def calls(sources, exports):
    """Where an export of host_c is not a call of host's function of its name, with its contract."""
    for module, text in exports.items():
        ours = {m[1]: m for m in re.finditer(r"^pub fn " + FUNCTION, sources.get(module, ""), re.S | re.M)}
        theirs = {m[1]: m for m in re.finditer(r'^#\[unsafe\(no_mangle\)\]\npub extern "C" fn ' + FUNCTION, text, re.S | re.M)}
        if len(theirs) != text.count("no_mangle") or len(theirs) != text.count('extern "C" fn') or len(re.findall(r"\bfn ", text)) != len(theirs):
            yield f"host_c/{module}: not every function is read as an export"
        for name in sorted(set(ours) ^ set(theirs)):
            yield f"{name} is not in both crates"
        for name in sorted(set(ours) & set(theirs)):
            if said(ours[name]) != said(theirs[name]):
                yield f"{name} of host_c has another contract than that of host"
            if joined(theirs[name][5]) != f"host::{module}::{name}({', '.join(a for a, _ in arguments(theirs[name][2]))})":
                yield f"{name} of host_c is not a call of that of host"
        for word, path in named(text).items():
            if named(sources.get(module, "")).get(word) != path:
                yield f"host_c/{module}: {word} is not that of host"


def kept(text):
    """Each function of `KeepsFor`: the exported functions above it with the names of their arguments, its field and what that asks for."""
    body = re.search(r"pub record KeepsFor .*? where\n(.*?)\n\n", text, re.S)[1]
    for m in re.finditer(r"  -- (sdsl_.*?)\n  pub (\w+) : (.*?)(?=\n  -- sdsl_|\Z)", body, re.S):
        functions, aliases = [], {}
        for f in re.finditer(r"(sdsl_\w+)\((.*?)\)", m[1]):
            names = []
            for a in f[2].split(", "):
                name, _, field = a.partition(" = ")
                names.append((name, field or name))
            functions.append((f[1], names))
        for a in re.finditer(r"(\w+) = (\w+)", re.sub(r"\(.*?\)", "", m[1])):
            aliases[a[1]] = a[2]
        yield functions, aliases, m[2], " ".join(m[3].split())


def check(sources, exports, contracts, from_c):
    wrong = list(calls(sources, exports))
    code = {name: rest for name, *rest in exported(sources, exports)}
    seen = set()
    for functions, aliases, field, asked in kept(contracts):
        m = re.match(r"(\(way : Way\) )?\((\w+) : \S+(?: \S+)?\) → calls\.(\w+) (\w+) ≡ true → (.*)$", asked)
        if not m:
            wrong.append(f"{field}: not read: {asked[:60]}")
            continue
        way, call = bool(m[1]), m[2]
        if m[3] != field or m[4] != call:
            wrong.append(f"{field}: asks about the calls of {m[3]}")
        words = split(m[5])
        result = f"(x.{field}{' way' if way else ''} {call})"
        for name, names in functions:
            seen.add(name)
            if name not in code:
                wrong.append(f"{field}: {name} is not exported")
                continue
            args, struct, predicate, given = code[name]
            if [a for a, _ in args] != [a for a, _ in names]:
                wrong.append(f"{name}: its arguments are {', '.join(a for a, _ in args)}")
                continue
            place = dict(names)

            def held(argument):
                return f"c.{place[argument]}" if call == "c" else call

            want = []
            for w in given:
                if w in ("scramble", "descramble"):
                    want.append("way" if way else w)
                elif w in place:
                    want.append(held(w))
                elif e := re.match(r"(\w+)\.(?:now|old)$", w):
                    want.append(held(e[1]))
                elif e := re.match(r"(\w+)\.new$", w):
                    want.append((f"{result}.memory", f"{result}.memory.{place[e[1]]}"))
                elif w == "result" and struct is None:
                    want.append(f"{result}.answer")
                elif w == "result":
                    want.append(struct)
                else:
                    wrong.append(f"{name}: {w} is not read")
            if words[0] != predicate:
                wrong.append(f"{name}: ensures {predicate}, and {field} asks for {words[0]}")
            if len(words) - 1 != len(want):
                wrong.append(f"{name}: {predicate} has {len(want)} arguments, and in {field} {len(words) - 1}")
                continue
            for i, (have, ask) in enumerate(zip(words[1:], want), 1):
                if isinstance(ask, list):
                    got = dict(f.split(" = ", 1) for f in re.match(r"\(record \{ (.*?);? \}\)$", have)[1].split("; "))
                    got = {k.strip("«»"): v for k, v in got.items()}
                    if list(got) != ask:
                        wrong.append(f"{name}: returns {', '.join(ask)}, and {field} asks for {', '.join(got)}")
                    for k, v in got.items():
                        g = aliases.get(k, k)
                        right = [f"{result}.answer"] if k == "answer" else [f"{result}.numbers.{g}", f"{result}.memory.{g}"]
                        if [f for f in ask if f not in ("answer", *STATES)] == [k]:
                            right.append(f"{result}.numbers")
                        if k in STATES:
                            right.append(f"{result}.memory")
                        if v not in right:
                            wrong.append(f"{name}: its {k} is taken from {v}")
                elif have not in (ask if isinstance(ask, tuple) else (ask,)):
                    wrong.append(f"{name}: argument {i} of {predicate} is {have}, not {ask}")
            tests = " && ".join(f"{TESTS[t]} {held(a)}" for a, t in args)
            said = re.search(rf"^  {re.escape(field)} = λ {call}\. (.*?);$", re.search(r"from_c = record \{(.*?)\n\}", from_c, re.S)[1], re.M | re.S)
            said = said and " ".join(said[1].split())
            if said != tests:
                wrong.append(f"{name}: from_c tests {said}, not {tests}")
    for name in sorted(set(code) - seen):
        wrong.append(f"{name} is exported, and KeepsFor says nothing of it")
    return wrong, len(seen)


sources, exports = ({f.stem: f.read_text() for f in sorted((ROOT / f"crates/{crate}/src").glob("*.rt")) if f.stem != "lib"} for crate in ("host", "host_c"))
contracts = (ROOT / "crates/demands/specs/Contracts.antt").read_text()
from_c = (ROOT / "crates/demands/specs/FromC.antt").read_text()
wrong, n = check(sources, exports, contracts, from_c)
for w in wrong:
    print("  " + w)
print(("FAIL" if wrong else "pass") + f": the contracts of {n} exported functions are those that the demands start from")

# errors that have to be found
planted = [
    ("c.a c.b c.vendor c.output\n", "c.b c.a c.vendor c.output\n", contracts),
    ("attempt = (x.step c).numbers.attempt;", "attempt = (x.step c).numbers.phase;", contracts),
    ("(x.read c).memory.coefficients (x.read c).memory.vendor", "(x.read c).memory.coefficients (x.read c).memory.coefficients", contracts),
    ("→ DecodesRun ", "→ PrecodesRun ", contracts),
    ("bit = (x.bit way c).numbers;", "bit = (x.bit way c).memory;", contracts),
    ("(x.history_start history).answer (x.history_start history).memory", "(x.history_start history).answer history", contracts),
    ("ended_at = (x.run_codes c).numbers.ended_at;\n        ", "", contracts),
    ("usize c.bits && buffer c.output", "u32 c.bits && buffer c.output", from_c),
    ("(x.receive c).memory.line (x.receive c).memory.frame", "(x.receive c).memory.frame (x.receive c).memory.line", contracts),
    ("  -- sdsl_shaper(y)\n", "", contracts),
    ("host::symbols::sdsl_precode(coefficients, history, xs, ys)", "host::symbols::sdsl_unprecode(coefficients, history, xs, ys)", "symbols"),
    ("host::data::sdsl_data_crc(form, size, frame)", "host::data::sdsl_data_crc(size, form, frame)", "data"),
    ("ensures { Started end silence result }", "ensures { Started silence end result }", "supervising"),
    ("#[unsafe(no_mangle)]\npub extern \"C\" fn sdsl_receive(", "pub extern \"C\" fn sdsl_receive(", "receiving"),
    ("Rattle.checker.specs.Promises.{Checked}", "Rattle.reader.specs.Promises.{Checked}", "frames"),
]
lost = 0
for old, new, text in planted:
    whole = exports[text] if text in exports else text
    assert whole.count(old) == 1, old
    changed = whole.replace(old, new)
    found, _ = check(sources, {**exports, text: changed} if text in exports else exports, changed if text is contracts else contracts, changed if text is from_c else from_c)
    if len(found) <= len(wrong):
        lost += 1
        print(f"  not found: {old.strip()} -> {new.strip()}")
print(("FAIL" if lost else "pass") + f": {len(planted)} planted errors in them are found")
sys.exit(bool(wrong or lost))
