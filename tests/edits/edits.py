"""Where `rt ci` refuses a crate with an edit, it is for a fact that no longer holds, and each wrong program in the edit is refused by itself.

An edit may hold several wrong programs, each in a function of its own and under a line `# NAME (FUNCTION): what is wrong`. A function is
proved against its own code and its callees' contracts, so one wrong function does not hide another. But rt prints one line for an edit,
with one error, and keeps no log. So each edit is checked here once more, in a copy of the tree, over the libraries that rt built: what
`rt check` prints, all of it, is kept in build/must-fail. It has to have an error in the proof of each FUNCTION, and one that is not just
about another proof that was refused, or about a name; where the prover searches that proof, the goal that it did not prove. Where another wrong program of
the edit kept rt from searching it, this one is tried alone.

Several edits of definitions share a file in the same way, each under a line `# NAME (proofs/MODULE): what is wrong` with the module whose
laws no longer hold: there has to be such an error in that module's file.

An edit of one definition has no such line. There the error has to stand in a proof.

No error may stand in specs/ or src/: then what was edited is no definition or no program, as where it names what its crate does not. And no
name may be missing, but for names that rt makes of the function's own code, of a goal or of a fact that a branch gives: with another condition
they are others. Where that is all that its proof is refused for, the function is checked alone, its proof with the names that the wrong code
has: then a fact has to fail in it. Or it is checked without its answers: then the prover searches them, and has to find values at which a goal
is false.

usage: python3 tests/edits/edits.py [CRATE..]
"""
import concurrent.futures
import os
import pathlib
import queue
import re
import shutil
import subprocess
import sys
import tempfile

ROOT = pathlib.Path(__file__).resolve().parents[2]
LOGS = ROOT / "build" / "must-fail"
SECONDS = 1800  # for one check
ERROR = re.compile(r"^(?:\./)?((?:proofs|specs|src)/\S+?):\d+:\d+: error(?:\[[\w-]+\])?: (.*(?:\n  .*)*)", re.M)  # and the lines that go on with it
# what the prover says of a name that it does not find: then no fact was looked at
NAMELESS = re.compile(r"no module|can be named from here|has no field|is not in scope|is no name|has no `|exports no `")
# and of what rests on another declaration that was refused
ELSEWHERE = re.compile(r"was not admitted|were not admitted")


def pairs(edit):
    """The edit's pairs, as (the wrong program that it is of, the file, old, new)."""
    program, path, old, found = None, "", None, []
    for line in edit.read_text().split("\n"):
        if m := re.match(r"# (\w+) \(([\w:/]+)\)", line):
            program = (m[1], m[2])
        elif line.startswith("file: "):
            path = line[6:].strip()
        elif line.startswith("old: "):
            old = line[5:]
        elif line.startswith("new:"):
            found.append((program, path, old, line[4:].removeprefix(" ")))
    return found


def files(function):
    """Where the function's proof stands, or the module of proofs/."""
    if function.startswith("proofs/"):
        return [f"{function}.antt"]
    *outer, last = function.split("::")
    folders = ["/".join(["proofs", *outer, own]) for own in (last, "+" + last)]  # the second where the function calls itself
    return [f"{folder}/{name}.antt" for folder in folders for name in ("Answers", "Invariants", "Proof")]


def errors(log):
    """The log's errors, as (file, text); where rt puts the nearest name on a line before the one that is missing, in its usual order."""
    for path, text in ERROR.findall(log):
        yield path, re.sub(r" (\(nearest: [^)]*\))\n  (has no field `\S+`)", r" \2 \1", text)


def refused(log, crate, function):
    """Whether the log has a fact that fails in this function's own proof, or in this module of proofs/."""
    own = [text for path, text in errors(log) if path in files(function)]
    if any(not NAMELESS.search(text) and not ELSEWHERE.search(text) for text in own):
        return function.startswith("proofs/") or bool(re.search(rf"^fn {crate}::{function}: (not proved|no proof)", log, re.M))
    return not own and bool(re.search(rf"^fn {crate}::{function}: (not proved|no proof).*`search` did not prove", log, re.M))


def unread(log, crate, functions):
    """What the log has that shows no wrong fact: an error in specs/ or src/, or a name that is not found."""
    for path, text in errors(log):
        if not path.startswith("proofs/"):
            return f"an error in {path}: {text}"
        made = re.search(r"(?:module|record) `Rattle\.\w+\.proofs\.\S+\.(?:Goals|Lts)\b\S*` has no ", text)
        if NAMELESS.search(text) and not (made and any(path in files(f) for f in functions)):
            return f"a name that is not found, in {path}: {text}"
    return ""


def false(log, crate, function):
    """Whether a search for the function's proof, which it has no more, came to values at which a goal is false."""
    left = re.search(rf"^fn {crate}::{function}: no proof: .*`search` did not prove (.*)", log, re.M)
    goals = re.findall(r"^note: src/\S+: .*\(`([^`]+)`\); the facts known there allow values at which this goal is false", log, re.M)
    return bool(left and set(goals) & set(re.findall(r"`([^`]+)`", left[1])))


def renamed(log, function):
    """The names that rt made of the right code in this function's proof and that the wrong code has not, each with the one that it has."""
    found = {}
    for path, text in errors(log):
        if path not in files(function):
            continue
        for m in re.finditer(r"has no field `if-(\S+)` \(nearest: \.if-([^\s,)]+)|has no `(?:then|else)-(\S+)` .*?begin alike: `(?:then|else)-([^`]+)`", text):
            found[m[1] or m[3]] = m[2] or m[4]
    return found


def linked(one, other):
    """A second name for a file, where that can be had: rt writes into no file of a library, it makes a new one."""
    try:
        os.link(one, other)
    except OSError:
        shutil.copy2(one, other)


class Copy:
    """A copy of the tree, with the libraries that rt built."""

    def __init__(self, top):
        self.top = pathlib.Path(top)
        shutil.copy(ROOT / "crates.txt", self.top)
        for crate in (ROOT / "crates").iterdir():
            to = self.top / "crates" / crate.name
            for part in ("src", "specs", "proofs"):
                if (crate / part).is_dir():
                    shutil.copytree(crate / part, to / part)
            if (crate / "out" / "rlib").is_dir():
                shutil.copytree(crate / "out" / "rlib", to / "out" / "rlib", copy_function=linked)

    def check(self, crate, changes, only, bare=False, names=None):
        """What rt check says of the crate with these pairs, of the functions named, or of all of it; bare: without those functions' answers;
        names: with other names in their proofs."""
        folder = self.top / "crates" / crate
        texts = {}
        for _, path, old, new in changes:
            text = texts.get(path) or (folder / path).read_text()
            if text.count(old) != 1:
                return f"{path} has an old text {text.count(old)} times: {old}\n"
            texts[path] = text.replace(old, new)
        away = [folder / path for f in only for path in files(f) if bare and "Invariants" not in path and (folder / path).exists()]
        for path in [path for f in only for path in files(f) if names and (folder / path).exists()]:
            said = "|".join(map(re.escape, sorted(names, key=len, reverse=True)))
            texts[path] = re.sub(rf"(?<!\w)(if|then|else)-({said})(?!\w)", lambda m: f"{m[1]}-{names[m[2]]}", texts.get(path) or (folder / path).read_text())
        try:
            for path, text in texts.items():
                (folder / path).write_text(text)
            for path in away:
                path.rename(f"{path}.away")
            words = ["rt", "check", "--jobs", "1"] + [w for f in only for w in ("--only", f)]
            ran = subprocess.run(words, cwd=folder, stdin=subprocess.DEVNULL, stdout=subprocess.PIPE, stderr=subprocess.STDOUT, errors="replace", timeout=SECONDS)
            return ran.stdout
        except subprocess.TimeoutExpired:
            return f"rt check did not end within {SECONDS} s\n"
        finally:
            for path in away:
                pathlib.Path(f"{path}.away").rename(path)
            for path in texts:
                shutil.copy(ROOT / "crates" / crate / path, folder / path)


def tried(copy, edit, name, changes, functions, **how):
    whole = not functions or any(f.startswith("proofs/") for f in functions)
    log = copy.check(edit.parts[-3], changes, [] if whole else functions, **how)
    to = LOGS / edit.parts[-3] / f"{name}.log"
    to.parent.mkdir(parents=True, exist_ok=True)
    to.write_text(log)
    return log


def judge(copy, edit):
    """The lines to print of an edit."""
    crate, changes = edit.parts[-3], pairs(edit)
    programs = list(dict.fromkeys(program for program, *_ in changes if program))
    functions = [function for _, function in programs]
    if len(set(functions)) != len(functions):  # then an error would not say which of the two it is of
        yield f"FAIL: {crate}/{edit.stem}: two wrong programs of one function or module"
    log = tried(copy, edit, edit.stem, changes, functions)
    why = unread(log, crate, functions)
    if not programs:
        facts = [path for path, text in errors(log) if not ELSEWHERE.search(text)]
        facts += [f"fn {f}" for f in re.findall(r"^fn (\S+): (?:not proved|no proof).*`search` did not prove", log, re.M)]
        right = facts and not why
        yield f"{'pass' if right else 'FAIL'}: {crate}/{edit.stem}, {facts[0] if facts else 'no error in a proof'}{f' ({why})' if why else ''}"
    for name, function in programs:
        right, here = not why and refused(log, crate, function), why
        alone = [change for change in changes if change[0] == (name, function)]
        if not right and len(programs) > 1:
            own = tried(copy, edit, f"{edit.stem}.{name}", alone, [function])
            here = unread(own, crate, [function])
            right = not here and refused(own, crate, function)
        if not right and not here and (names := renamed(own if len(programs) > 1 else log, function)):
            own = tried(copy, edit, f"{edit.stem}.{name}.renamed", alone, [function], names=names)
            here = unread(own, crate, [function])
            right = not here and refused(own, crate, function)
        if not right and not here and not function.startswith("proofs/"):
            own = tried(copy, edit, f"{edit.stem}.{name}.bare", alone, [function], bare=True)
            here = unread(own, crate, [function])
            right = not here and false(own, crate, function)
        said = "" if right else f" is NOT refused in its own proof{f' ({here})' if here else ''}: build/must-fail/{crate} has the logs"
        yield f"{'pass' if right else 'FAIL'}: {crate}/{name}, {function}{said}"


def main():
    edits = [e for e in sorted(ROOT.glob("crates/*/must-fail/*.edit")) if not sys.argv[1:] or e.parts[-3] in sys.argv[1:]]
    crates = sorted({e.parts[-3] for e in edits}, key=lambda c: -sum(len(pairs(e)) for e in edits if e.parts[-3] == c))
    free = os.sysconf("SC_AVPHYS_PAGES") * os.sysconf("SC_PAGE_SIZE")
    workers = max(1, min(os.cpu_count() or 1, len(crates), free // 2_500_000_000))
    with tempfile.TemporaryDirectory() as room:
        copies = queue.Queue()
        for n in range(workers):
            (pathlib.Path(room) / str(n)).mkdir()
            copies.put(Copy(pathlib.Path(room) / str(n)))

        def of(crate):
            copy = copies.get()
            try:
                return [line for e in edits if e.parts[-3] == crate for line in judge(copy, e)]
            finally:
                shutil.rmtree(copy.top / "crates" / crate / "out" / "incremental", ignore_errors=True)
                copies.put(copy)

        with concurrent.futures.ThreadPoolExecutor(workers) as pool:
            said = [line for lines in pool.map(of, crates) for line in lines]
    print("\n".join(sorted(said, key=lambda line: line.split(": ", 1)[1])))
    if not edits:
        print("FAIL: no edits")
    sys.exit(bool(not edits or any(line.startswith("FAIL") for line in said)))


main()
