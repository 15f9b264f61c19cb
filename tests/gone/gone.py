"""No way is left to send an activation frame that is not scrambled: the two functions that made it possible are gone, and nothing has come
in their place.

    gone.py NM ARCHIVE OTHER   NM lists the symbols of ARCHIVE; OTHER is the same archive with an old function in it

At the end each of these rules is broken in a copy, and that has to be seen.
"""
import functools
import pathlib
import re
import subprocess
import sys

ROOT = pathlib.Path(__file__).resolve().parents[2]
SKIPPED = {".git", "build"}

# The functions' names, in C and in Rattle, and the crate's; `descramble_frame` stays, and so do the crates datawriter and eocwriter.
OLD_FUNCTION = re.compile(r"frame_write|(?<!de)scramble_frame")
OLD_NAME = re.compile(OLD_FUNCTION.pattern + r"|(?<!\w)writer::|Rattle[.·]writer\b|crates/writer\b|(?<!\w)writer/(?:src|specs|proofs|must-fail)\b")
# Where they may stand: what changed and when, this test, and one line for those who have to change a host.
HISTORY = re.compile(r"CHANGELOG\.md|docs/landings/\w+\.md|tests/gone/\w+(\.py)?")
FOR_HOSTS = "What was `sdsl_frame_write` and `sdsl_scramble_frame` is `sdsl_frame_send`."

# What C has of activation frames and of the scrambler; `frame` is written by these alone, and the last two are not the activation frame's.
IN_C = {
    "sdsl_frame_send", "sdsl_frame_check", "sdsl_frame_read", "sdsl_scrambler_start", "sdsl_scramble_bit", "sdsl_descramble_bit",
    "sdsl_scramble", "sdsl_descramble", "sdsl_descramble_frame",
}
WRITE_A_FRAME_IN_C = {"sdsl_frame_send", "sdsl_receive", "sdsl_data_write"}
# And the same of the crates.
WRITE = {"datawriter::write", "eocwriter::write"}
WRITE_A_FRAME = {"sender::send", "receiver::receive", "datawriter::write"} | {f"{crate}::{name}" for crate in ("host", "host_c") for name in WRITE_A_FRAME_IN_C}
SEND = {"sender::send", "host::sdsl_frame_send", "host_c::sdsl_frame_send"}
FIELDS = {"kind", "count", "coefficients", "vendor"}
SCRAMBLE = {"scrambler::scramble_run", "scrambler::descramble_run", "scrambler::descramble_frame"}
THROUGH = {"scrambler::descramble_frame", "host::sdsl_descramble_frame", "host_c::sdsl_descramble_frame"}


def tree():
    """Every file of the tree, by its path from the top, as text."""
    tops = [top for top in ROOT.iterdir() if top.name not in SKIPPED]
    files = [file for top in tops for file in ([top] if top.is_file() else top.rglob("*")) if file.is_file() and not {"__pycache__", "out"} & set(file.parts)]
    return {str(file.relative_to(ROOT)): file.read_text(encoding="utf-8", errors="replace") for file in sorted(files)}


def symbols(nm, archive):
    """The archive's symbols, local ones too: (letter, name)."""
    text = subprocess.run([nm, archive], check=True, capture_output=True, text=True).stdout
    return re.findall(r"^[0-9a-f ]* ([A-Za-z]) (\S+)$", text, re.M)


@functools.cache
def public_in(crate, text):
    """A source's public functions, as crate::function: its arguments with their types, and what it returns."""
    functions = re.finditer(r'\bpub (?:extern "C" )?fn (\w+)(?:<[^>]*>)?\(([^)]*)\)\s*(?:-> ([^\n{]*))?', re.sub(r"//[^\n]*", "", text))
    found = []
    for f in functions:
        arguments = [a.split(":", 1) for a in f[2].split(",") if ":" in a]
        found.append((f"{crate}::{f[1]}", {name.strip(): kind.strip() for name, kind in arguments}, (f[3] or "").strip()))
    return found


def public(files):
    """All public functions of the crates."""
    return [f for path, text in files.items() if (m := re.match(r"crates/(\w+)/src/.*\.rt$", path)) for f in public_in(m[1], text)]


def lent(arguments):
    """Those that the function may write."""
    return {name for name, kind in arguments.items() if kind.startswith("&mut ")}


@functools.cache
def old_names(text):
    """The lines of a text that have an old name: number, line, name."""
    if not OLD_NAME.search(text):
        return []
    return [(n, line, m[0]) for n, line in enumerate(text.split("\n"), 1) if (m := OLD_NAME.search(line))]


def declared(header):
    """Each function that the header declares, and the buffers that it writes."""
    plain = re.sub(r"/\*.*?\*/|//[^\n]*", "", header, flags=re.S)
    for f in re.finditer(r"\b(sdsl_\w+)\(([^()]*)\)\s*[;{]", plain):
        yield f[1], re.findall(r"(?<!const )uint8_t \*(\w+)", f[2])


def of_frames(names):
    return {name for name in names if re.match(r"sdsl_(frame|scramble|descramble)", name)}


def archive_wrong(files, archive):
    names = {name for _, name in archive}
    exported = {name for letter, name in archive if letter == "T"}
    wrong = [f"{name} is in the archive" for name in sorted(names) if OLD_NAME.search(name)]
    return wrong + [f"the archive exports {sorted(of_frames(exported))}"] * (of_frames(exported) != IN_C)


def header_wrong(files, archive):
    header = files["include/sdsl.h"]
    functions = dict(declared(header))
    writers = {name for name, written in functions.items() if "frame" in written}
    wrong = [f"the header has {m[0]}" for m in OLD_FUNCTION.finditer(header)]
    wrong += [f"the header declares {sorted(of_frames(functions))}"] * (of_frames(functions) != IN_C)
    return wrong + [f"a frame is written by {sorted(writers)}"] * (writers != WRITE_A_FRAME_IN_C)


def crate_wrong(files, archive):
    listed = re.findall(r"^(\w+)(?: staticlib)?:(.*)$", files["crates.txt"], re.M)
    wrong = ["there is a folder crates/writer"] * any(path.startswith("crates/writer/") for path in files)
    return wrong + [f"crates.txt: {name} names writer" for name, used in listed if "writer" in [name, *used.split()]]


def sender_wrong(files, archive):
    found = sorted(name for name, _, _ in public(files) if name.startswith("sender::"))
    return [] if found == ["sender::send"] else [f"crates/sender has the public functions {found}"]


def writer_wrong(files, archive):
    wrong = []
    for name, arguments, returned in public(files):
        written = lent(arguments)
        taken = FIELDS & (arguments.keys() - written)
        if name.endswith("::write") and name not in WRITE:
            wrong.append(f"{name} is public")
        if "frame" in written and name not in WRITE_A_FRAME:
            wrong.append(f"{name} is public and writes a frame")
        if len(taken) > 1 and written and name not in SEND:
            wrong.append(f"{name} is public and makes something of {', '.join(sorted(taken))}")
        if re.search(r"\[u8; [\w:]*FRAME_OCTETS\]", returned):
            wrong.append(f"{name} is public and returns a frame")
    return wrong


def scrambler_wrong(files, archive):
    functions = public(files)
    found = {name for name, arguments, _ in functions if name.startswith("scrambler::") and lent(arguments)}
    wrong = [f"of the scrambler's public functions these write: {sorted(found)}"] * (found != SCRAMBLE)
    through = {name for name, arguments, _ in functions
               if arguments.get("frame") == "&[u8]" and "output" in lent(arguments)}
    wrong += [f"a whole frame goes through {sorted(through)}"] * (through != THROUGH)
    named = {name for path, text in files.items() if path.startswith("crates/") for _, _, name in old_names(text)}
    return wrong + [f"{name} is in crates/" for name in sorted(named)]


def handed(files, function, argument):
    """What a function of sender hands an argument to, in its order, and how often it names the argument at all."""
    text = re.sub(r"//[^\n]*", "", files["crates/sender/src/lib.rt"])
    body = re.search(rf"\bfn {function}\(.*?\n{{\n(.*?)\n}}\n", text, re.S)[1]
    calls = re.finditer(r"([\w:]+)\(([^()]|\([^()]*\))*?(?<![\w.])" + argument + r"\b", body)
    return [call[1] for call in calls], len(re.findall(rf"(?<![\w.]){argument}\b", body))


def lent_wrong(files, archive):
    """The room that is lent is given to the checks, which only look, and to what copies the sync bits, scrambles and clears the pad."""
    due = {
        ("send", "frame"): ["allowed", "scrambled"],
        ("scrambled", "room"): ["clocked", "octets::clear"],
        ("clocked", "room"): ["octets::copy", "recurrence::run"],
    }
    found = {place: handed(files, *place) for place in due}
    return [f"{function} hands the lent room to {found[function, name][0]}"
            for (function, name), calls in due.items() if found[function, name] != (calls, len(calls))]


def names_wrong(files, archive):
    wrong = []
    for path, text in files.items():
        if HISTORY.fullmatch(path):
            continue
        wrong += [f"{path}: is named so"] * bool(OLD_NAME.search(path))
        wrong += [f"{path}:{n}: {name}" for n, line, name in old_names(text) if not (path == "README.md" and line == FOR_HOSTS)]
    return wrong


def hosts_wrong(files, archive):
    told = files["README.md"].split("\n").count(FOR_HOSTS)
    return [] if told == 1 else [f"README.md has it {told} times"]


RULES = {
    archive_wrong: "the archive has no old function, and of frames and scrambling exports what it should",
    header_wrong: "the header neither, and no other function of it writes a frame",
    crate_wrong: "there is no crate writer",
    sender_wrong: "crates/sender has one public function, send",
    writer_wrong: "no other public function of the crates writes an activation frame",
    scrambler_wrong: "none scrambles a whole one",
    lent_wrong: "sender hands the lent room to nothing that writes into it a frame as it is before scrambling",
    names_wrong: "the old names stand in CHANGELOG.md, in docs/landings, here, and nowhere else",
    hosts_wrong: "but for README's line for hosts that must change",
}

files, archive, other = tree(), symbols(*sys.argv[1:3]), symbols(sys.argv[1], sys.argv[3])
failed = 0
found = {rule: rule(files, archive) for rule in RULES}
for rule, text in RULES.items():
    for wrong in found[rule]:
        print("  " + wrong)
    print(("FAIL: " if found[rule] else "pass: ") + text)
    failed += bool(found[rule])


# Errors that have to be seen: the rule that sees it, a file, and what is put at its end.
PLANTED = [
    (header_wrong, "include/sdsl.h", "uint32_t sdsl_frame_write(uint32_t kind, uint8_t *frame, size_t frame_len);"),
    (header_wrong, "include/sdsl.h", "/* see sdsl_scramble_frame */"),
    (header_wrong, "include/sdsl.h", "uint32_t sdsl_make(uint32_t kind, uint8_t *frame, size_t frame_len);"),
    (crate_wrong, "crates.txt", "writer: answer"),
    (crate_wrong, "crates.txt", "other: datawriter writer"),
    (crate_wrong, "crates.txt", "other staticlib: writer"),
    (crate_wrong, "crates/writer/src/lib.rt", "fn write()"),
    (sender_wrong, "crates/sender/src/more.rt", "pub fn put_training(frame: &mut [u8])"),
    (writer_wrong, "crates/layout/src/lib.rt", "pub fn write(octets: &mut [u8])"),
    (writer_wrong, "crates/reader/src/lib.rt", "    pub fn finish(\n        self,\n        frame: &mut [u8],\n    ) -> u32"),
    (writer_wrong, "crates/host/src/frames.rt", "pub fn sdsl_make(kind: u32, vendor: &[u8], room: &mut [u8]) -> u32"),
    (writer_wrong, "crates/host_c/src/frames.rt", 'pub extern "C" fn sdsl_make(kind: u32, vendor: &[u8], room: &mut [u8]) -> u32'),
    (writer_wrong, "crates/layout/src/lib.rt", "pub fn made(kind: u32) -> [u8; FRAME_OCTETS]"),
    (scrambler_wrong, "crates/scrambler/src/lib.rt", "pub fn frame(back: bool, input: &[u8], output: &mut [u8]) -> u32"),
    (scrambler_wrong, "crates/host_c/src/frames.rt", 'pub extern "C" fn sdsl_line(frame: &[u8], output: &mut [u8]) -> u32'),
    (scrambler_wrong, "crates/scrambler/src/lib.rt", "fn scramble_frame()"),
    (names_wrong, "docs/DESIGN.md", "`sdsl_frame_write`"),
    (names_wrong, "man/sdsl.3", ".BR sdsl_scramble_frame ()"),
    (names_wrong, "tests/second/reference.c", "ref_frame_write();"),
    (names_wrong, "crates/demands/proofs/Exact.antt", "use Rattle.writer.specs.Promises"),
    (names_wrong, "crates/host/src/lib.rt", "writer::write(0)"),
    (names_wrong, "crates/host/proofs/frames/sdsl_frame_write/Proof.antt", ""),
    (names_wrong, "README.md", "Once it was `sdsl_frame_write`."),
    (hosts_wrong, "README.md", FOR_HOSTS),
]


def seen(rule, changed, symbols_then):
    return bool(set(rule(changed, symbols_then)) - set(found[rule]))


def at_end(path, text):
    return {**files, path: files.get(path, "") + text + "\n"}


unseen = [f"{path}: {text}" for rule, path, text in PLANTED if not seen(rule, at_end(path, text), archive)]
# and what is changed in a file
CHANGED = [
    (lent_wrong, "crates/sender/src/lib.rt", "put(&mut plain, kind", "put(frame, kind"),
    (lent_wrong, "crates/sender/src/lib.rt", "    scrambled(x, &plain, frame)", "    octets::copy(frame, 0, &plain, 0, 4227);\n    scrambled(x, &plain, frame)"),
    (lent_wrong, "crates/sender/src/lib.rt", "octets::copy(room, 0, plain", "octets::copy(frame, 0, plain"),
]
for rule, path, old, new in CHANGED:
    assert files[path].count(old) == 1, old
    unseen += [f"{path}: {new}"] * (not seen(rule, {**files, path: files[path].replace(old, new)}, archive))
without = {**files, "README.md": files["README.md"].replace(FOR_HOSTS, "")}
unseen += ["README.md without its line for hosts"] * (not seen(hosts_wrong, without, archive))
unseen += ["the archive with an old function"] * (not seen(archive_wrong, files, other))
for text in unseen:
    print("  not seen: " + text)
print(("FAIL: " if unseen else "pass: ") + f"{len(PLANTED) + len(CHANGED) + 2} errors planted in copies are seen")
# And what stays is not taken for what went.
STAYS = "descramble_frame sdsl_descramble_frame datawriter::write eocwriter::write Rattle.datawriter crates/eocwriter a writer, writers"
refused = seen(names_wrong, at_end("docs/DESIGN.md", STAYS), archive)
print(("FAIL: " if refused else "pass: ") + "names that stay are not taken for one")
sys.exit(bool(failed or unseen or refused))
