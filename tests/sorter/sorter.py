"""The sorter's cases, from SCOPE and the sorter's man page alone: frames by tests/frames.py, and the texts put together here.
The command to run is given as arguments.
"""
import csv
import io
import os
import pathlib
import pty
import random
import shlex
import subprocess
import sys
import tempfile
import threading
import time

sys.path.insert(0, str(pathlib.Path(__file__).resolve().parents[1]))
from frames import FINAL, TRAINING, frame, payload, wrong  # noqa: E402

SEED = 20261117
MEANING = {
    1: "the file is not as long as a frame",
    5: "the sync word is neither of the two, so it is no frame",
    6: "a pad bit is not zero, so it is more than a frame",
    7: "the check bits differ, so it is damaged",
}
UNREAD, AGAIN = "cannot be read", "do not ship; capture its frame again"
# the verdicts but the refusals, the worst first, with what to do
TODO = {
    "final frame": "capture its training frame; this one has no A and B",
    "TURNED": "do not ship; words stand last bit first",
    "other words": "do not ship as a replacement; A or B differs",
    "match": "ship",
    "good": "compare with a customer's frame",
}
HEADING = ["file", "verdict", "what to do", "kind", "coefficients", "A", "B", "vendor", "vendor text"]
VENDOR = bytes(range(0xF0, 0x100))


# ---- frames

def training(coefficients, a, b, vendor=VENDOR, reserved=()):
    return frame(TRAINING, payload(coefficients, a, b, vendor, reserved))


def turned(word):
    """A word of 21 bits read last bit first."""
    return int(f"{word:021b}"[::-1], 2)


# ---- what is to be printed

def shown(name):
    return bytes(63 if octet < 32 or octet == 127 else octet for octet in name)


def as_text(vendor):
    """Vendor data as text: printable octets and then zeros only; else nothing."""
    bare = vendor.rstrip(b"\0")
    return bare.decode() if bare and all(32 <= octet <= 126 for octet in bare) else "-"


def refused(number, octets):
    """A refusal in words; of a wrong length, the length."""
    if number != 1:
        return f"refused {number}: {MEANING[number]}"
    if octets > 529:
        return "refused 1: the file has more than 529 octets"
    return f"refused 1: the file has {octets} octet{'s' * (octets != 1)}, a frame has 529"


class Card:
    """A file's name and what is in it: `number` is the refusal's, `words` are A and B of a training frame."""

    def __init__(self, name, octets, kind="-", cells=("-", "-", "-", "-", "-"), words=None, number=None):
        self.name = name if isinstance(name, bytes) else name.encode()
        self.octets, self.kind, self.cells, self.words, self.number = octets, kind, [str(c) for c in cells], words, number
        self.stored = octets

    def likes(self, customer):
        if self.words is None:
            return ["-", "-"]
        return ["same" if mine == theirs else "TURNED" if mine == turned(theirs) else "other" for mine, theirs in zip(self.words, customer)]

    def verdict(self, customer):
        """The verdict as the totals name it."""
        if self.octets is None:
            return UNREAD
        if self.number:
            return f"refused {self.number}: {MEANING[self.number]}"
        if not customer:
            return "good"
        if self.words is None:
            return "final frame"
        likes = self.likes(customer)
        return "TURNED" if "TURNED" in likes else "match" if likes == ["same", "same"] else "other words"

    def row(self, customer):
        verdict = self.verdict(customer)
        todo = "check the file" if verdict == UNREAD else AGAIN if self.number else TODO[verdict]
        told = refused(self.number, len(self.octets)) if self.number else verdict
        return [told, todo, self.kind] + self.cells + (self.likes(customer) if customer else [])

    def line(self, customer):
        return shown(self.name) + ("\t" + "\t".join(self.row(customer)) + "\n").encode()

    def named(self, name):
        return Card(name, self.octets, self.kind, self.cells, self.words, self.number)


def good(name, coefficients, a, b, vendor=VENDOR, reserved=()):
    highest = max((k for k, c in enumerate(coefficients, 1) if c), default=0)
    return Card(name, training(coefficients, a, b, vendor, reserved), "training", (highest, a, b, vendor.hex().upper(), as_text(vendor)), (a, b))


def bad(name, octets, number):
    return Card(name, octets, number=number)


def unread(name, stored=None):
    """A card that the program cannot read; what is stored under its name, if anything."""
    card = Card(name, None)
    card.stored = stored
    return card


def final(name, vendor=VENDOR, message=None):
    message = payload([], 0, 0, vendor) if message is None else message
    return Card(name, frame(FINAL, message), "final", ("-", "-", "-", vendor.hex().upper(), as_text(vendor)))


def heading(customer):
    return HEADING + (["A like", "B like"] if customer else [])


def totals(cards, customer=None):
    """The totals, counted here card by card."""
    verdicts = [card.verdict(customer) for card in cards]
    fine = verdicts.count("match" if customer else "good")
    out = [f"{len(cards)} card{'s' * (len(cards) != 1)}: {fine} " + (f"match, {len(cards) - fine} do not" if customer else f"good, {len(cards) - fine} bad")]
    lines = [(UNREAD, ": check the file")] + [(f"refused {n}: {MEANING[n]}", "; " + AGAIN) for n in sorted(MEANING)]
    lines += [(verdict, ": " + todo) for verdict, todo in TODO.items()]
    out += [f"{verdicts.count(verdict)} {verdict}{todo}" for verdict, todo in lines if verdict in verdicts]
    assert sum(int(line.split()[0]) for line in out[1:]) == len(cards)
    out.append("not " * (fine != len(cards)) + ("all match" if customer else "all good"))
    return "".join(line + "\n" for line in out).encode()


def printed(cards, customer=None):
    return ("\t".join(heading(customer)) + "\n").encode() + b"".join(card.line(customer) for card in cards) + totals(cards, customer)


def status(cards, customer=None):
    verdicts = {card.verdict(customer) for card in cards}
    return b"2" if UNREAD in verdicts else b"0" if verdicts == {"match" if customer else "good"} else b"1"


# ---- runs

failures = 0
command = [os.path.abspath(word) if "/" in word else word for word in sys.argv[1:]]


def report(name, right):
    global failures
    failures += not right
    print(("pass: " if right else "FAIL: ") + name)


def run(folder, words):
    got = subprocess.run(command + words, cwd=folder, capture_output=True, stdin=subprocess.DEVNULL)
    return got.returncode, got.stdout, got.stderr


def store(folder, cards):
    for card in cards:
        if card.stored is not None:
            (pathlib.Path(os.fsdecode(os.fsencode(folder) + b"/" + card.name))).write_bytes(card.stored)


def compare(name, got, wanted):
    right = got == wanted
    report(name, right)
    if not right:
        for mine, theirs in zip(got[1].splitlines(), wanted[1].splitlines()):
            if mine != theirs:
                print(f"  printed {mine!r}\n  and not {theirs!r}")
                break
        print(f"  ended with {got[0]}, {len(got[1])} octets for {len(wanted[1])}, said {got[2][:200]!r}")


def prepared(folder, cards, customer):
    """The cards' files and the customer's, and the words of a call."""
    store(folder, cards)
    if not customer:
        return [card.name for card in cards]
    (pathlib.Path(folder) / "customer").write_bytes(training([1], *customer))
    return ["--like", "customer"] + [card.name for card in cards]


def case(name, cards, customer=None):
    with tempfile.TemporaryDirectory() as folder:
        compare(name, run(folder, prepared(folder, cards, customer)), (0, printed(cards, customer), b""))


def separated(name, cards, customer=None):
    """The same as a spreadsheet reads it: every cell, CR LF behind each line, the totals on standard error."""
    with tempfile.TemporaryDirectory() as folder:
        ended, out, said = run(folder, ["--csv"] + prepared(folder, cards, customer))
        rows = list(csv.reader(io.StringIO(out.decode("latin-1"), newline=""), strict=True))
        wanted = [heading(customer)] + [[shown(card.name).decode("latin-1")] + card.row(customer) for card in cards]
        compare(name, (ended, repr(rows).encode(), said), (0, repr(wanted).encode(), totals(cards, customer)))
        report(name + ": lines end with CR LF", out.count(b"\r\n") == len(wanted) == out.count(b"\n"))


def digit(name, words, wanted, files=(), out=None):
    """The digit on descriptor 3, asked for as the installed script asks."""
    with tempfile.TemporaryDirectory() as folder:
        for file, octets in files:
            (pathlib.Path(os.fsdecode(os.fsencode(folder) + b"/" + os.fsencode(file)))).write_bytes(octets)
        call = " ".join(shlex.quote(os.fsdecode(word)) for word in command) + ' --status "$@"'
        to = f">{out}" if out else ">&4"
        script = f'exec 4>/dev/null; s=$({call} 3>&1 {to} 2>/dev/null); printf %s "$s"'
        got = subprocess.run(["sh", "-c", script, "sh"] + words, cwd=folder, capture_output=True, stdin=subprocess.DEVNULL)
        compare("status: " + name, (got.returncode, got.stdout, got.stderr), (0, wanted, b""))


def refusal(name, words, said, files=()):
    """Nothing on standard output, and `said` on standard error."""
    with tempfile.TemporaryDirectory() as folder:
        for file, octets in files:
            (pathlib.Path(folder) / file).write_bytes(octets)
        compare(name, run(folder, words), (0, b"", said))


rng = random.Random(SEED)
ONE = good("one.frame", [3, 0, -4], 5, 6)
SOUND = ONE.octets

# the two words of the task's example, and SCOPE's own frame
assert frame(TRAINING, payload([], 0, 0, bytes(16))) == bytes([0x9F, 0x35]) + bytes(527)
assert turned(1) == 1 << 20 and turned(0b110) == 0b11 << 18

case("one good card", [ONE])
case("SCOPE's example", [good("empty.frame", [], 0, 0, bytes(16))])
case("180 coefficients at the least, A and B at the most", [good("full.frame", [-2097152] * 180, 2097151, 2097151)])
case("coefficient 180 alone", [good("last.frame", [0] * 179 + [1], 1398101, 699050)])
case("a final frame", [final("final.frame")])
arbitrary = [rng.randrange(2) for _ in range(4197)]
carried = bytes(sum(arbitrary[4002 + 8 * k + j] << j for j in range(8)) for k in range(16))
case(f"a final frame with arbitrary payload (seed {SEED})", [final("arbitrary.frame", carried, arbitrary)])
case("refused 1: 0, 1, 528, 530 and 100000 octets",
     [bad(f"{n}.frame", (SOUND + bytes(100000))[:n], 1) for n in (0, 1, 528, 530, 100000)])
case("refused 5", [bad("sync.frame", wrong(SOUND, 1), 5)])
case("refused 6: each pad bit", [bad(f"pad-{n}.frame", wrong(SOUND, n), 6) for n in range(4228, 4233)])
case("refused 7: a message bit, a check bit", [bad("message.frame", wrong(SOUND, 15), 7), bad("check.frame", wrong(SOUND, 4227), 7)])
case("reserved bits set, the first, the last, two and all: good",
     [good(f"reserved-{k}.frame", [3], 5, 6, VENDOR, bits) for k, bits in enumerate(([1], [0] * 66 + [1], [1, 1], [1] * 67))])
case("refused 5 before 6, 6 before 7, 7 for a reserved bit that the check bits do not know of",
     [bad("5.frame", wrong(SOUND, 2, 4229, 4212), 5), bad("6.frame", wrong(SOUND, 4230, 4150), 6), bad("7.frame", wrong(SOUND, 4150), 7)])
case("a file that is not there, and a folder", [ONE, unread("nothing.frame"), unread(".")])
case("names with spaces, a tab, a new line, an escape, 127, and octets over 127",
     [ONE.named(name)
      for name in (b"a b", b" ", b"tab\there", b"line\nbreak", b"\x1b[2J", b"\x01\x1f\x7f", "größe".encode(), b"~", b"%s%n")])
# std opens a file by a name in UTF-8 alone: a sound frame under another name is not read (docs/DECISIONS.md, 201)
case("a name that is no text in UTF-8", [ONE, unread(b"\xff\xfe\x80", SOUND)])
case("a name of 255 octets", [ONE.named(b"n" * 255)])
case("an empty name", [ONE, unread("")])

customer = (1398102, 5)
both = [good("same.frame", [1], *customer), good("turned.frame", [1], turned(customer[0]), turned(customer[1])),
        good("other.frame", [1], 7, 9), good("mixed.frame", [1], customer[0], turned(customer[1]))]
case("beside a customer: the same, the words last bit first, others, one of each", both, customer)
case("beside a customer: all the same", [good(f"{k}.frame", [k], *customer) for k in range(1, 4)], customer)
case("beside a customer: one word turned in a list that is good", [both[0], good("b.frame", [1], customer[0], turned(customer[1]))], customer)
palindromes = (0b101010101010101010101, 0)
assert turned(palindromes[0]) == palindromes[0]
case("words that read the same from both ends are the same", [good("palindrome.frame", [1], *palindromes), both[2]], palindromes)
case("beside a customer: refused, unread and final cards have nothing to compare",
     [both[0], bad("7.frame", wrong(SOUND, 15), 7), unread("nothing.frame"), final("final.frame")], customer)
case("beside a customer: a final frame is not the same", [both[0], final("final.frame")], customer)
case("A is not compared with the customer's B", [good("exchanged.frame", [1], customer[1], customer[0])], customer)

with tempfile.TemporaryDirectory() as folder:
    compare("a name too long for a path is cut", run(folder, [b"n" * 5000]), (0, printed([unread(b"n" * 4096)]), b""))


def in_parts(path, parts):
    with open(path, "wb", buffering=0) as out:
        for part in parts:
            out.write(part)
            time.sleep(0.2)


with tempfile.TemporaryDirectory() as folder:
    pipe = os.path.join(folder, "one.frame")
    os.mkfifo(pipe)
    writer = threading.Thread(target=in_parts, args=(pipe, [SOUND[:1], SOUND[1:300], SOUND[300:]]))
    writer.start()
    compare("a frame that comes in parts through a named pipe", run(folder, ["one.frame"]), (0, printed([ONE]), b""))
    writer.join()
with tempfile.TemporaryDirectory() as folder, open("/dev/full", "wb") as full:
    store(folder, [ONE])
    for words in ([], ["--csv"]):
        got = subprocess.run(command + words + [ONE.name] * 3, cwd=folder, stdout=full, stderr=subprocess.PIPE)
        report(f"a full disk stops it after one message {words}", got.stderr == b"sorter: standard output: No space left on device\n")
    got = subprocess.run(command + ["--help"], cwd=folder, stdout=full, stderr=subprocess.PIPE)
    report("a full disk is told of --help too", got.stderr == b"sorter: standard output: No space left on device\n")

USAGE = b"usage: sorter [--like FILE] [--csv] [--status] [--] FILE...\n"
FILES = [("customer", SOUND), ("one", SOUND)]
refusal("no arguments", [], b"sorter: no cards\n" + USAGE)
refusal("--like alone", ["--like"], b"sorter: --like: the reference's FILE is missing\n" + USAGE)
refusal("--like behind the cards and no FILE", ["one", "--like"], b"sorter: --like: the reference's FILE is missing\n" + USAGE, FILES)
refusal("--like and another option", ["--like", "--csv", "one"], b"sorter: --like: the reference's FILE is missing\n" + USAGE, FILES)
refusal("--like and no card", ["--like", "customer"], b"sorter: no cards\n" + USAGE, FILES)
refusal("--like twice", ["--like", "customer", "one", "--like", "one"], b"sorter: --like stands twice\n" + USAGE, FILES)
NO = b": no such option; a file of that name is given as ./NAME\n"
for option in ("--bogus", "-h", "---", "--like=customer", "--csv2"):
    refusal(f"{option} is no option, before a card", [option, "one"], b"sorter: " + option.encode() + NO + USAGE, FILES)
    refusal(f"{option} is no option, behind a card", ["one", option], b"sorter: " + option.encode() + NO + USAGE, FILES)
refusal("the first wrong option is named", ["one", "-a", "-b"], b"sorter: -a" + NO + USAGE, FILES)
refusal("65537 files", ["x"] * 65537, b"sorter: more than 65536 cards\n" + USAGE)
WANTED = "; a training frame that reads is wanted\n"


def no_reference(name, octets, told):
    files = [("one", SOUND)] + ([("customer", octets)] if octets is not None else [])
    refusal("the reference: " + name, ["--like", "customer", "one"], f"sorter: the reference customer: {told}{WANTED}".encode(), files)
    digit("the reference: " + name, ["--like", "customer", "one"], b"2", files)


no_reference("damaged", wrong(SOUND, 15), refused(7, 529))
no_reference("too short", SOUND[:-1], refused(1, 528))
no_reference("a final frame", final("customer").octets, "final frame")
no_reference("not there", None, "cannot be read")


def told(name, words, starts):
    with tempfile.TemporaryDirectory() as folder:
        got = run(folder, words)
        report(name, got[0] == 0 and got[1].startswith(starts) and got[2] == b"")


for words in (["--help"], ["nothing", "--help"], ["--help", "--bogus"]):
    told(f"{words} tells how it is called", words, USAGE + b"Sorts ")
told("--version", ["--version"], b"sdsl-sorter 0.6.1\n")

# ---- arguments in any place
with tempfile.TemporaryDirectory() as folder:
    store(folder, [ONE, ONE.named("-dash"), ONE.named("--like")])
    (pathlib.Path(folder) / "customer").write_bytes(SOUND)
    beside = [ONE, ONE.named("-dash")]
    compare("--like behind the cards", run(folder, ["one.frame", "--like", "customer"]), (0, printed([ONE], (5, 6)), b""))
    compare("-- ends the options", run(folder, ["--like", "customer", "--", "one.frame", "-dash"]), (0, printed(beside, (5, 6)), b""))
    compare("--like behind -- is a file", run(folder, ["--", "one.frame", "--like"]), (0, printed([ONE, ONE.named("--like")]), b""))
    compare("./-dash is a file", run(folder, ["./-dash"]), (0, printed([ONE.named("./-dash")]), b""))
    compare("a lone - is a file", run(folder, ["-", "one.frame"]), (0, printed([unread("-"), ONE]), b""))
    compare("a reference whose name begins with a dash", run(folder, ["--like", "./-dash", "one.frame"]), (0, printed([ONE], (5, 6)), b""))
    third = subprocess.run(["sh", "-c", 'exec "$@" 3>third', "sh"] + command + ["one.frame"], cwd=folder, capture_output=True)
    report("without --status nothing is written to descriptor 3", third.stdout == printed([ONE]) and (pathlib.Path(folder) / "third").read_bytes() == b"")

# ---- the digit
digit("all good", ["one"], b"0", FILES)
digit("all match", ["one", "--like", "customer", "customer"], b"0", FILES)
digit("one refused", ["one", "two"], b"1", FILES + [("two", SOUND[:-1])])
digit("one TURNED", ["--like", "customer", "one", "two"], b"1", FILES + [("two", training([1], turned(5), 6))])
digit("a final frame beside a customer", ["--like", "customer", "two"], b"1", FILES + [("two", final("two").octets)])
digit("a final frame with no customer", ["two"], b"0", [("two", final("two").octets)])
digit("a file that is not there", ["one", "two"], b"2", FILES)
digit("a folder", ["one", "."], b"2", FILES)
digit("wrong use", ["--bogus"], b"2")
digit("no cards", [], b"2")
digit("a full disk", ["one"], b"2", FILES, "/dev/full")
digit("a full disk, comma-separated", ["one", "--csv"], b"2", FILES, "/dev/full")
digit("--help", ["--help"], b"0")
digit("--version", ["--version"], b"0")

# ---- comma-separated
TEXT = b"Acme, \"SDSL\" 4\0\0"
assert len(TEXT) == 16
separated("csv", [ONE, bad("528", SOUND[:-1], 1), unread("nothing"), good("vendor", [1], 5, 6, TEXT), final("final", TEXT)])
separated("csv beside a customer", both + [bad("528", SOUND[:-1], 1), final("final")], customer)
separated("csv: names with a comma, a quote, a tab, a line end, octets over 127",
          [ONE.named(name) for name in (b"a,b", b'"', b'a"b"', b"tab\there", b"line\nbreak", b"cr\rhere", b'","', "größe".encode(), b" x ")])

# ---- vendor data as text
for vendor in (TEXT, b"A" * 16, b"bench 7" + bytes(9), bytes(16), b"\0A" + bytes(14), b"A\0B" + bytes(13), b"tab\t" + bytes(12), b"~ " + bytes(14),
               b"\x7f" + bytes(15), "größe".encode("latin-1") + bytes(11), b" " * 16, b"line\n" + bytes(11)):
    case(f"vendor data {vendor!r} is told as {as_text(vendor)!r}", [good("one", [1], 5, 6, vendor), final("final", vendor)])

# ---- every pair of comparisons
kinds = {"same": 0b110, "TURNED": turned(0b110), "other": 5}
case("every pair of same, TURNED and other", [good(f"{p} {q}", [1], kinds[p], kinds[q]) for p in kinds for q in kinds], (0b110, 0b110))
case("one card that matches", [good("one", [1], *customer)], customer)
case("one card that does not", [good("one", [1], 7, 9)], customer)
case("every verdict at once", both + [final("final"), unread("nothing"), unread(".")] + [bad(str(n), (SOUND + bytes(9))[:n], 1) for n in (0, 1, 528, 530)]
     + [bad("sync", wrong(SOUND, 1), 5), bad("pad", wrong(SOUND, 4228), 6), bad("check", wrong(SOUND, 4227), 7),
        good("reserved", [3], *customer, VENDOR, [1, 1])], customer)


def any_card(k):
    name = f"card-{k:03}.frame"
    a, b = rng.choice([(1398102, 5), (turned(1398102), turned(5)), (rng.randrange(1 << 21), rng.randrange(1 << 21))])
    vendor = rng.choice([rng.randbytes(16), b"maker %d" % k + bytes(9 - len(str(k)) + 1)])[:16]
    vendor += bytes(16 - len(vendor))
    sound = good(name, [rng.choice([0, rng.randint(-2097152, 2097151)]) for _ in range(rng.randrange(181))], a, b, vendor)
    kind = rng.randrange(10)
    if kind == 0:
        return bad(name, sound.octets[:rng.randrange(529)], 1)
    if kind == 1:
        return bad(name, wrong(sound.octets, rng.randrange(15, 4228)), 7)
    if kind == 2:
        return bad(name, wrong(sound.octets, rng.randrange(4228, 4233)), 6)
    if kind == 3:
        return final(name, vendor)
    return sound


cards = [any_card(k) for k in range(340)]
case(f"340 cards (seed {SEED})", cards)
case(f"340 cards beside a customer (seed {SEED})", cards, (1398102, 5))
separated(f"340 cards beside a customer, comma-separated (seed {SEED})", cards, (1398102, 5))
with tempfile.TemporaryDirectory() as folder:
    store(folder, cards)
    names = [card.name for card in cards]
    digit("340 cards", names, status(cards), [(card.name, card.octets) for card in cards])


def with_terminal(cards, terminals):
    """What a run writes where standard error, or both, is a terminal."""
    with tempfile.TemporaryDirectory() as folder:
        store(folder, cards)
        ours, theirs = pty.openpty()
        out = theirs if terminals == 2 else subprocess.PIPE
        child = subprocess.Popen(command + [card.name for card in cards], cwd=folder, stdout=out, stderr=theirs, stdin=subprocess.DEVNULL)
        os.close(theirs)
        seen = b""
        while True:
            try:
                more = os.read(ours, 65536)
            except OSError:
                break
            if not more:
                break
            seen += more
        told = b"" if terminals == 2 else child.stdout.read()
        child.wait()
        os.close(ours)
        return told, seen


def number(k, count):
    return f"\r\x1b[Ksorter: card {k} of {count}".encode()


many = [good(f"{k:02}.frame", [k], k, k) for k in range(30)]
told, seen = with_terminal(many, 1)
report("a long list shows how far it has come where standard error is a terminal",
       told == printed(many) and seen == b"".join(number(k, 30) for k in range(1, 31)) + b"\r\x1b[K")
told, seen = with_terminal(many[:20], 1)
report("a list of 20 shows nothing", told == printed(many[:20]) and seen == b"")
told, seen = with_terminal(many, 2)
lines = printed(many).replace(b"\n", b"\r\n").splitlines(keepends=True)
wanted = lines[0] + b"".join(number(k + 1, 30) + b"\r\x1b[K" + lines[k + 1] for k in range(30)) + b"\r\x1b[K" + b"".join(lines[31:])
report("on one terminal the lines stand clear of it", seen == wanted)
sys.exit(failures != 0)
