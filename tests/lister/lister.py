"""The lister's cases: the listing from SCOPE alone, frames by tests/frames.py and the text put together here; the words on standard error
and the rest written out by hand. The command to run is given as arguments.
"""
import os
import pathlib
import pty
import random
import subprocess
import sys
import tempfile

sys.path.insert(0, str(pathlib.Path(__file__).resolve().parents[1]))
from frames import FINAL, TRAINING, divided, frame, frame_bits, in_octets, payload, wrong  # noqa: E402

SEED = 20261116
LEAST, MOST = -2097152, 2097151


def check_digits(message):
    return f"{int(''.join(map(str, divided(message))), 2):04X}"


def last_lines(vendor, message):
    return f"vendor {''.join(f'{octet:02X}' for octet in vendor)}\ncheck {check_digits(message)}\n"


def training(coefficients, a, b, vendor, reserved=()):
    """A training frame, and the text for it; its reserved bits have no line."""
    message = payload(coefficients, a, b, vendor, reserved)
    highest = 0
    for k, c in enumerate(coefficients, 1):
        if c != 0:
            highest = k
    lines = "".join(f"c {k} {coefficients[k - 1]}\n" for k in range(1, highest + 1))
    text = f"kind training\ncoefficients {highest}\n{lines}A {a}\nB {b}\n" + last_lines(vendor, message)
    return in_octets(frame_bits(TRAINING, message)), text


def final(message, vendor):
    return in_octets(frame_bits(FINAL, message)), "kind final\n" + last_lines(vendor, message)


failures = 0


def run(octets, *arguments):
    got = subprocess.run(sys.argv[1:] + list(arguments), input=octets, capture_output=True)
    return got.returncode, got.stdout, got.stderr


def report(name, right):
    global failures
    failures += not right
    print(("pass: " if right else "FAIL: ") + name)


def compare(name, got, text, words):
    right = got == (0, text.encode("ascii"), words.encode("ascii"))
    report(name, right)
    if not right:
        print(f"  ended with {got[0]}, printed {got[1][:300]!r} and {got[2][:300]!r}\n  and not {text[:300]!r} and {words[:300]!r}")


def case(name, octets, text, words=""):
    """Standard output is SCOPE's, to the octet; standard error has the words."""
    compare(name, run(octets), text, words)


def status(arguments, octets=b"", stdout=None):
    """The digit on descriptor 3, by the shell's own means, as a wrapper asks for it."""
    script = 'exec 4>&1; s=$("$@" 3>&1 >&4 2>/dev/null); printf %s "$s" >&2'
    with tempfile.TemporaryFile() as file:
        file.write(octets)
        file.seek(0)
        command = ["sh", "-c", script, "sh"] + sys.argv[1:] + arguments
        return subprocess.run(command, stdin=file, stdout=stdout or subprocess.DEVNULL, stderr=subprocess.PIPE).stderr


def on_terminal(octets):
    """What is written to standard error where that is a terminal."""
    master, slave = pty.openpty()
    got = subprocess.run(sys.argv[1:], input=octets, stdout=subprocess.PIPE, stderr=slave)
    os.close(slave)
    said = b""
    try:
        while more := os.read(master, 4096):
            said += more
    except OSError:
        pass
    os.close(master)
    return got.stdout, said.replace(b"\r\n", b"\n")


CUT = "a frame has 529: it is cut short; capture it again\n"
LONG = "lister: the file has more than 529 octets, a frame has 529: a file holds one frame; capture it again\n"
SYNC = "lister: the sync word is neither of the two: this is no descrambled frame, or its octets hold the first bit highest; capture it again\n"
PAD = "lister: a pad bit is not zero: the last octet holds more than the end of a frame; capture it again\n"
CHECK = "lister: the check bits differ: the frame is damaged; capture it again\n"
USAGE = "usage: lister [--status] [FILE]\n"


rng = random.Random(SEED)
zeros = bytes(16)
counted = bytes(range(0xF0, 0x100))
none = [0] * 180

# SCOPE's example, its octets and its text written out
example = bytes([0x9F, 0x35]) + bytes(527)
case("SCOPE's example", example,
     "kind training\ncoefficients 0\nA 0\nB 0\nvendor 00000000000000000000000000000000\ncheck 0000\n")
assert training(none, 0, 0, zeros)[0] == example

case("c 1 -131072", *training([-131072], 1, 1048576, counted))
case("180 coefficients at the least", *training([LEAST] * 180, MOST, MOST, counted))
case("180 coefficients at the most", *training([MOST] * 180, MOST, 0, counted[::-1]))
case("zeros between non-zero ones", *training([0, 5, 0, 0, -1, 0, 0, 7] + [0] * 120 + [-10, 0, 0], 9, 10, counted))
case("coefficient 180 alone", *training([0] * 179 + [1], 0, 100, zeros))
case("coefficient 1 alone, 10", *training([10], 99, 101, zeros))

empty = payload([], 0, 0, counted, [0] * 67)
case("a final frame", *final(empty, counted))
arbitrary = [rng.randrange(2) for _ in range(4197)]
place = 4017 - 15
carried = in_octets(arbitrary[place:place + 128])
case("a final frame with arbitrary payload and reserved bits", *final(arbitrary, carried))

good = training([3, 0, -4], 5, 6, counted)[0]
case("refused 5: sync", wrong(good, 1), "refused 5\n", SYNC)
case("refused 6: the first pad bit", wrong(good, 4228), "refused 6\n", PAD)
case("refused 6: the last pad bit", wrong(good, 4232), "refused 6\n", PAD)
case("refused 7: a message bit", wrong(good, 15), "refused 7\n", CHECK)
case("refused 7: a check bit", wrong(good, 4227), "refused 7\n", CHECK)
case("refused 5 before 6 and 7", wrong(good, 2, 4229, 4212), "refused 5\n", SYNC)
case("refused 6 before 7", wrong(good, 4230, 4150), "refused 6\n", PAD)
case("refused 7: a reserved bit that the check bits do not know of", wrong(good, 4150), "refused 7\n", CHECK)
case("a training frame with its first reserved bit set", *training([3, 0, -4], 5, 6, counted, [1]))
case("a training frame with its last reserved bit set", *training([3, 0, -4], 5, 6, counted, [0] * 66 + [1]))
case("a training frame with two reserved bits set, as a newer card sends it", *training([3, 0, -4], 5, 6, counted, [1, 1]))
case("a training frame with all reserved bits set", *training([3, 0, -4], 5, 6, counted, [1] * 67))
case("refused 7: the same with one of them wrong", wrong(training([3, 0, -4], 5, 6, counted, [1] * 67)[0], 4211), "refused 7\n", CHECK)
for length, words in ((0, "0 octets"), (1, "1 octet"), (2, "2 octets"), (528, "528 octets")):
    case(f"{length} octets", good[:length], "refused 1\n", f"lister: the file has {words}, {CUT}")
case("530 octets", good + b"\0", "refused 1\n", LONG)
case("100000 octets", good + bytes(100000 - 529), "refused 1\n", LONG)

wide = [rng.choice([LEAST, -10, -9, -1, 0, 0, 0, 1, 9, 10, 100, MOST, rng.randint(LEAST, MOST)]) for _ in range(180)]
case(f"180 coefficients of every length (seed {SEED})", *training(wide, 2097150, 1000000, rng.randbytes(16)))
many = []
for _ in range(20):
    numbers = [rng.choice([0, rng.randint(LEAST, MOST), rng.randint(-20, 20)]) for _ in range(rng.randrange(181))]
    many.append(training(numbers, rng.randint(0, MOST), rng.randint(0, 1 << rng.randrange(1, 21)), rng.randbytes(16)))
differ = sum(run(octets) != (0, text.encode("ascii"), b"") for octets, text in many)
report(f"{len(many)} random training frames (seed {SEED}): {differ} differ", differ == 0)

# ---- a file by name, and what is no frame at all

folder = tempfile.TemporaryDirectory()
path = os.path.join(folder.name, "card 1.frame")
pathlib.Path(path).write_bytes(good)
dashed = os.path.join(folder.name, "-card")
pathlib.Path(dashed).write_bytes(good)
short = os.path.join(folder.name, "short")
pathlib.Path(short).write_bytes(good[:528])
text = training([3, 0, -4], 5, 6, counted)[1]
compare("a file by name", run(b"", path), text, "")
compare("a file by name, and standard input not looked at", run(good[:7], path), text, "")
compare("a short file by name", run(b"", short), "refused 1\n", f"lister: the file has 528 octets, {CUT}")
compare("a file behind --", run(b"", "--", path), text, "")
command = [os.path.abspath(a) if os.path.exists(a) else a for a in sys.argv[1:]]
got = subprocess.run(command + ["--", "-card"], cwd=folder.name, capture_output=True)
compare("a name that begins with - behind --", (got.returncode, got.stdout, got.stderr), text, "")
compare("no such file", run(b"", folder.name + "/none"), "", f"lister: {folder.name}/none: No such file or directory\n")
odd = os.fsencode(folder.name) + b"/\xff\xfe"
pathlib.Path(os.fsdecode(odd)).write_bytes(good)
got = run(b"", odd)
report("a name that is no text in UTF-8", got == (0, b"", b"lister: " + odd + b": Invalid or incomplete multibyte or wide character\n"))
compare("a folder by name", run(b"", folder.name), "", f"lister: {folder.name}: Is a directory\n")
opened = os.open(folder.name, os.O_RDONLY)
got = subprocess.run(sys.argv[1:], stdin=opened, capture_output=True)
os.close(opened)
compare("a folder on standard input", (got.returncode, got.stdout, got.stderr), "", "lister: standard input: Is a directory\n")
got = subprocess.run(sys.argv[1:], preexec_fn=lambda: os.close(0), capture_output=True)
compare("standard input closed", (got.returncode, got.stdout, got.stderr), "", "lister: standard input: Bad file descriptor\n")
for octets, name in ((good, "a good frame"), (good[:5], "a refused one")):
    with open("/dev/full", "wb") as full:
        got = subprocess.run(sys.argv[1:], input=octets, stdout=full, stderr=subprocess.PIPE)
    report(f"a full disk, {name}: one message", got.stderr == b"lister: standard output: No space left on device\n")

# ---- arguments

for arguments in (["--foo"], ["-s"], ["--Status"], ["--like"], ["--csv"], [path, path]):
    compare(f"wrong: {arguments[-1][:8]}", run(good, *arguments), "", f"lister: wrong argument: {arguments[-1]}\n{USAGE}")
compare("the first wrong one is told", run(good, "--foo", "--bar"), "", f"lister: wrong argument: --foo\n{USAGE}")
makefile = pathlib.Path("Makefile").read_text()
release = next(line.split(" = ")[1] for line in makefile.splitlines() if line.startswith("VERSION = "))
got = run(b"", "--version")
report(f"--version prints sdsl-lister {release}, the Makefile's version", got == (0, f"sdsl-lister {release}\n".encode(), b""))
for arguments in (["--help"], ["--help", "--foo"], ["--status", "--help"]):
    got = run(b"", *arguments)
    report(f"{' '.join(arguments)} on standard output", got[1].decode().startswith(USAGE) and b"--status" in got[1] and got[2] == b"")
compare("--foo before --help", run(b"", "--foo", "--help"), "", f"lister: wrong argument: --foo\n{USAGE}")

# ---- the status, only where it is asked for

for digit, arguments, octets in ((b"0", [], good), (b"0", [path], b""), (b"1", [], wrong(good, 15)), (b"1", [], b""), (b"1", [short], b""), (b"2", [folder.name], b""),
                                 (b"2", [folder.name + "/none"], b""), (b"2", ["--foo"], good), (b"2", [path, path], b""), (b"0", ["--help"], b""), (b"0", ["--version"], b"")):
    name = " ".join(a.replace(folder.name, "FOLDER") for a in arguments) or f"{len(octets)} octets"
    report(f"--status {name}: {digit.decode()}", status(["--status"] + arguments, octets) == digit)
report("--status behind the file", status([path, "--status"]) == b"0")
with open("/dev/full", "wb") as full:
    report("--status with a full disk: 2", status(["--status", path], stdout=full) == b"2")
report("no --status, no digit", status([path]) == b"")

# ---- vendor data as text, where standard error is a terminal and all of it is printable

for name, vendor, words in (("bench 7", b"bench 7" + bytes(9), b"bench 7"), ("16 octets", b"SN 0123456789/ab", b"SN 0123456789/ab"), (" to ~", b" ~" + bytes(14), b" ~"),
                            ("nothing", bytes(16), None), ("a zero between", b"a\0b" + bytes(13), None), ("an octet of 127", b"ab\x7f" + bytes(13), None),
                            ("a line end", b"ab\n" + bytes(13), None), ("a zero first", bytes(1) + b"ab" + bytes(13), None), ("UTF-8", "é".encode() + bytes(14), None)):
    octets, text = training([1], 2, 3, vendor)
    said = b"lister: vendor data as text: " + words + b"\n" if words else b""
    report(f"vendor data on a terminal: {name}", on_terminal(octets) == (text.encode(), said))
report("and none where standard error is none", run(training([1], 2, 3, b"bench 7" + bytes(9))[0])[2] == b"")
octets, text = final(payload([], 0, 0, b"bench 8" + bytes(9), [0] * 67), b"bench 8" + bytes(9))
report("vendor data of a final frame", on_terminal(octets) == (text.encode(), b"lister: vendor data as text: bench 8\n"))
sys.exit(failures != 0)
