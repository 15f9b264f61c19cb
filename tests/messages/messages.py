"""The cases of `messages`: channels by channel.py beside it, and their listings by the one below. Its tables are typed from part 1's clauses
10.5.5.1 to 10.5.5.7.4 and 10.5.5.7.13. Its author had read the definitions of crate eoclisting, and has the wording of the lines from there, so
it is a second implementation and not an independent reading. What matters most is written out by hand as well. The command to run is given as
arguments.
"""
import os
import pathlib
import random
import re
import subprocess
import sys
import tempfile

from channel import FLAG, body, channel, check_sequence, escaped, message

SEED = 20261118
MOST = 1048576
failures = 0

# ---- the listing

# Table 10.6: the first and the last number of each row, and its name. What "Excluded" has in brackets is left out.
TABLE = [
    (0, 0, "Reserved"),
    (1, 1, "Discovery Probe"),
    (2, 2, "Inventory Request"),
    (3, 3, "Configuration Request - SDSL"),
    (4, 4, "Reserved for Application Interface Configuration"),
    (5, 5, "Configuration Request - Loopback Time-Out"),
    (6, 6, "Virtual Terminal Connect Request"),
    (7, 7, "Virtual Terminal Disconnect Request"),
    (8, 8, "Keyboard Data Message"),
    (9, 9, "Maintenance Request - System Loopback"),
    (10, 10, "Maintenance Request - Element Loopback"),
    (11, 11, "Status Request"),
    (12, 12, "Full Status Request"),
    (13, 14, "Reserved"),
    (15, 15, "Soft Restart/Power back-off Disable Request"),
    (16, 16, "Reserved (Future)"),
    (17, 17, "ATM Cell Status Request"),
    (18, 18, "NTU Configuration Request - Management"),
    (19, 19, "Reserved for Voice Transport Request (Future)"),
    (20, 20, "ISDN Request"),
    (21, 21, "LAPV5 POTS and ISDN setup Request"),
    (22, 22, "Deactivation request"),
    (23, 63, "Reserved (Future)"),
    (64, 88, "Reserved for Line Management Request"),
    (89, 111, "Reserved"),
    (112, 119, "Proprietary Message"),
    (120, 120, "External Message"),
    (121, 121, "G.997.1 Message"),
    (122, 124, "Reserved"),
    (125, 127, "Excluded"),
    (128, 128, "Reserved"),
    (129, 129, "Discovery Response"),
    (130, 130, "Inventory Response"),
    (131, 131, "Configuration Response - SDSL"),
    (132, 132, "Reserved for Application Interface Configuration"),
    (133, 133, "Configuration Response - Loopback Time-Out"),
    (134, 134, "Virtual Terminal Connect Response"),
    (135, 135, "Reserved"),
    (136, 136, "Screen Data Message"),
    (137, 137, "Maintenance Status"),
    (138, 138, "Reserved"),
    (139, 139, "Status/SNR"),
    (140, 140, "Performance Status SDSL Network Side"),
    (141, 141, "Performance Status SDSL Customer Side"),
    (142, 142, "Reserved for Application Interface Performance"),
    (143, 143, "Reserved (Future)"),
    (144, 144, "Generic Unable to Comply (UTC)"),
    (145, 145, "ATM Cell Status Information"),
    (146, 146, "Configuration Response - Management"),
    (147, 147, "Reserved for Voice Transport Response (Future)"),
    (148, 148, "ISDN Response"),
    (149, 149, "LAPV5 POTS and ISDN setup Response"),
    (150, 150, "Deactivation Acknowledge"),
    (151, 191, "Reserved (Future)"),
    (192, 216, "Segment Management Response (reserved)"),
    (217, 239, "Reserved (Future)"),
    (240, 247, "Proprietary Message Response"),
    (248, 252, "Reserved"),
    (253, 255, "Excluded"),
]
NAMES = [name for first, last, name in TABLE for _ in range(first, last + 1)]
assert len(NAMES) == 256 and all(NAMES[first] == NAMES[last] == name for first, last, name in TABLE)

LTU, NTU, ADJACENT, ALL = 1, 2, 0, 15
INVENTORY, STATUS = 130, 139
# Table 10.5
UNITS = {ADJACENT: "adjacent unit", LTU: "LTU", NTU: "NTU", ALL: "all"} | {k + 2: f"regenerator {k}" for k in range(1, 9)}
WHY = {7: "the check bits differ", 11: "an escape other than 7D 5E and 7D 5D", 12: "the message is too long or too short"}
# Table 10.10: what each field is called, its first octet and its last, counted as there: the message number is octet 1.
STRINGS_BEFORE = [("list", 3, 5), ("issue", 6, 7), ("software", 8, 13), ("unit", 14, 23)]
VENDOR_ID = (25, 32)
STRINGS_BEHIND = [("model", 33, 44), ("serial", 45, 56), ("other", 57, 68)]
STRINGS = STRINGS_BEFORE + STRINGS_BEHIND


def hexed(octets):
    return "".join(f"{octet:02X}" for octet in octets)


def part(contents, first, last):
    """Octets of contents by the tables' numbers: octet 1 is the message number, so contents begin with octet 2."""
    return contents[first - 2:last - 1]


def margin(octet):
    """In dB, "Signed char (127 = Not Available)" (table 10.17)."""
    return "not available" if octet == 127 else f"{octet - 256 if octet > 127 else octet} dB"


def string(field):
    """Strings are "padded with spaces or terminated with a NULL", and what stands behind a NULL is "don't care" (10.5.5.1)."""
    text = field.split(b"\0")[0].rstrip(b" ")
    return f'"{text.decode("ascii")}"' if all(32 <= octet <= 126 for octet in text) else hexed(field)


def words(number, contents):
    """What stands behind a message's name. "The known portion of the message shall be used and the extra octets discarded" (10.5.5.7)."""
    in_hex = f": {hexed(contents)}" if contents else ""
    known = {STATUS: 3, INVENTORY: 67}.get(number)
    if known is None:
        return in_hex
    if len(contents) < known:
        return ": contents are short" + in_hex
    if number == STATUS:
        return f": network side {margin(contents[0])}, customer side {margin(contents[1])}, loop {contents[2]}"
    fields = [f"{name} {string(part(contents, *place))}" for name, *place in STRINGS_BEFORE]
    fields.append(f"vendor ID {hexed(part(contents, *VENDOR_ID))}")
    fields += [f"{name} {string(part(contents, *place))}" for name, *place in STRINGS_BEHIND]
    return f": SDSL version {contents[0]}, " + ", ".join(fields)


def unescaped(piece):
    """A piece without its escapes; nothing where it has another escape than the two."""
    octets, k = bytearray(), 0
    while k < len(piece):
        if piece[k] != 0x7D:
            octets.append(piece[k])
            k += 1
            continue
        behind = piece[k + 1:k + 2]
        if behind not in (b"\x5e", b"\x5d"):
            return None
        octets.append(0x7E if behind == b"\x5e" else 0x7D)
        k += 2
    return bytes(octets)


def judged(piece):
    """Why a piece is refused, in the order 11, 12, 7, or 0, and its octets without check sequence. 75 octets at most, two at least."""
    octets = unescaped(piece)
    if octets is None:
        return 11, b""
    inside, sequence = octets[:-2], octets[-2:]
    if not 2 <= len(inside) <= 75:
        return 12, b""
    return (0, inside) if sequence == check_sequence(inside) else (7, b"")


def listed(octets, own=None):
    """The listing of a channel, all of it or what the unit with this address takes, and the status."""
    before, *pieces = octets.split(FLAG)
    behind = pieces.pop() if pieces else b""
    pieces = [piece for piece in pieces if piece]
    lines, good, taken = [], 0, 0
    for n, piece in enumerate(pieces, 1):
        why, inside = judged(piece)
        if why:
            if own is None:
                lines.append(f"{n} refused {why}: {WHY[why]}")
            continue
        good += 1
        source, destination, number = inside[0] >> 4, inside[0] & 15, inside[1]
        if own is not None and destination not in (own, ADJACENT, ALL):
            continue
        taken += 1
        whence = f"address {source}" if source in (ADJACENT, ALL) else UNITS.get(source, f"address {source}")
        lines.append(f"{n} {whence} to {UNITS.get(destination, f'address {destination}')}: {number} {NAMES[number]}{words(number, inside[2:])}")
    if before or behind:
        lines.append(f"left out: octets before the first flag: {len(before)}, behind the last: {len(behind)}")
    totals = f"{len(pieces)} message{'s' * (len(pieces) != 1)}: {good} good, {len(pieces) - good} refused"
    lines.append(totals + ("" if own is None else f"; {UNITS[own]} takes {taken}"))
    return "\n".join(lines) + "\n", "0" if pieces and good == len(pieces) else "1"


# ---- running the program

# Descriptor 3, where --status has its digit: a file of the test's own.
digits = tempfile.TemporaryFile()
os.dup2(digits.fileno(), 3)


def run(arguments, octets=None, **streams):
    """What is printed, what is said on the side, the digit, and how the program ended."""
    os.ftruncate(3, 0)
    os.lseek(3, 0, os.SEEK_SET)
    streams = {"stdout": subprocess.PIPE, "stderr": subprocess.PIPE} | ({} if octets is None else {"input": octets}) | streams
    got = subprocess.run(sys.argv[1:] + arguments, pass_fds=(3,), **streams)
    return got.stdout, got.stderr, os.pread(3, 9, 0), got.returncode


def wanted(text, digit, side=""):
    return text.encode("ascii"), side.encode("ascii"), digit.encode("ascii"), 0


def report(name, right):
    global failures
    failures += not right
    print(("pass: " if right else "FAIL: ") + name)


def shown(octets):
    return octets if octets is None or len(octets) <= 600 else octets[:300] + b" .. " + octets[-300:]


def compare(name, cases):
    """One line for several cases: arguments, octets, and what is wanted of them; the first that differs is shown."""
    differ = 0
    for arguments, octets, want in cases:
        got = run(["--status"] + arguments, octets)
        differ += got != want
        if got != want and differ == 1:
            texts = [shown(t) for t in (got[0], want[0])]
            lines = [t.split(b"\n") for t in (got[0], want[0])]
            first = next((pair for pair in zip(*lines) if pair[0] != pair[1]), texts)
            print(f"  {arguments} on {shown(octets)!r}:\n  printed {first[0]!r}\n  and not {first[1]!r}\n  and else {got[1:]} and not {want[1:]}")
    report(name + (f": {differ} of {len(cases)} differ" if differ else ""), differ == 0)


def told(octets, text, digit="1", arguments=None):
    """A case with its listing written out, which the listing above has to agree with. Arguments are for_ntu or none."""
    text = text.removeprefix("\n")
    made = listed(octets, NTU if arguments else None)
    assert made == (text, digit), made
    return arguments or [], octets, wanted(text, digit)


def by_listing(*octets):
    """Cases whose listings are made above, without arguments."""
    return [([], o, wanted(*listed(o))) for o in octets]


# ---- listings written out

request = bytes.fromhex("12 02 74 8A")
status = bytes.fromhex("21 8B 06 00 01 89 8E")
broken = bytes.fromhex("21 8B 06 00 01 89 8F")
three = channel(request, status, broken)
assert request == message(LTU, NTU, 2) and status == message(NTU, LTU, STATUS, bytes([6, 0, 1]))
compare("three messages, one of them damaged", [told(three, """
1 LTU to NTU: 2 Inventory Request
2 NTU to LTU: 139 Status/SNR: network side 6 dB, customer side 0 dB, loop 1
3 refused 7: the check bits differ
3 messages: 2 good, 1 refused
""")])
compare("a probe, a message with escapes and one to all units", [told(bytes.fromhex("7E 10 01 00 81 5A 7E 7D 5E 7D 5D F1 CD 7E") + message(2, 15, 22) + FLAG, """
1 LTU to adjacent unit: 1 Discovery Probe: 00
2 regenerator 5 to address 14: 125 Excluded
3 NTU to all: 22 Deactivation request
3 messages: 3 good, 0 refused
""", "0")])


def inventory(fields=None, version=1, vendor=bytes.fromhex("B500534C345801FE"), reserved=b"\0"):
    """Contents of an inventory, its strings by name; those that are not given are empty, ended by NULLs."""
    octets = {name: (fields or {}).get(name, b"").ljust(last - first + 1, b"\0") for name, first, last in STRINGS}
    assert all(len(octets[name]) == last - first + 1 for name, first, last in STRINGS)
    return bytes([version]) + b"".join(octets[name] for name, *_ in STRINGS_BEFORE) + reserved + vendor + b"".join(octets[name] for name, *_ in STRINGS_BEHIND)


full = {"list": b"L12", "issue": b"07", "software": b"R2.14b", "unit": b"SL4XA10AAA", "model": b"SL-4 rev. 12", "serial": b"2026-0117-AB", "other": b"bench 7, row"}
assert inventory(full) == bytes.fromhex("01") + b"L1207R2.14bSL4XA10AAA" + bytes.fromhex("00B500534C345801FE") + b"SL-4 rev. 122026-0117-ABbench 7, row"
odd = {"list": b"A  ", "issue": b"", "software": b"1.0\0xx", "unit": b" two  B \0~", "model": b"a\x1f", "serial": b" " * 12, "other": b"ok\0\x80\xff"}
compare("an inventory whose strings fill their fields, and one whose strings end in every way", [told(channel(message(NTU, LTU, INVENTORY, inventory(full))), """
1 NTU to LTU: 130 Inventory Response: SDSL version 1, list "L12", issue "07", software "R2.14b", unit "SL4XA10AAA", vendor ID B500534C345801FE, \
model "SL-4 rev. 12", serial "2026-0117-AB", other "bench 7, row"
1 message: 1 good, 0 refused
""", "0"), told(channel(message(3, 1, INVENTORY, inventory(odd, 255, bytes(8)))), """
1 regenerator 1 to LTU: 130 Inventory Response: SDSL version 255, list "A", issue "", software "1.0", unit " two  B", vendor ID 0000000000000000, \
model 611F00000000000000000000, serial "", other "ok"
1 message: 1 good, 0 refused
""", "0")])
short = [message(2, 1, STATUS), message(2, 1, STATUS, b"\x06\x00"), message(2, 1, INVENTORY), message(2, 1, INVENTORY, b"\x01A")]
compare("contents that are short", [told(channel(*short), """
1 NTU to LTU: 139 Status/SNR: contents are short
2 NTU to LTU: 139 Status/SNR: contents are short: 0600
3 NTU to LTU: 130 Inventory Response: contents are short
4 NTU to LTU: 130 Inventory Response: contents are short: 0141
4 messages: 4 good, 0 refused
""", "0")])
compare("no message: nothing, no flag, one flag, flags alone", [
    told(b"", "0 messages: 0 good, 0 refused\n"),
    told(request, "left out: octets before the first flag: 4, behind the last: 0\n0 messages: 0 good, 0 refused\n"),
    told(FLAG, "0 messages: 0 good, 0 refused\n"),
    told(FLAG * 1000, "0 messages: 0 good, 0 refused\n"),
    told(FLAG + request, "left out: octets before the first flag: 0, behind the last: 4\n0 messages: 0 good, 0 refused\n"),
    told(request + FLAG, "left out: octets before the first flag: 4, behind the last: 0\n0 messages: 0 good, 0 refused\n"),
])
one = "1 LTU to NTU: 2 Inventory Request\n"
compare("octets before the first flag and behind the last", [
    told(b"\x8a" + channel(request), one + "left out: octets before the first flag: 1, behind the last: 0\n1 message: 1 good, 0 refused\n", "0"),
    told(channel(request) + status, one + "left out: octets before the first flag: 0, behind the last: 7\n1 message: 1 good, 0 refused\n", "0"),
    told(bytes(12) + channel(request) + b"\x7d", one + "left out: octets before the first flag: 12, behind the last: 1\n1 message: 1 good, 0 refused\n", "0"),
])
two = one + "2 NTU to LTU: 139 Status/SNR: network side 6 dB, customer side 0 dB, loop 1\n2 messages: 2 good, 0 refused\n"
compare("shared and repeated flags", [told(FLAG * a + request + FLAG * b + status + FLAG * c, two, "0") for a in (1, 2, 5) for b in (1, 2, 5) for c in (1, 2, 5)])
captures = pathlib.Path("examples/messages")
page = re.findall(r"^\$ sdsl-messages (.*)< site-12\.eoc\n((?:\d.*\n)+)", pathlib.Path("man/sdsl-messages.1").read_text(), re.M)
assert [line.split() for line, _ in page] == [[], ["--for", "NTU"]]
compare("the examples of the man page, and examples/messages/inventory.eoc", [
    *(told((captures / "site-12.eoc").read_bytes(), text, "1", line.split()) for line, text in page),
    told((captures / "inventory.eoc").read_bytes(), """
1 LTU to NTU: 2 Inventory Request
2 NTU to LTU: 130 Inventory Response: SDSL version 1, list "001", issue "02", software "2.14", unit "SL4XA10AAA", vendor ID B500534C34580104, \
model "SL-4", serial "0117-2026", other "bench 7"
2 messages: 2 good, 0 refused
""", "0")])

# ---- every number, address, margin and length

everyone = channel(*(message(n // 16, n % 16, 11) for n in range(256)))
compare("every message number, with and without contents", by_listing(
    channel(*(message(1, 2, n) for n in range(256))), channel(*(message(2, 1, n, bytes([0xA0, n, 0x7E])) for n in range(256)))))
compare("every source and destination", by_listing(everyone))
dense = bytes(k * 37 & 255 for k in range(73))
compare("a status with every margin and every loop, and with 0 to 73 octets", by_listing(
    channel(*(message(2, 1, STATUS, bytes([n, 0, 1])) for n in range(256))), channel(*(message(1, 2, STATUS, bytes([0, n, 2])) for n in range(256))),
    channel(*(message(3, 1, STATUS, bytes([127, 128, n])) for n in range(256))), channel(*(message(2, 1, STATUS, dense[:n]) for n in range(74)))))
compare("an inventory with every octet in every string", by_listing(*(
    channel(*(message(2, 1, INVENTORY, inventory({name: (front + bytes([octet]) + back)[:last - first + 1]})) for octet in range(256)))
    for name, first, last in STRINGS for front, back in ((b"A", b"B"), (b" ", b" "), (b"\0", b"C")))))
longer = inventory(full) + b"\0\x7e\x7d\xff\x01\x02"
compare("an inventory with every version, vendor ID and reserved octet, and with 0 to 73 octets", by_listing(
    channel(*(message(2, 1, INVENTORY, inventory(full, n, bytes(n + k & 255 for k in range(8)), bytes([n]))) for n in range(256))),
    channel(*(message(2, 1, INVENTORY, longer[:n]) for n in range(74)))))
compare("other contents of 0 to 73 octets, and of octets that are escaped", by_listing(channel(
    *(message(1, 2, 8, dense[:n]) for n in range(74)), *(message(1, 2, 8, bytes([octet]) * n) for octet in (0x7E, 0x7D, 0x5E, 0x5D) for n in range(74)))))

# ---- what is refused


def all_refused(number, pieces):
    """A channel of pieces that are refused with this number, each by itself, between two good messages."""
    lines = [line for n in range(len(pieces)) for line in (f"{2 * n + 1} LTU to NTU: 2 Inventory Request", f"{2 * n + 2} refused {number}: {WHY[number]}")]
    text = "\n".join(lines) + f"\n{2 * len(pieces)} messages: {len(pieces)} good, {len(pieces)} refused\n"
    return told(channel(*(piece for p in pieces for piece in (request, p))), text)


octets = body(2, 1, STATUS, bytes([0x7E, 0x7D, 3])) + check_sequence(body(2, 1, STATUS, bytes([0x7E, 0x7D, 3])))
flipped = [bytes(octet ^ (bit >> 8 * k & 255) for k, octet in enumerate(octets)) for bit in (1 << n for n in range(8 * len(octets)))]
swapped = [octets[:-2] + octets[:-3:-1], octets[:-2] + bytes(255 - octet for octet in octets[-2:]), octets[:-2] + bytes(2), octets[:-2] + b"\xff\xff"]
compare("refused 7: every wrong bit, and check sequences that are almost right", [all_refused(7, [escaped(o) for o in flipped + swapped])])
others = [octet for octet in range(256) if octet not in (0x5E, 0x5D, 0x7E)]
compare("refused 11: 7D with every other octet behind it, and with none", [all_refused(11, [
    *(b"\x12\x02\x7d" + bytes([octet]) + b"\x74\x8a" for octet in others), *(request + b"\x7d" + bytes([octet]) for octet in others),
    b"\x7d", b"\x7d\x7d", request + b"\x7d", request + b"\x7d\x7d\x5e", b"\x7d" + request, status + b"\x7d\x5e\x7d",
    b"\x7d\x31", bytes(1000) + b"\x7d\x31", b"\x7d" + bytes(78), bytes(78) + b"\x7d", broken + b"\x7d\x31"])])  # with these 12 and 7 come second
compare("refused 12: too short and too long, with a check sequence that is right and with one that is not", [all_refused(12, [
    *(escaped(o + check_sequence(o)) for o in (b"", b"\x12", b"\x7e")), b"\x12", b"\x12\x02", b"\x12\x02\x74", b"\x7d\x5e", b"\x7d\x5e\x7d\x5d\x7d\x5e",
    *(message(1, 2, 8, dense + bytes(n)) for n in (1, 2, 3, 79, 1000)), message(1, 2, 8, b"\x7e" * 74), bytes(78), bytes(5000), b"\x7d\x5e" * 78])])
compare("a message of 75 octets, and of 150 with its escapes", [told(channel(message(7, 14, 126, b"\x7e" * 73)), """
1 regenerator 5 to address 14: 126 Excluded: """ + "7E" * 73 + """
1 message: 1 good, 0 refused
""", "0")])

# ---- for one unit

for_ntu = ["--for", "NTU"]
compare("--for NTU", [
    told(three, one + "3 messages: 2 good, 1 refused; NTU takes 1\n", "1", for_ntu),
    told(channel(status) + request, """
left out: octets before the first flag: 0, behind the last: 4
1 message: 1 good, 0 refused; NTU takes 0
""", "0", for_ntu),
    told(b"", "0 messages: 0 good, 0 refused; NTU takes 0\n", "1", for_ntu),
    told(channel(broken, message(1, 0, 11), message(1, 15, 11), message(1, 3, 11)), """
2 LTU to adjacent unit: 11 Status Request
3 LTU to all: 11 Status Request
4 messages: 3 good, 1 refused; NTU takes 2
""", "1", for_ntu)])
addresses = {"LTU": 1, "ltu": 1, "NTU": 2, "ntu": 2} | {f"{r}{k}": k + 2 for r in "Rr" for k in range(1, 9)}
compare(f"--for each unit, as {', '.join(addresses)}", [(["--for", name], octets, wanted(*listed(octets, own)))
                                                       for name, own in addresses.items() for octets in (everyone, three)])

# ---- arguments

USAGE = "usage: messages [--status] [--for UNIT] < OCTETS\n"
wrong = [(["--for", unit], unit) for unit in ("modem", "R0", "R9", "R", "R10", "R1 ", "Ltu", "LTUx", "LT", "1", "", "--help", "--for")]
wrong += [(line.split(), said) for line, said in (
    ("--for", "--for"), ("--for NTU --for", "--for"), ("--foo", "--foo"), ("-f NTU", "-f"), ("--For NTU", "--For"), ("--for=NTU", "--for=NTU"),
    ("--like", "--like"), ("--csv", "--csv"), ("NTU", "NTU"), ("--for NTU site-12.eoc", "site-12.eoc"), ("-", "-"), ("--foo --bar", "--foo"),
    ("--foo --help", "--foo"), ("file --version", "file"))]
compare("wrong arguments", [(arguments, three, wanted("", "2", f"messages: wrong argument: {said}\n{USAGE}")) for arguments, said in wrong])
makefile = pathlib.Path("Makefile").read_text()
release = next(line.split(" = ")[1] for line in makefile.splitlines() if line.startswith("VERSION = "))
compare(f"--version prints sdsl-messages {release}, the Makefile's version", [(a, b"", wanted(f"sdsl-messages {release}\n", "0"))
                                                                              for a in (["--version"], ["--version", "--foo"], ["--for", "NTU", "--version"])])
helps = [run(["--status"] + arguments, three) for arguments in (["--help"], ["--help", "--foo"], ["--for", "NTU", "--help"])]
report("--help on standard output", all(got[0].decode().startswith(USAGE) and b"--for UNIT" in got[0] and b"--status" in got[0] and got[1:] == (b"", b"0", 0)
                                        for got in helps))
report("--status in any place, and without it no digit", [run(a, channel(request))[2] for a in (["--for", "NTU", "--status"], ["--for", "NTU"], [])] == [b"0", b"", b""])

# ---- what cannot be read, and what cannot be written

folder = tempfile.TemporaryDirectory()
opened = os.open(folder.name, os.O_RDONLY)
right = run(["--status"], stdin=opened) == wanted("", "2", "messages: standard input: Is a directory\n")
right = right and run(["--status"], preexec_fn=lambda: os.close(0)) == wanted("", "2", "messages: standard input: Bad file descriptor\n")
os.close(opened)
report("a folder on standard input, or a closed one, is no empty channel", right)
right = True
for arguments, octets in ([], b""), ([], three), ([], channel(request) * 5000), (["--for", "LTU"], channel(request) * 5000), (["--help"], b""), (["--version"], b""):
    with open("/dev/full", "wb") as full:
        right = right and run(["--status"] + arguments, octets, stdout=full)[1:3] == (b"messages: standard output: No space left on device\n", b"2")
script = 'ulimit -f 1; trap "" XFSZ; "$@" > "$0"'
got = subprocess.run(["sh", "-c", script, os.path.join(folder.name, "out")] + sys.argv[1:], input=channel(request) * 5000, capture_output=True)
right = right and got.stderr == b"messages: standard output: File too large\n"
report("a full disk, or a file that grows too large: one complaint, and status 2", right)
most = channel(b"\x12") * (MOST // 3)
most += FLAG * (MOST - len(most))
compare("1,048,576 octets: flags, none, one long piece, many pieces", by_listing(FLAG * MOST, b"\x12" * MOST, channel(b"\x12" * (MOST - 2)), most))
LONG = wanted("", "2", "messages: more than 1048576 octets: give it fewer at a time\n")
compare("more octets than that: nothing is listed", [([], octets, LONG) for octets in (FLAG * (MOST + 1), b"\x12" * (MOST + 1), three + FLAG * 3000000)]
        + [(["--for", "NTU"], three + FLAG * MOST, LONG)])

# ---- random channels

rng = random.Random(SEED)
FEW = bytes.fromhex("7E 7E 7D 5E 5D 00 12 02 74 8A")


def random_contents(number):
    """Contents of any length, mostly such as the number has."""
    if number == INVENTORY and rng.random() < 0.8:
        fields = {name: rng.choice((b"", b"AB", b"A B ", b" " * 12, b"x\0y", b"\x9c1", rng.randbytes(12)))[:last - first + 1] for name, first, last in STRINGS}
        return inventory(fields, rng.randrange(256), rng.randbytes(8), rng.randbytes(1)) + rng.randbytes(rng.randrange(7) if rng.random() < 0.2 else 0)
    if number == STATUS and rng.random() < 0.8:
        return rng.randbytes(3)
    return bytes(rng.choices(FEW, k=rng.randrange(74))) if rng.random() < 0.3 else rng.randbytes(rng.randrange(rng.choice((4, 74, 80))))


def random_piece():
    """Mostly a message, now and then a damaged one or none at all."""
    number = rng.choice((INVENTORY, STATUS, rng.randrange(256)))
    piece = message(rng.randrange(16), rng.choice((0, 1, 2, 15, rng.randrange(16))), number, random_contents(number))
    chance = rng.random()
    if chance < 0.1:
        k = rng.randrange(len(piece))
        return piece[:k] + bytes([piece[k] ^ 1 << rng.randrange(8)]) + piece[k + 1:]
    if chance < 0.15:
        return piece[:rng.randrange(len(piece))]
    return bytes(rng.choices(FEW, k=rng.randrange(12))) if chance < 0.25 else piece


def random_channel():
    if rng.random() < 0.1:
        return bytes(rng.choices(FEW, k=rng.randrange(60)))
    octets = b"".join(FLAG * rng.choice((1, 1, 2, 5)) + random_piece() for _ in range(rng.randrange(48)))
    return (rng.randbytes(rng.randrange(4)) if rng.random() < 0.2 else b"") + octets + (FLAG if rng.random() < 0.8 else b"")


cases = []
for _ in range(250):
    octets, name = random_channel(), rng.choice([None] * 12 + list(addresses))
    cases.append((["--for", name] if name else [], octets, wanted(*listed(octets, addresses.get(name)))))
compare(f"{len(cases)} random channels (seed {SEED})", cases)
sys.exit(failures != 0)
