"""Check bits against numbers from outside. The command to run is given as arguments.

The catalogue's CRC-16/XMODEM and Python's crc_hqx take each octet's highest bit first; ours takes the lowest first, so the octets are
turned round before they are handed over. CRC-16/KERMIT, CRC-16/MCRF4XX (a start of all ones) and CRC-6/G-704 (D^6 + D + 1) take the
lowest first, as we do, and give their result turned round. CRC-16/X-25 is the check sequence of a message.
"""
import binascii
import random
import subprocess
import sys

SEED = 20261115


def turned(n, width):
    return int(format(n, f"0{width}b")[::-1], 2)


def ask(requests):
    text = "".join(f"{request[0].hex()} {' '.join(str(n) for n in request[1:])}\n" for request in requests)
    out = subprocess.run(sys.argv[1:], input=text, capture_output=True, text=True, check=True).stdout.split()
    assert len(out) == len(requests)
    return [int(n) for n in out]


def report(name, right):
    print(("pass: " if right else "FAIL: ") + name)


def high_first(octets):
    return bytes(turned(o, 8) for o in octets)


digits = b"123456789"
xmodem, kermit = ask([(high_first(digits), 0, 72), (digits, 0, 72)])
report("CRC-16/XMODEM of 123456789 is 0x31C3", xmodem == 0x31C3)
report("CRC-16/KERMIT of 123456789 is 0x2189", turned(kermit, 16) == 0x2189)

GENERATOR, SIX = 0x11021, 0x43
same, ones, six, even, wide, long = ask([
    (digits, 0, 72, GENERATOR, 16, 0), (digits, 0, 72, GENERATOR, 16, 0xFFFF), (digits, 0, 72, SIX, 6, 0),
    (digits, 0, 72, 0x42, 6, 1), (digits, 0, 72, SIX, 6, 64), (digits, 0, 72, 0x20001, 17, 1)])
report("D^16 + D^12 + D^5 + 1 from zero is check_bits", same == kermit)
report("CRC-16/MCRF4XX of 123456789 is 0x6F91", turned(ones, 16) == 0x6F91)
report("CRC-6/G-704 of 123456789 is 0x06", turned(six, 6) == 0x06 and six == 0x18)
report("no constant term, a start too wide, a degree over 16: refused", (even, wide, long) == (0, 0, 0))

rng = random.Random(SEED)
sequence, = ask([(digits, 9)])
report("CRC-16/X-25 of 123456789 is 0x906E", sequence == 0x906E)
messages = [rng.randbytes(rng.choice([0, 1, 2, 3, 16, 131, 525, 529, 2000])) for _ in range(400)]
got = ask([(high_first(m), 0, 8 * len(m)) for m in messages])
wrong = sum(g != binascii.crc_hqx(m, 0) for g, m in zip(got, messages))
report(f"binascii.crc_hqx on {len(messages)} random messages (seed {SEED}): {wrong} differ", wrong == 0)

starts = [rng.randrange(1 << 16) for _ in messages]
got = ask([(high_first(m), 0, 8 * len(m), GENERATOR, 16, start) for m, start in zip(messages, starts)])
wrong = sum(g != binascii.crc_hqx(m, start) for g, m, start in zip(got, messages, starts))
report(f"the same behind random starts: {wrong} differ", wrong == 0)

counts = [rng.randrange(len(m) + 1) for m in messages]
got = ask([(m, count) for m, count in zip(messages, counts)])
wrong = sum(g != turned(binascii.crc_hqx(high_first(m[:count]), 0xFFFF), 16) ^ 0xFFFF for g, m, count in zip(got, messages, counts))
report(f"the check sequence of their first octets: {wrong} differ", wrong == 0)

# a range that starts and ends inside octets: as the same bits laid from place 0 on, where the bits before are zero
cuts = []
for m in messages:
    n = 8 * len(m)
    at = rng.randrange(n + 1)
    cuts.append((m, at, rng.randrange(n - at + 1)))
got = ask([(high_first(m), at, bits) for m, at, bits in cuts])


def by_hqx(m, at, bits):
    """Leading zero bits change nothing in a register that starts at zero, so the range is put at the end of whole octets."""
    n = int.from_bytes(m, "big") >> (8 * len(m) - at - bits) & ((1 << bits) - 1)
    return binascii.crc_hqx(n.to_bytes((bits + 7) // 8, "big"), 0)


wrong = sum(g != by_hqx(*cut) for g, cut in zip(got, cuts))
report(f"binascii.crc_hqx on {len(cuts)} ranges inside them: {wrong} differ", wrong == 0)
