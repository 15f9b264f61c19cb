"""The six check bits of a data-mode frame against programs from outside. The command to run is given as arguments.

Both programs are Debian's: osmo_crc8gen_compute_bits of libosmocore (GSM base stations) takes bits one by one, with any polynomial up to
eight bits; Crc6G704 of python3-crccheck is the catalogue's CRC-6/G-704, which takes octets, the lowest bit first as we do, and gives its
result turned round. What they are given is taken out of the frame here, by the numbers that table 7.2 prints.
"""
import ctypes
import random
import subprocess
import sys

from crccheck.crc import Crc6G704

SEED = 20261115
SYNCHRONOUS, PLESIOCHRONOUS = 0, 1
ROOM = {SYNCHRONOUS: 1740, PLESIOCHRONOUS: 1741}


class Code(ctypes.Structure):
    """struct osmo_crc8gen_code of osmocom/core/crc8gen.h"""

    _fields_ = [("bits", ctypes.c_int), ("poly", ctypes.c_uint8), ("init", ctypes.c_uint8), ("remainder", ctypes.c_uint8)]


osmocore = ctypes.CDLL("libosmocore.so.19")
osmocore.osmo_crc8gen_compute_bits.restype = ctypes.c_uint8
osmocore.osmo_crc8gen_compute_bits.argtypes = [ctypes.POINTER(Code), ctypes.c_char_p, ctypes.c_int]


def by_osmocore(bits):
    return osmocore.osmo_crc8gen_compute_bits(ctypes.byref(Code(6, 0b000011, 0, 0)), bytes(bits), len(bits))


def octets(bits):
    return bytes(sum(bit << i for i, bit in enumerate(bits[at : at + 8])) for at in range(0, len(bits), 8))


def by_crccheck(bits):
    """Zeros in front change nothing in a register that starts at zero; they make the octets whole."""
    return int(format(Crc6G704.calc(octets([0] * (-len(bits) % 8) + bits)), "06b")[::-1], 2)


def crc_places(k):
    return [12 * k + 21, 12 * k + 22, 24 * k + 31, 24 * k + 32, 36 * k + 41, 36 * k + 42]


def covered(form, k):
    """The numbers of the bits that the check bits cover: without sync word, crc1 to crc6, and stuffing bits."""
    last = 48 * k + (48 if form == SYNCHRONOUS else 46)
    without = set(crc_places(k))
    return [n for n in range(15, last + 1) if n not in without]


def ask(requests):
    text = "".join(f"{form} {k} {room.hex()}\n" for form, k, room in requests)
    out = subprocess.run(sys.argv[1:], input=text, capture_output=True, text=True, check=True).stdout.splitlines()
    assert len(out) == len(requests)
    return [tuple(int(n) for n in line.split()) for line in out]


def report(name, right):
    print(("pass: " if right else "FAIL: ") + name)


def bits_of(room):
    """Bit n of the paper at place n; place 0 is not used."""
    return [0] + [octet >> i & 1 for octet in room for i in range(8)]


digits = bits_of(b"123456789")[1:]
report("CRC-6/G-704 of 123456789 is 0x06 to Debian's crccheck, and 0x18, which is 0x06 turned round, to libosmocore",
       Crc6G704.calc(b"123456789") == 0x06 and by_osmocore(digits) == by_crccheck(digits) == 0x18)

# 123456789 as the last 72 bits that are covered, and zeros before it
requests = []
for form in ROOM:
    for k in 24, 289:
        bits = [0] * (8 * ROOM[form] + 1)
        for n, bit in zip(covered(form, k)[-72:], digits):
            bits[n] = bit
        requests.append((form, k, octets(bits[1:])))
report("so it is to sdsl_data_crc", ask(requests) == [(0, 0, 0x18)] * len(requests))

rng = random.Random(SEED)
requests = [(form, k, rng.randbytes(ROOM[form])) for form in ROOM for k in range(24, 290)]
got = ask(requests)
refused = carried = osmo = catalogue = 0
for (form, k, room), (answer, six, due) in zip(requests, got):
    bits = bits_of(room)
    message = [bits[n] for n in covered(form, k)]
    refused += answer != 0
    carried += six != int("".join(str(bits[n]) for n in crc_places(k)), 2)
    osmo += due != by_osmocore(message)
    catalogue += due != by_crccheck(message)
told = f"{len(requests)} random frames, every size in both forms (seed {SEED})"
report(f"libosmocore on {told}: {osmo} differ, {refused} refused", osmo == refused == 0)
report(f"crccheck on the same: {catalogue} differ", catalogue == 0)
report(f"the six that they carry, where table 7.2 has them: {carried} differ", carried == 0)
