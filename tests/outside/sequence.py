"""The check sequence of a message (operations channel) against numbers and programs from outside. The command to run is given as arguments.

Numbers: the catalogue's check value of CRC-16/X-25; the two frames of ITU-T X.25, appendix I; the table and the good value of RFC 1662,
appendix C. None of the papers was at hand: the values are as they are commonly quoted, the table is made by the RFC's generator (C.1), typed
in from memory, and held against the one in libosmocore, which has it from Linux (lib/crc-ccitt.c).

Programs: Python's crc_hqx takes each octet's highest bit first, so octets and result are turned round; it starts as it is told and
complements nothing. Of Debian: osmo_crc16_ccitt of libosmocore (GSM base stations), CrcX25 of python3-crccheck (the catalogue in Python),
and of libspandsp2 (fax modems) crc_itu16_append and a whole HDLC transmitter and receiver, which take and give the bits of the line.
"""
import binascii
import ctypes
import random
import re
import subprocess
import sys

from crccheck.crc import CrcX25

SEED = 20261116
LENGTHS = range(2, 76)  # octets before the check sequence
GOOD, REFUSED = 0xF0B8, 7  # PPPGOODFCS16 of the RFC; our answer to a wrong check sequence

osmocore = ctypes.CDLL("libosmocore.so.19")
osmocore.osmo_crc16_ccitt.restype = ctypes.c_uint16
osmocore.osmo_crc16_ccitt.argtypes = [ctypes.c_uint16, ctypes.c_char_p, ctypes.c_size_t]
spandsp = ctypes.CDLL("libspandsp.so.2")
frame_handler = ctypes.CFUNCTYPE(None, ctypes.c_void_p, ctypes.POINTER(ctypes.c_uint8), ctypes.c_int, ctypes.c_int)
spandsp.hdlc_tx_init.restype = spandsp.hdlc_rx_init.restype = ctypes.c_void_p
spandsp.hdlc_tx_init.argtypes = [ctypes.c_void_p, ctypes.c_int, ctypes.c_int, ctypes.c_int, ctypes.c_void_p, ctypes.c_void_p]
spandsp.hdlc_tx_frame.argtypes = [ctypes.c_void_p, ctypes.c_char_p, ctypes.c_size_t]
spandsp.hdlc_rx_init.argtypes = [ctypes.c_void_p, ctypes.c_int, ctypes.c_int, ctypes.c_int, frame_handler, ctypes.c_void_p]
spandsp.hdlc_rx_put_bit.argtypes = [ctypes.c_void_p, ctypes.c_int]
spandsp.hdlc_tx_get_bit.argtypes = spandsp.hdlc_tx_free.argtypes = spandsp.hdlc_rx_free.argtypes = [ctypes.c_void_p]


def report(name, right):
    print(("pass: " if right else "FAIL: ") + name)


def ask(word, requests):
    """For each request the octets that come back and the answer."""
    text = "".join(f"{word} {octets.hex()}\n" for octets in requests)
    out = subprocess.run(sys.argv[1:], input=text, capture_output=True, text=True, check=True).stdout.splitlines()
    assert len(out) == len(requests)
    return [(bytes.fromhex(octets), int(answer)) for octets, answer in (line.split(" ") for line in out)]


def framed(plain):
    """RFC 1662, 4.2: an escaped octet is sent as 7D and itself with bit 6 complemented."""
    return b"\x7e" + re.sub(rb"[\x7d\x7e]", lambda m: bytes([0x7D, m[0][0] ^ 0x20]), plain) + b"\x7e"


def unframed(form):
    assert form[:1] == form[-1:] == b"\x7e" and len(form) >= 2
    return re.sub(rb"\x7d(.)", lambda m: bytes([m[1][0] ^ 0x20]), form[1:-1], flags=re.S)


def sequences(bodies):
    """What sdsl_eoc_write puts behind these octets: two, the low one first, as a number."""
    found = []
    for body, (form, answer) in zip(bodies, ask("write", bodies)):
        plain = unframed(form)
        assert answer == 0 and plain[:-2] == body
        found.append(int.from_bytes(plain[-2:], "little"))
    return found


def turned(n, width):
    return int(format(n, f"0{width}b")[::-1], 2)


def by_binascii(body):
    return turned(binascii.crc_hqx(bytes(turned(o, 8) for o in body), 0xFFFF), 16) ^ 0xFFFF


def by_osmocore(body):
    return osmocore.osmo_crc16_ccitt(0xFFFF, body, len(body)) ^ 0xFFFF


def by_spandsp(body):
    room = ctypes.create_string_buffer(body, len(body) + 2)
    assert spandsp.crc_itu16_append(room, len(body)) == len(body) + 2
    return int.from_bytes(room.raw[-2:], "little")


def is_good(plain):
    return osmocore.osmo_crc16_ccitt(0xFFFF, plain, len(plain)) == GOOD


# Numbers
digits, *of_x25 = sequences([b"123456789", b"\x03\x3f", b"\x01\x73"])
report("CRC-16/X-25 of 123456789 is 0x906E, sent as 6E 90", digits == 0x906E)
report("X.25, appendix I: behind 03 3F (SABM) stand 5B EC, behind 01 73 (UA) 83 57", of_x25 == [0xEC5B, 0x5783])
quoted = [b"\x7e123456789\x6e\x90\x7e", b"\x7e\x03\x3f\x5b\xec\x7e", b"\x7e\x01\x73\x83\x57\x7e"]
report("so they are to sdsl_eoc_read", ask("read", quoted) == [(form[1:-3], 0) for form in quoted])

# The table: fcs' = fcs >> 8 ^ fcstab[(fcs ^ octet) & 0xFF], so each octet behind a message of two shows a row.
generated = []
for row in range(256):
    for _ in range(8):
        row = row >> 1 ^ 0x8408 if row & 1 else row >> 1
    generated.append(row)
before, *after = (number ^ 0xFFFF for number in sequences([b"\x12\x02"] + [bytes([0x12, 0x02, o]) for o in range(256)]))
shown = [after[row ^ before & 0xFF] ^ before >> 8 for row in range(256)]
linux = list((ctypes.c_uint16 * 256).in_dll(osmocore, "osmo_crc16_ccitt_table"))
report(f"the 256 rows of RFC 1662's fcstab, from sdsl_eoc_write: {sum(a != b for a, b in zip(shown, generated))} differ from its generator's, "
       f"{sum(a != b for a, b in zip(shown, linux))} from Linux's, by libosmocore", shown == generated == linux)

# Programs
rng = random.Random(SEED)
bodies = [rng.randbytes(n) for _ in range(20) for n in LENGTHS] + [bytes(rng.choices(b"\x7d\x7e\x5d\x5e", k=n)) for n in LENGTHS]
written = sequences(bodies)
told = f"{len(bodies)} messages of every length from 2 to 75 (seed {SEED})"
for name, other in ("binascii.crc_hqx", by_binascii), ("crccheck", CrcX25.calc), ("libosmocore", by_osmocore), ("libspandsp", by_spandsp):
    wrong = sum(number != other(body) for number, body in zip(written, bodies))
    report(f"{name} on {told}: {wrong} differ", wrong == 0)
    told = "the same"

# Forms with a check sequence from outside
plains = [body + by_osmocore(body).to_bytes(2, "little") for body in bodies]
one_of_each = plains[: len(LENGTHS)]
escaped = sum(0x7D in plain[-2:] or 0x7E in plain[-2:] for plain in plains)
wrong = sum(got != (body, 0) for got, body in zip(ask("read", [framed(p) for p in plains]), bodies))
report(f"read with libosmocore's check sequence, which is escaped in {escaped}: {wrong} not taken or not the same", wrong == 0 < escaped)
wrong = sum(not is_good(unframed(form)) for form, _ in ask("write", bodies))
report(f"RFC 1662's good value, F0B8, over all octets of what is written: {wrong} do not give it", wrong == 0)


def told_apart(name, plains, goods):
    """sdsl_eoc_read takes exactly those that give the good value."""
    good = [is_good(plain) for plain in plains]
    wrong = sum(answer != (0 if right else REFUSED) for right, (_, answer) in zip(good, ask("read", [framed(p) for p in plains])))
    report(f"{name}: {sum(good)} of {len(plains)} give F0B8; {wrong} answered otherwise", wrong == 0 and sum(good) == goods)


told_apart("every pair of octets behind 12 02", [b"\x12\x02" + n.to_bytes(2, "little") for n in range(65536)], 1)
told_apart("one bit wrong, each bit of a message of each length",
           [(int.from_bytes(p, "big") ^ 1 << bit).to_bytes(len(p), "big") for p in one_of_each for bit in range(8 * len(p))], 0)
told_apart("the high octet first", [p[:-2] + p[:-3:-1] for p in plains if p[-1] != p[-2]], 0)


# A whole HDLC station: bits of the line, a zero behind every five ones, and flags. It knows no escapes of octets.
def by_transmitter(body):
    """The octets between the flags that libspandsp's transmitter sends."""
    station = spandsp.hdlc_tx_init(None, 0, 1, 0, None, None)
    spandsp.hdlc_tx_frame(station, body, len(body))
    line = "".join(str(spandsp.hdlc_tx_get_bit(station)) for _ in range(10 * len(body) + 64))
    spandsp.hdlc_tx_free(station)
    between = re.sub("111110", "11111", next(part for part in line.split("01111110") if part))
    return bytes(int(between[at : at + 8][::-1], 2) for at in range(0, len(between), 8))


def by_receiver(plains):
    """What libspandsp's receiver takes of these octets, each between flags."""
    taken = []
    handler = frame_handler(lambda _, octets, length, good: taken.append(bytes(octets[:length])) if length >= 0 and good else None)
    station = spandsp.hdlc_rx_init(None, 0, 0, 1, handler, None)
    flag = "01111110"
    for plain in plains:
        for bit in 2 * flag + re.sub("11111", "111110", "".join(format(o, "08b")[::-1] for o in plain)) + 2 * flag:
            spandsp.hdlc_rx_put_bit(station, int(bit))
    spandsp.hdlc_rx_free(station)
    return taken


some = bodies[-4 * len(LENGTHS) :]
wrong = sum(got != (body, 0) for got, body in zip(ask("read", [framed(by_transmitter(body)) for body in some]), some))
report(f"libspandsp's HDLC transmitter sends {len(some)} of them, four of each length, sdsl_eoc_read reads: {wrong} not taken or not the same",
       wrong == 0)
taken = by_receiver([unframed(form) for form, _ in ask("write", some)])
report(f"sdsl_eoc_write writes them, libspandsp's HDLC receiver takes: {len(taken)}, in this order", taken == some)
