"""Activation frames written from SCOPE alone, for the tests of the programs: laid bit by bit, check bits divided out by hand."""

TRAINING = "11111001101011"
FINAL = "11010110011111"


def lowest_first(n, width):
    """The bits of n, two's complement where it is below zero, least bit first."""
    return [(n >> k) & 1 for k in range(width)]


def divided(message):
    """Schoolbook division by D^16 + D^12 + D^5 + 1 of the message times D^16: the remainder's 16 bits, that of D^15 first."""
    rest = message + [0] * 16
    for k in range(len(message)):
        if rest[k]:
            for power in (16, 12, 5, 0):
                rest[k + 16 - power] ^= 1
    return rest[-16:]


def payload(coefficients, a, b, vendor, reserved=()):
    """Bits 15 to 4211; coefficients and reserved bits that are not given are zero."""
    bits = []
    for k in range(180):
        bits += lowest_first(coefficients[k] if k < len(coefficients) else 0, 22)
    bits += lowest_first(a, 21) + lowest_first(b, 21)
    for octet in vendor:
        bits += lowest_first(octet, 8)
    return bits + list(reserved) + [0] * (67 - len(reserved))


def frame_bits(sync, message):
    bits = [int(bit) for bit in sync] + message + divided(message) + [0] * 5
    assert len(bits) == 4232
    return bits


def in_octets(bits):
    return bytes(sum(bits[8 * k + j] << j for j in range(8)) for k in range(len(bits) // 8))


def frame(sync, message):
    return in_octets(frame_bits(sync, message))


def wrong(octets, *flips):
    """The octets with the paper's bits, counted from 1, turned over."""
    changed = bytearray(octets)
    for n in flips:
        changed[(n - 1) // 8] ^= 1 << (n - 1) % 8
    return bytes(changed)
