"""Messages of the operations channel, laid octet by octet from part 1's clauses 10.5.5.2 to 10.5.5.4 and RFC 1662 alone: for tests/messages
and for examples/messages. The library is not used."""

FLAG = b"\x7e"
ESCAPES = {0x7E: b"\x7d\x5e", 0x7D: b"\x7d\x5d"}


def check_sequence(octets):
    """RFC 1662's FCS-16 (CRC-16/X-25) as it is sent: x^16 + x^12 + x^5 + 1, lowest bit first, from all ones, turned over, low octet first."""
    register = 0xFFFF
    for octet in octets:
        register ^= octet
        for _ in range(8):
            register = register >> 1 ^ (0x8408 if register & 1 else 0)
    return (register ^ 0xFFFF).to_bytes(2, "little")


assert check_sequence(b"123456789") == b"\x6e\x90"


def escaped(octets):
    return b"".join(ESCAPES.get(octet, bytes([octet])) for octet in octets)


def body(source, destination, number, contents=b""):
    """Octets 1 to L + 2: the destination in the low four bits of the first, the message number, the contents."""
    return bytes([source << 4 | destination, number]) + contents


def message(source, destination, number, contents=b""):
    """What stands between two flags."""
    octets = body(source, destination, number, contents)
    return escaped(octets + check_sequence(octets))


def channel(*pieces):
    """Pieces one after the other, a flag before and behind each: one flag ends a piece and begins the next."""
    return FLAG + b"".join(piece + FLAG for piece in pieces)
