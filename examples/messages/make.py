"""Makes the example captures of an operations channel, examples/messages/*.eoc: octets with their flags, as they came off the line. They are
laid by tests/messages/channel.py, which does not use the library.

    python3 examples/messages/make.py [FOLDER]

FOLDER is where they go; without it, beside this script. tests/messages makes them again and compares.
"""
import pathlib
import sys

HERE = pathlib.Path(__file__).resolve().parent
sys.path.insert(0, str(HERE.parents[1] / "tests" / "messages"))
from channel import FLAG, channel, message  # noqa: E402

LTU, NTU = 1, 2
INVENTORY_REQUEST, INVENTORY_RESPONSE, STATUS = 2, 130, 139


def inventory(version, listed, issue, software, unit, vendor, model, serial, other):
    """Table 10.10. Strings are filled up with blanks; the octet before the vendor ID is reserved."""
    strings = [text.encode("ascii").ljust(n) for text, n in ((listed, 3), (issue, 2), (software, 6), (unit, 10), (model, 12), (serial, 12), (other, 12))]
    return bytes([version]) + b"".join(strings[:4]) + bytes(1) + vendor + b"".join(strings[4:])


request = message(LTU, NTU, INVENTORY_REQUEST)
status = message(NTU, LTU, STATUS, bytes([6, 0, 1]))  # network side 6 dB, customer side 0 dB, loop 1
# The vendor ID as in G.994.1: a country, four letters of a maker, two octets of his own.
answer = message(NTU, LTU, INVENTORY_RESPONSE, inventory(
    1, "001", "02", "2.14", "SL4XA10AAA", bytes([0xB5, 0x00]) + b"SL4X" + bytes([0x01, 0x04]), "SL-4", "0117-2026", "bench 7"))


def damaged(octets):
    """The same with one bit turned over on the way, in its last octet, which belongs to the check sequence."""
    return octets[:-1] + bytes([octets[-1] ^ 1])


CHANNELS = {
    # One flag stands between the first two messages, and ends the one as it begins the other; before and behind them flags fill the time.
    "site-12": FLAG * 4 + channel(request, status) + FLAG * 2 + channel(damaged(status)),
    "inventory": FLAG * 4 + channel(request) + FLAG * 6 + channel(answer),
}


def main():
    folder = pathlib.Path(sys.argv[1]) if len(sys.argv) > 1 else HERE
    folder.mkdir(parents=True, exist_ok=True)
    for name, octets in CHANNELS.items():
        (folder / f"{name}.eoc").write_bytes(octets)


main()
