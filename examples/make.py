"""Makes the example captures, examples/frames/*.frame and examples/logs/*.log. The frames are laid by tests/frames.py, which does not use
the library; a log is a list of report codes with the ticks between them.

    python3 examples/make.py [FOLDER]

FOLDER is where frames/ and logs/ go; without it, beside this script. tests/examples makes them again and compares.
"""
import pathlib
import sys

HERE = pathlib.Path(__file__).resolve().parent
sys.path.insert(0, str(HERE.parent / "tests"))
from frames import FINAL, TRAINING, frame, payload, wrong  # noqa: E402

# The encoder words that the customer's card asks for, and what they are when they are read last bit first.
A, B = 366, 817


def turned(word):
    return int(f"{word:021b}"[::-1], 2)


def training(a, b, maker):
    """A card's training frame, with few precoder coefficients, so that its listing is short."""
    coefficients = [-26214, 6553, -1638]
    return frame(TRAINING, payload(coefficients, a, b, maker.ljust(16, b"\0")))


match = training(A, B, b"SL-4 no. 0117")
FRAMES = {
    "customer": training(A, B, b"KX-20 no. 8841"),
    "card-match": match,
    "card-turned": training(turned(A), turned(B), b"SL-4 no. 0118"),
    "card-other": training(6021, 3467, b"SL-4 no. 0119"),
    "card-damaged": wrong(match, 1000),  # one bit turned over on the way
    "card-final": frame(FINAL, payload([], 0, 0, b"SL-4 no. 0121".ljust(16, b"\0"))),
    "card-short": match[:528],  # the capture ended one octet too early
}

# A log: what it shows, then numbers of ticks and (code,) reports in order.
LOGS = {
    "ntu-data-mode": (
        "An NTU that trains: its receiver converges in S_r, T_c is seen, the second F_c frame is over.",
        [40, (1,), 300 + 1000 + 1500 + 1900, (4,), 2163, (5,), 232, (7,), 1500],
    ),
    "ltu-data-mode": (
        "An LTU that trains: C_r comes and goes, its receiver converges in S_c, T_r is seen, F_c is sent twice.",
        [40, (1,), 302, (2,), 1000, (3,), 500 + 2998, (4,), 2002 + 126, (6,), 167, (7,), 1500],
    ),
    "ntu-stuck-in-s_r": (
        "An NTU whose host reports convergence (4) once and too early, while the card is still quiet: it waits in S_r in vain.",
        [40, (1,), 300 + 1000 + 1400, (4,), 100 + 4063, (5,), 2000],
    ),
    "ltu-never-left-await": (
        "An LTU that waits for C_r for 200 seconds: nothing has come from the far card.",
        [40, (1,), 200000],
    ),
    "ltu-time-is-up": (
        "An LTU that sends T_c and never sees T_r: its 15,000th tick ends the attempt.",
        [40, (1,), 302, (2,), 1000, (3,), 500 + 2998, (4,), 12000],
    ),
}


def log(title, events):
    lines = [f"# {title}"]
    for event in events:
        lines.append(str(event[0]) if isinstance(event, tuple) else f"0*{event}")
    return "\n".join(lines) + "\n"


def main():
    folder = pathlib.Path(sys.argv[1]) if len(sys.argv) > 1 else HERE
    for kind in ("frames", "logs"):
        (folder / kind).mkdir(parents=True, exist_ok=True)
    for name, octets in FRAMES.items():
        (folder / "frames" / f"{name}.frame").write_bytes(octets)
    for name, (title, events) in LOGS.items():
        (folder / "logs" / f"{name}.log").write_text(log(title, events), encoding="ascii")


main()
