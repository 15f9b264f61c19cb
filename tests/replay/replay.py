"""The replayer's cases, from SCOPE's "The start-up supervisor" alone: each story is written out by hand, and random logs are told by the
small supervisor below. The command to run is given as arguments.
"""
import os
import pathlib
import random
import re
import subprocess
import sys
import tempfile

SEED = 20261117
failures = 0

REPORTS = ["", "pre-activation ended", "C_r begins", "C_r has ended", "own receiver converged", "T_c seen", "T_r seen", "second F_c frame over", "abnormal"]


def named(code):
    return f"code {code}, {REPORTS[int(code)]}"


def seconds(ticks):
    return f"{ticks // 1000}.{ticks % 1000:03d} s"


# What a phase lasts in milliseconds, and the codes that it waits for.
RULES = {
    "Ready": (0, "1"), "Gap": (300, ""), "Await": (0, "2"), "C_r": (1000, ""), "Hearing": (0, "3"), "Quiet-ntu": (1500, ""), "Quiet-ltu": (500, ""),
    "S_c": (5000, "4"), "S_r": (0, "45"), "T_c": (0, "6"), "T_r": (0, "7"), "F_c": (0, "7"), "Settling": (1000, ""), "Valid": (0, "8"),
}


def rule(phase):
    """A phase as it is told: "S_c" is "S_c (5.000 s and until code 4, own receiver converged)"; "Exception 2000" has its silence."""
    if phase.startswith("Exception"):
        return f"Exception (silent for {seconds(int(phase.split()[1]))})"
    lasts, awaits = RULES[phase]
    waits = "until " + ", and ".join(named(c) for c in awaits) if awaits else ""
    return f"{phase.split('-')[0]} ({' and '.join(([seconds(lasts)] if lasts else []) + ([waits] if waits else []))})"


def told(short):
    """A story in short: 'tick 300: attempt 1, tick 0: opens: C_r'. Ticks get their seconds, codes their names, phases their rules."""
    lines = []
    for line in short.strip("\n").split("\n"):
        m = re.fullmatch(r"(tick .*?(?:: |still ))((?:[A-Z]\w*(?:-\w+)?)|Exception \d+)", line)
        if m:
            line = m[1] + rule(m[2])
            line = re.sub(r"tick (\d+)", lambda k: f"tick {k[1]} ({seconds(int(k[1]))})", line)
            line = re.sub(r"(: )code (\d): ", lambda k: f"{k[1]}{named(k[2])}: ", line)
        lines.append(line)
    return "\n".join(lines) + "\n"


def end(tick, verdict):
    return f"end of log at tick {tick} ({seconds(tick)})\n{verdict}\n"


def run(arguments, log):
    got = subprocess.run(sys.argv[1:] + arguments.split(), input=log, capture_output=True)
    return got.returncode, got.stdout, got.stderr


def report(name, right):
    global failures
    failures += not right
    print(("pass: " if right else "FAIL: ") + name)


def case(name, arguments, log, text, words=""):
    got = run(arguments, log if isinstance(log, bytes) else log.encode("ascii"))
    right = got == (0, text.lstrip("\n").encode("ascii"), words.encode("ascii"))
    report(name, right)
    if not right:
        print(f"  ended with {got[0]}, said on the side {got[2][:200]!r}, printed\n{got[1][-1500:].decode('latin-1')}  and not\n{text.lstrip()[-1500:]}")


# ---- stories written out

case("NTU to data mode", "ntu", "1\n0*300\n0*1000\n0*1500\n5\n0*12\n4\n0*368\n7\n0*1000\n0*5\n", """
tick 0 (0.000 s): Ready (until code 1, pre-activation ended)
tick 0 (0.000 s): code 1, pre-activation ended: Gap (0.300 s)
tick 300 (0.300 s): attempt 1, tick 0 (0.000 s): opens: C_r (1.000 s)
tick 1300 (1.300 s): attempt 1, tick 1000 (1.000 s): Quiet (1.500 s)
tick 2800 (2.800 s): attempt 1, tick 2500 (2.500 s): S_r (until code 4, own receiver converged, and code 5, T_c seen)
tick 2800 (2.800 s): attempt 1, tick 2500 (2.500 s): code 5, T_c seen: heard, still S_r (until code 4, own receiver converged, and code 5, T_c seen)
tick 2812 (2.812 s): attempt 1, tick 2512 (2.512 s): code 4, own receiver converged: T_r (until code 7, second F_c frame over)
tick 3180 (3.180 s): attempt 1, tick 2880 (2.880 s): code 7, second F_c frame over: ends in data mode: Settling (1.000 s)
tick 4180 (4.180 s): Valid (until code 8, abnormal)
end of log at tick 4185 (4.185 s)
attempt 1 ended in data mode after 2.880 s
""")
case("LTU to data mode", "ltu", "1\n0*50\n2\n0*1000\n3\n0*500\n0*100\n4\n0*4900\n6\n0*10\n7\n0*999\n", """
tick 0 (0.000 s): Ready (until code 1, pre-activation ended)
tick 0 (0.000 s): code 1, pre-activation ended: Await (until code 2, C_r begins)
tick 50 (0.050 s): attempt 1, tick 0 (0.000 s): code 2, C_r begins: opens: Hearing (until code 3, C_r has ended)
tick 1050 (1.050 s): attempt 1, tick 1000 (1.000 s): code 3, C_r has ended: Quiet (0.500 s)
tick 1550 (1.550 s): attempt 1, tick 1500 (1.500 s): S_c (5.000 s and until code 4, own receiver converged)
tick 1650 (1.650 s): attempt 1, tick 1600 (1.600 s): code 4, own receiver converged: heard, still S_c (5.000 s and until code 4, own receiver converged)
tick 6550 (6.550 s): attempt 1, tick 6500 (6.500 s): T_c (until code 6, T_r seen)
tick 6550 (6.550 s): attempt 1, tick 6500 (6.500 s): code 6, T_r seen: F_c (until code 7, second F_c frame over)
tick 6560 (6.560 s): attempt 1, tick 6510 (6.510 s): code 7, second F_c frame over: ends in data mode: Settling (1.000 s)
end of log at tick 7559 (7.559 s)
attempt 1 ended in data mode after 6.510 s
""")
case("LTU, code 4 after S_c has lasted", "ltu", "1\n2\n3\n0*5500\n0*70\n4\n", told("""
tick 0: Ready
tick 0: code 1: Await
tick 0: attempt 1, tick 0: code 2: opens: Hearing
tick 0: attempt 1, tick 0: code 3: Quiet-ltu
tick 500: attempt 1, tick 500: S_c
tick 5570: attempt 1, tick 5570: code 4: T_c
""") + end(5570, "attempt 1 is still trying in T_c, 5.570 s of 15.000 s used, 9.430 s left: T_r has not been seen"))

opened = told("""
tick 0: Ready
tick 0: code 1: Gap
tick 300: attempt 1, tick 0: opens: C_r
tick 1300: attempt 1, tick 1000: Quiet-ntu
tick 2800: attempt 1, tick 2500: S_r
tick 2800: attempt 1, tick 2500: code 4: heard, still S_r
tick 2800: attempt 1, tick 2500: code 5: T_r
""")
case("code 7 after tick 14,999", "ntu", "1\n0*2800\n4\n5\n0*12499\n7\n", opened + told("""
tick 15299: attempt 1, tick 14999: code 7: ends in data mode: Settling
""") + end(15299, "attempt 1 ended in data mode after 14.999 s"))
case("code 7 after tick 15,000", "ntu 2000", "1\n0*2800\n4\n5\n0*12500\n7\n", opened + told("""
tick 15300: attempt 1, tick 15000: time is up, ends in exception: Exception 2000
tick 15300: code 7: changes nothing, still Exception 2000
""") + end(15300, "attempt 1 ended in exception after 15.000 s: time was up in T_r; still silent in Exception, 0.000 s so far, 2.000 s left"))
case("the log ends on tick 14,999", "ntu", "1\n0*2800\n4\n5\n0*12499\n", opened
     + end(15299, "attempt 1 is still trying in T_r, 14.999 s of 15.000 s used, 0.001 s left: the second F_c frame is not over"))
case("code 8 in an attempt, and in its silence", "ntu 2500", "1\n0*400\n8\n0*100\n8\n0*2499\n0\n1\n", told("""
tick 0: Ready
tick 0: code 1: Gap
tick 300: attempt 1, tick 0: opens: C_r
tick 400: attempt 1, tick 100: code 8: ends in exception: Exception 2500
tick 500: code 8: silence starts again: Exception 2500
tick 3000: Ready
tick 3000: code 1: Gap
""") + end(3000, "attempt 1 ended in exception after 0.100 s: code 8, abnormal, came in C_r; "
           "still waiting in Gap for the attempt to open, 0.000 s so far, 0.300 s left"))
early = told("""
tick 0: Ready
tick 0: code 1: Gap
tick 300: attempt 1, tick 0: opens: C_r
tick 300: attempt 1, tick 0: code 4: changes nothing, still C_r
tick 1300: attempt 1, tick 1000: Quiet-ntu
tick 2800: attempt 1, tick 2500: S_r
""")
case("an early 4 is not counted", "ntu", "1\n0*300\n4\n0*2500\n5\n0*100\n", early + told("""
tick 2800: attempt 1, tick 2500: code 5: heard, still S_r
""") + end(2900, "attempt 1 is still trying in S_r, 2.600 s of 15.000 s used, 12.400 s left: own receiver has not converged"))
case("S_r without both", "ntu", "1\n0*300\n4\n0*2500\n0*100\n", early
     + end(2900, "attempt 1 is still trying in S_r, 2.600 s of 15.000 s used, 12.400 s left: own receiver has not converged, and T_c has not been seen"))
case("S_r without T_c", "ntu", "1\n0*300\n4\n0*2500\n4\n0*100\n", early + told("""
tick 2800: attempt 1, tick 2500: code 4: heard, still S_r
""") + end(2900, "attempt 1 is still trying in S_r, 2.600 s of 15.000 s used, 12.400 s left: T_c has not been seen"))
case("two attempts, and code 8 in data mode", "ltu 60000", "2\n1\n2\n0*15000\n0*60000\n1\n2\n3\n0*5500\n4\n6\n7\n0*500\n8\n0*59999\n", told("""
tick 0: Ready
tick 0: code 2: changes nothing, still Ready
tick 0: code 1: Await
tick 0: attempt 1, tick 0: code 2: opens: Hearing
tick 15000: attempt 1, tick 15000: time is up, ends in exception: Exception 60000
tick 75000: Ready
tick 75000: code 1: Await
tick 75000: attempt 2, tick 0: code 2: opens: Hearing
tick 75000: attempt 2, tick 0: code 3: Quiet-ltu
tick 75500: attempt 2, tick 500: S_c
tick 80500: attempt 2, tick 5500: code 4: T_c
tick 80500: attempt 2, tick 5500: code 6: F_c
tick 80500: attempt 2, tick 5500: code 7: ends in data mode: Settling
tick 81000: code 8: Exception 60000
""") + end(140999, "attempt 2 ended in data mode after 5.500 s; code 8, abnormal, ended data mode; still silent in Exception, 59.999 s so far, 0.001 s left"))
awaiting = told("""
tick 0: Ready
tick 0: code 1: Await
""")
case("a card that waits in Await", "ltu", "1\n0*200000\n", awaiting + end(200000, "still waiting in Await for C_r, 200.000 s so far: C_r has not been heard"))
case("a card that waits in Await after a failure", "ltu 2000", "1\n2\n0*1500\n8\n0*2000\n0*7\n1\n0*30\n", awaiting + told("""
tick 0: attempt 1, tick 0: code 2: opens: Hearing
tick 1500: attempt 1, tick 1500: code 8: ends in exception: Exception 2000
tick 3500: Ready
tick 3507: code 1: Await
""") + end(3537, "attempt 1 ended in exception after 1.500 s: code 8, abnormal, came in Hearing; "
           "still waiting in Await for C_r, 0.030 s so far: C_r has not been heard"))
case("a card that is ready after a failure", "ltu 2000", "1\n2\n0*1500\n8\n0*2000\n0*7\n", awaiting + told("""
tick 0: attempt 1, tick 0: code 2: opens: Hearing
tick 1500: attempt 1, tick 1500: code 8: ends in exception: Exception 2000
tick 3500: Ready
""") + end(3507, "attempt 1 ended in exception after 1.500 s: code 8, abnormal, came in Hearing; "
           "still waiting in Ready for pre-activation to end, 0.007 s so far"))
trying = awaiting + told("""
tick 0: attempt 1, tick 0: code 2: opens: Hearing
""")
case("a card in Hearing", "ltu", "1\n2\n0*1\n", trying + end(1, "attempt 1 is still trying in Hearing, 0.001 s of 15.000 s used, 14.999 s left: C_r has not ended"))
trying += told("""
tick 0: attempt 1, tick 0: code 3: Quiet-ltu
""")
case("a card in Quiet", "ltu", "1\n2\n3\n", trying + end(0, "attempt 1 is still trying in Quiet, 0.000 s of 15.000 s used, 15.000 s left"))
trying += told("""
tick 500: attempt 1, tick 500: S_c
""")
case("a card in S_c", "ltu", "1\n2\n3\n0*512\n", trying + end(512, "attempt 1 is still trying in S_c, 0.512 s of 15.000 s used, 14.488 s left: own receiver has not converged"))
case("a card in S_c that has converged", "ltu", "1\n2\n3\n0*500\n4\n", trying + told("""
tick 500: attempt 1, tick 500: code 4: heard, still S_c
""") + end(500, "attempt 1 is still trying in S_c, 0.500 s of 15.000 s used, 14.500 s left"))

# ---- how long a silence is: without the argument 5,000 ticks, with it as many as it says

OPENS = {"ltu": ("Await", "1\n2\n", "tick 0: attempt 1, tick 0: code 2: opens: Hearing\n", 0, "Hearing"),
         "ntu": ("Gap", "1\n0*300\n", """tick 300: attempt 1, tick 0: opens: C_r
tick 1300: attempt 1, tick 1000: Quiet-ntu
tick 2800: attempt 1, tick 2500: S_r
""", 300, "S_r")}
for which, (told_by_1, opening, opens, at, stuck) in OPENS.items():
    for given, silence in (("", 5000), (" 5000", 5000), (" 2000", 2000)):
        name = f"{which}{given}, silent for {silence} ticks"
        quiet = told(f"tick 0: Ready\ntick 0: code 8: Exception {silence}")
        case(f"{name} after code 8: one tick before", which + given, f"8\n0*{silence - 1}\n1\n", quiet + told(
            f"tick {silence - 1}: code 1: changes nothing, still Exception {silence}")
            + end(silence - 1, f"still silent in Exception, {seconds(silence - 1)} so far, 0.001 s left"))
        case(f"{name} after code 8: ready", which + given, f"8\n0*{silence}\n", quiet + told(f"tick {silence}: Ready")
             + end(silence, "still waiting in Ready for pre-activation to end, 0.000 s so far"))
        quiet = told(f"tick 0: Ready\ntick 0: code 1: {told_by_1}\n{opens}"
                     f"tick {at + 15000}: attempt 1, tick 15000: time is up, ends in exception: Exception {silence}")
        ended = f"attempt 1 ended in exception after 15.000 s: time was up in {stuck}; still "
        case(f"{name} after tick 15,000: one tick before", which + given, f"{opening}0*15000\n0*{silence - 1}\n", quiet
             + end(at + 15000 + silence - 1, f"{ended}silent in Exception, {seconds(silence - 1)} so far, 0.001 s left"))
        case(f"{name} after tick 15,000: ready", which + given, f"{opening}0*15000\n0*{silence}\n", quiet + told(f"tick {at + 15000 + silence}: Ready")
             + end(at + 15000 + silence, f"{ended}waiting in Ready for pre-activation to end, 0.000 s so far"))

# ---- the text of a log

ready = told("tick 0: Ready")
empty = ready + end(0, "still waiting in Ready for pre-activation to end, 0.000 s so far")
gap = ready + told("tick 0: code 1: Gap")


def in_gap(ticks):
    return gap + end(ticks, f"still waiting in Gap for the attempt to open, {seconds(ticks)} so far, {seconds(300 - ticks)} left")


case("an empty log", "ntu", "", empty)
case("an empty log, LTU", "ltu", "", empty)
case("only remarks and empty lines", "ntu", "# 1\n\n#\n\r\n#9\r\n", empty)
case("lines that end with CR and newline", "ntu", "# seen at the bench\r\n1\r\n0*120\r\n\r\n0\r\n", in_gap(121))
case("a last line without a newline", "ntu", "1\n0*7", in_gap(7))
case("a tick a line", "ntu", "1\n" + "0\n" * 299, in_gap(299))
case("zeros in front of a count", "ntu", "1\n0*00000000000000000000010\n", in_gap(10))

WHY = {1: "the log has more than 1048576 octets", 2: "this line is no code", 4: "no line counts so many ticks, or the log has over 1000000000"}


def refused(number, line):
    return f"refused {number} at line {line}: {WHY[number]}\n"


for number, wrong in ((2, b"9"), (2, b"10"), (2, b"00"), (2, b"abc"), (2, b" 1"), (2, b"1 "), (2, b"1*2"), (2, b"0*1x"), (2, b"0 *3"), (2, b"0x300"),
                      (2, b"-1"), (2, b"0*-1"), (2, b"0**3"), (2, b"0*1\r\r"), (2, b"\r\r"), (2, b"\0"), (2, b"\xff"), (2, b"/"), (2, b"*3"), (2, b"0+1"),
                      (4, b"0*0"), (4, b"0*000"), (4, b"0*"), (4, b"0*1000000001"), (4, b"0*4294967297"), (4, b"0*99999999999999999999999")):
    case(f"refused {number}: {wrong!r} on line 4", "ntu", b"# log\n1\n\n" + wrong + b"\n8\n", gap + refused(number, 4))
case("refused 2: the first line", "ltu", "x", ready + refused(2, 1))
case("refused 2: the last line, after 100,000 others", "ltu", "0\n" * 100000 + "9", ready + refused(2, 100001))
case("a log of 1,048,576 octets", "ntu", "#" * 1048574 + "\n1", in_gap(0))
case("refused 1: one octet more", "ntu", "#" * 1048575 + "\n1", refused(1, 2))
case("refused 1: one newline more", "ntu", "1\n" * 524288 + "\n", refused(1, 524289))
case("refused 1: a line that goes on past it", "ntu", "1\n" + "#" * 3000000, refused(1, 2))
case("refused 1: 600,000 lines", "ntu", "0\n" * 600000, refused(1, 524289))
case("524,288 lines", "ntu", "0\n" * 524288, ready + end(524288, "still waiting in Ready for pre-activation to end, 524.288 s so far"))

# ---- what cannot be read, and what cannot be written

folder = tempfile.TemporaryDirectory()
opened_folder = os.open(folder.name, os.O_RDONLY)
got = subprocess.run(sys.argv[1:] + ["ntu"], stdin=opened_folder, capture_output=True)
report("a folder on standard input is no empty log", (got.stdout, got.stderr) == (b"", b"replay: standard input: Is a directory\n"))
os.close(opened_folder)
got = subprocess.run(sys.argv[1:] + ["ntu"], preexec_fn=lambda: os.close(0), capture_output=True)
report("standard input closed", (got.stdout, got.stderr) == (b"", b"replay: standard input: Bad file descriptor\n"))
FULL = b"replay: standard output: No space left on device\n"
for name, log in (("a short log", b"1\n0*5000\n"), ("a refused log", b"x"), ("a log with a thousand events", b"1\n8\n0*2000\n" * 500)):
    with open("/dev/full", "wb") as full:
        got = subprocess.run(sys.argv[1:] + ["ntu", "2000"], input=log, stdout=full, stderr=subprocess.PIPE)
    report(f"a full disk, {name}: one message", got.stderr == FULL)
script = 'ulimit -f 1; trap "" XFSZ; "$@" > "$0"'
got = subprocess.run(["sh", "-c", script, os.path.join(folder.name, "out")] + sys.argv[1:] + ["ntu", "2000"], input=b"1\n8\n0*2000\n" * 500, capture_output=True)
report("a file that grows too large: one message in mid-story", got.stderr == b"replay: standard output: File too large\n")

# ---- arguments

usage = "usage: replay [--status] ltu|ntu [SILENCE] < LOG\n"
for arguments in ("", "2000", "LTU", "lt", "ltux", "xtu", "nto", "--"):
    case(f"no end: arguments '{arguments}'", arguments, "1\n", "", "replay: the end is ltu or ntu\n" + usage)
for silence in ("1", "1999", "60001", "0", "x", "2000x", "4294969296", "20000000000000000000"):
    for which in ("ltu", "ntu"):
        case(f"no silence: {which} {silence}", f"{which} {silence}", "1\n", "", "replay: the silence is 2000 to 60000 ticks\n" + usage)
for arguments in ("--foo", "ltu -2000", "ltu --like", "ltu 2000 --csv", "ntu 2000 2000", "ntu 2000 log"):
    case(f"wrong: '{arguments}'", arguments, "1\n", "", f"replay: wrong argument: {arguments.split()[-1]}\n" + usage)
for silence in (2000, 2001, 4999, 5000, 5001, 59999, 60000):
    for which in ("ltu", "ntu"):
        case(f"silence {which} {silence}", f"{which} {silence}", "8\n", ready + told(f"tick 0: code 8: Exception {silence}")
             + end(0, f"still silent in Exception, 0.000 s so far, {seconds(silence)} left"))
case("ltu behind --", "-- ltu", "", empty)
makefile = pathlib.Path("Makefile").read_text()
release = next(line.split(" = ")[1] for line in makefile.splitlines() if line.startswith("VERSION = "))
report(f"--version prints sdsl-replay {release}, the Makefile's version", run("--version", b"") == (0, f"sdsl-replay {release}\n".encode(), b""))
for arguments in ("--help", "--help --foo", "ltu --help", "--status --help"):
    got = run(arguments, b"")
    report(f"{arguments} on standard output", got[1].decode().startswith(usage) and b"--status" in got[1] and got[2] == b"")

# ---- the status, only where it is asked for


def status(arguments, log=b"", stdout=None):
    """The digit on descriptor 3, by the shell's own means, as a wrapper asks for it."""
    script = 'exec 4>&1; s=$("$@" 3>&1 >&4 2>/dev/null); printf %s "$s" >&2'
    with tempfile.TemporaryFile() as file:
        file.write(log)
        file.seek(0)
        command = ["sh", "-c", script, "sh"] + sys.argv[1:] + arguments.split()
        return subprocess.run(command, stdin=file, stdout=stdout or subprocess.DEVNULL, stderr=subprocess.PIPE).stderr


there = b"1\n0*2800\n4\n5\n7\n"
for digit, arguments, log, name in (
        (b"0", "ntu", there, "Settling"), (b"0", "ntu", there + b"0*1000\n", "Valid"), (b"1", "ntu", there + b"8\n", "data mode left"),
        (b"1", "ntu", b"", "an empty log"), (b"1", "ntu", b"1\n0*3000\n", "still trying"), (b"1", "ltu", b"1\n2\n0*15000\n", "time up"), (b"1", "ltu", b"1\n", "Await"),
        (b"2", "ntu", there + b"9\n", "a refused line"), (b"2", "ntu", b"#" * 1048577, "a log that is too long"), (b"2", "", there, "no end"),
        (b"2", "ntu 1", there, "no silence"), (b"2", "ntu --foo", there, "a wrong option"), (b"0", "--help", b"", "--help"), (b"0", "--version", b"", "--version")):
    report(f"--status {name}: {digit.decode()}", status("--status " + arguments, log) == digit)
report("--status behind the others", status("ntu 2000 --status", there) == b"0")
with open("/dev/full", "wb") as full:
    report("--status with a full disk: 2", status("--status ntu", there, stdout=full) == b"2")
report("no --status, no digit", status("ntu", there) == b"")

# ---- random logs, told by a small supervisor: phases with their limit and the codes that must come in them

PHASES = {
    "ntu": ["Gap", "C_r", "Quiet-ntu", "S_r", "T_r", "Settling", "Valid"],
    "ltu": ["Await", "Hearing", "Quiet-ltu", "S_c", "T_c", "F_c", "Settling", "Valid"],
}
LACKS = {"2": "", "3": "C_r has not ended", "4": "own receiver has not converged", "5": "T_c has not been seen", "6": "T_r has not been seen",
         "7": "the second F_c frame is not over"}


def story(which, silence, codes):
    phases = PHASES[which]
    settling = len(phases) - 2
    quiet = f"Exception {silence}"
    out = ["tick 0: Ready"]
    clock = attempts = entered = 0
    last = None
    place, spent, heard, since = "ready", 0, set(), 0
    for code in codes:
        tick = code == "0"
        clock += tick
        was = place
        trying = place not in ("ready", "silent") and 1 <= place < settling
        if trying:
            since += tick
        front = f"tick {clock}: " + (f"attempt {attempts}, tick {since}: " if trying else "") + ("" if tick else f"code {code}: ")
        if code == "8":
            if trying:
                last = f"exception after {seconds(since)}: {named(8)}, came in {phases[place].split('-')[0]}; "
            elif last and last.startswith("data") and place in (settling, settling + 1):
                last += f"; {named(8)}, ended data mode; "
            out.append(front + ("silence starts again: " if place == "silent" else "ends in exception: " if trying else "") + quiet)
            place, spent = "silent", 0
        elif trying and since == 15000:
            last = f"exception after 15.000 s: time was up in {phases[place].split('-')[0]}; "
            out.append(front + "time is up, ends in exception: " + quiet)
            place, spent = "silent", 0
        elif place == "ready":
            if code == "1":
                place, spent, heard = 0, 0, set()
                out.append(front + phases[0])
            elif not tick:
                out.append(front + "changes nothing, still Ready")
        elif place == "silent":
            spent += tick
            if spent == silence:
                place = "ready"
                out.append(front + "Ready")
            elif not tick:
                out.append(front + "changes nothing, still " + quiet)
        else:
            name = phases[place]
            limit, needed = RULES[name]
            spent += tick
            new = code in needed and code not in heard and name != "Valid"
            heard |= {code} & set(needed)
            if name != "Valid" and (tick or new) and spent >= limit and heard >= set(needed):
                place, spent, heard = place + 1, 0, set()
                if place == 1:
                    attempts, since = attempts + 1, 0
                    front = f"tick {clock}: attempt {attempts}, tick 0: " + ("" if tick else f"code {code}: ") + "opens: "
                elif place == settling:
                    last = f"data mode after {seconds(since)}"
                    front += "ends in data mode: "
                out.append(front + phases[place])
            elif new:
                out.append(front + "heard, still " + name)
            elif not tick:
                out.append(front + "changes nothing, still " + name)
        if place != was:
            entered = clock
    so_far = f"{seconds(clock - entered)} so far"
    if place == "ready":
        now = f"still waiting in Ready for pre-activation to end, {so_far}"
    elif place == "silent":
        now = f"still silent in Exception, {so_far}, {seconds(silence - spent)} left"
    elif phases[place] == "Gap":
        now = f"still waiting in Gap for the attempt to open, {so_far}, {seconds(300 - spent)} left"
    else:
        now = f"still waiting in Await for C_r, {so_far}: C_r has not been heard"
    if place not in ("ready", "silent") and 1 <= place < settling:
        name = phases[place]
        lacking = ", and ".join(LACKS[c] for c in RULES[name][1] if c not in heard)
        verdict = f"attempt {attempts} is still trying in {name.split('-')[0]}, {seconds(since)} of 15.000 s used, {seconds(15000 - since)} left"
        verdict += f": {lacking}" if lacking else ""
    elif last is None:
        verdict = now
    elif place in (settling, settling + 1):
        verdict = f"attempt {attempts} ended in {last}"
    else:
        verdict = f"attempt {attempts} ended in {last}{now}"
    return told("\n".join(out)) + end(clock, verdict)


rng = random.Random(SEED)
differ = 0
logs = 60
for k in range(2 * logs):
    which = rng.choice(("ltu", "ntu"))
    silence = rng.choice((2000, 2001, 5000))
    given = f" {silence}"
    if k >= logs:  # the silence left out
        silence, given = 5000, ""
    lines, codes = [], []
    for _ in range(rng.randrange(1, 60)):
        if rng.random() < 0.5:
            n = rng.choice((1, 2, 299, 300, 500, 999, 1000, 1500, 2000, 4999, 5000, rng.randrange(1, 9000)))
            lines.append(f"0*{n}" if n > 1 or rng.random() < 0.5 else "0")
            codes += ["0"] * n
        else:
            code = rng.choice("12345671234567123456781")
            lines.append(code)
            codes.append(code)
    got = run(which + given, "\n".join(lines).encode("ascii"))
    if got != (0, story(which, silence, codes).encode("ascii"), b""):
        differ += 1
        if differ == 1:
            print(f"  {which}{given} {lines}\n{got[1].decode('latin-1')}  and not\n{story(which, silence, codes)}")
report(f"{2 * logs} random logs, {logs} of them with the silence left out (seed {SEED}): {differ} differ", differ == 0)
sys.exit(failures != 0)
