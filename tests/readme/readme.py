"""Types every command of README.md, from the top of the tree, and compares what is printed with what README shows.

A command is a line '    $ ..' in README; what it prints, on standard output and standard error as a terminal shows both, are the indented
lines below it. A command in the text, `./run ..` or `make ..` in backquotes, has to run too. `make` and `make test` are not typed: the
first has been by now, and this is part of the second. HOME is a folder of the test's own.

With --write it puts what is printed into README instead: read what has changed before you commit it.
"""
import os
import re
import subprocess
import sys
import tempfile

NOT_TYPED = {"make", "make test"}
failures = 0


def say(right, what):
    global failures
    failures += not right
    print(("pass: " if right else "FAIL: ") + what)


def typed(command, home):
    return subprocess.run(["bash", "-c", command], env=os.environ | {"HOME": home}, stdin=subprocess.DEVNULL, stdout=subprocess.PIPE,
                          stderr=subprocess.STDOUT, text=True, errors="replace")


COMMAND = re.compile(r"^    \$ (.*)\n((?:    (?!\$ ).*\n)*)", re.M)


def printed(command, home):
    """What a command prints, indented as README shows it."""
    return re.sub("^(?=.)", "    ", typed(command, home).stdout, flags=re.M)


def blocks(text, name):
    return re.findall(rf"^```{name}\n(.*?)^```$", text, re.M | re.S)


if subprocess.run(["make", "-s", "all"], stdout=subprocess.DEVNULL).returncode != 0:
    print("FAIL: make")
    sys.exit(1)
readme = open("README.md", encoding="utf-8").read()
commands = [(command, text) for command, text in COMMAND.findall(readme) if command not in NOT_TYPED]
say(len(commands) >= 10, f"README has {len(commands)} commands with what they print")
with tempfile.TemporaryDirectory() as home:
    if sys.argv[1:] == ["--write"]:
        def again(found):
            command = found[1]
            return found[0] if command in NOT_TYPED else f"    $ {command}\n{printed(command, home)}"
        open("README.md", "w", encoding="utf-8").write(COMMAND.sub(again, readme))
        sys.exit()
    for command, text in commands:
        got = printed(command, home)
        say(got == text, f"README: {command}")
        if got != text:
            print(f"--- README shows\n{text}--- printed\n{got}---")
    inline = sorted(set(re.findall(r"`((?:\./run|make) [^`]*|make)`", readme)) - NOT_TYPED - set(dict(commands)))
    for command in inline:
        got = typed(command, home)
        say(got.returncode in (0, 1) and got.stdout != "", f"README, in the text: {command}")
        if got.returncode not in (0, 1):
            print(got.stdout)

say(blocks(readme, "c") == [open("examples/first.c", encoding="utf-8").read()], "README's example in C is examples/first.c")

answers = re.findall(r"^\| ([1-9]) \| (.*) \|$", readme, re.M)
header = re.findall(r"^    SDSL_[A-Z_]+ = ([1-9]),? */\* (.*) \*/$", open("include/sdsl.h", encoding="utf-8").read(), re.M)
say(len(answers) == 8 and answers == header[:8], "README's answers are the header's")

# The map of crates has every crate of crates.txt, under its heading.
heading, wanted = None, {}
for line in open("crates.txt", encoding="utf-8"):
    if line.startswith("# "):
        heading = line[2:].strip()
    elif ":" in line:
        wanted[line.split(":")[0].split()[0]] = heading
named = {}
for group, crates in re.findall(r"^\|([^|]*)\| ([a-z_, ]+) \|[^|]*\|$", readme.split("## The crates")[-1].split("\n## ")[0], re.M):
    heading = group.strip() or heading
    named |= {crate: heading for crate in crates.split(", ")}
say(named == wanted, "README's map has the crates of crates.txt under the same headings")
for crate in sorted(wanted.keys() | named.keys()):
    if wanted.get(crate) != named.get(crate):
        print(f"  {crate}: {wanted.get(crate)} in crates.txt, {named.get(crate)} in README")

links = re.findall(r"\]\(([^)#:]+)(?:#[^)]*)?\)", readme)
missing = sorted({link for link in links if not os.path.exists(link)})
say(len(links) >= 10 and not missing, f"every link of README leads to a file{': not ' if missing else ''}{', '.join(missing)}")
sys.exit(failures != 0)
