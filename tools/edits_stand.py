#!/usr/bin/env python3
"""Lists the must-fail edits that cannot be applied: an 'old:' text that does not stand exactly once in its file as the pairs before it left it.

usage: python3 tools/edits_stand.py [CRATE..]    at the top of the repository; the status is 1 where there is one
"""
import difflib
import pathlib
import sys


def gone(edit):
    """What of the edit does not stand: the file, the text, how often it stands, and the line of the file that is most like it."""
    crate, texts, path, old, found = edit.parent.parent, {}, "", None, []
    for line in edit.read_text().split("\n"):
        if line.startswith("file: "):
            path = line[6:].strip()
            if path not in texts:
                texts[path] = (crate / path).read_text() if (crate / path).is_file() else ""
        elif line.startswith("old: "):
            old = line[5:]
        elif line.startswith("new:"):
            times = texts[path].count(old)
            if times == 1:
                texts[path] = texts[path].replace(old, line[4:].removeprefix(" "))
            else:
                like = difflib.get_close_matches(old, texts[path].split("\n"), 1, 0.3)
                found.append((path, old, times, like[0] if like else ""))
    return found


def main():
    edits = sorted(e for e in pathlib.Path("crates").glob("*/must-fail/*.edit") if not sys.argv[1:] or e.parts[1] in sys.argv[1:])
    bad = 0
    for edit in edits:
        for path, old, times, like in gone(edit):
            bad += 1
            print(f"{edit}: {path} has it {times} times\n  old:  {old}\n  like: {like}")
    print(f"{len(edits)} edits, {bad} texts that do not stand once")
    sys.exit(bool(bad))


if __name__ == "__main__":
    main()
