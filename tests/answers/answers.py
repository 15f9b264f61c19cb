# Compares every place that names an answer with the one table, crates/answer/specs/Table.antt.
import re


def read(path):
    with open(path, encoding="utf-8") as file:
        return file.read()


def say(good, what):
    print(("pass: " if good else "FAIL: ") + what)


def same(found, what):
    if found != table:
        for number in sorted(set(found) | set(table)):
            if found.get(number) != table.get(number):
                print(f"  {number}: {found.get(number)!r}, in the table {table.get(number)!r}")
    say(found == table, what)


table = {int(n): text for n, text in re.findall(r'means (\d+) "([^"]*)"', read("crates/answer/specs/Table.antt"))}
say(sorted(table) == [0, 1, 2, 3, 4, 5, 6, 7, 9, 10, 11, 12], "the table of answers, 0 to 7 and 9 to 12; 8 is not used")

header = read("include/sdsl.h")
enum = re.search(r"enum sdsl_answer \{(.*?)\};", header, re.S).group(1)
names = {name: int(n) for name, n in re.findall(r"(SDSL_\w+) = (\d+)", enum)}
say("/* 8 is not used; it was: a reserved bit is not zero */" in enum, "the header says that 8 is not used")
same({int(n): text for n, text in re.findall(r"= (\d+),?\s*/\* (.*?) \*/", enum)}, "the header's enum")
body = header[header.index("sdsl_answer_text(uint32_t answer)\n{"):]
body = body[:body.index("default:")]
same({names[name]: text for name, text in re.findall(r'case (\w+):\s*return "([^"]*)";', body)}, "sdsl_answer_text")

rows = re.search(r"\| Answer \| Meaning \|\n\|---\|---\|\n((?:\|.*\n)+)", read("README.md")).group(1)
readme = {int(n): text for n, text in re.findall(r"^\| (\d+) \| (.*?) \|$", rows, re.M)}
same({0: table[0], **readme}, "README's table")

source = read("crates/answer/src/lib.rt")
numbers = [int(a or b) for a, b in re.findall(r"pub const DONE: u32 = (\d+);|Refused::\w+ => (\d+),", source)]
say(numbers == sorted(table), "the named numbers of crate answer")
