"""The answers that include/sdsl.h lists for each function, as a table for fuzz.c: {"sdsl_start", 0x15} for 'Answers 0, 2 (end), 4 (..)'."""
import re
import sys

text = open(sys.argv[1]).read()
declared = re.findall(r"^(?:struct \w+|uint32_t) (sdsl_\w+)\(", text, re.M)
commented = re.findall(r"/\*((?:(?!\*/).)*)\*/\n(?:struct \w+|uint32_t) (sdsl_\w+)\(", text, re.S)
if [name for _, name in commented] != declared:
    sys.exit("a function of the header has no comment before it")
print("static const struct {\n    const char *name;\n    unsigned answers;\n} fuzz_functions[] = {")
for comment, name in commented:
    listed = re.findall(r"^ \* Answers (.*?)\.(?: |$)", comment, re.S | re.M)
    if len(listed) != 1:
        sys.exit(f"{name}: {len(listed)} lists of answers in its comment")
    numbers = [int(n) for n in re.sub(r"\([^)]*\)|, in this order\b.*", "", listed[0], flags=re.S).split(",")]
    print(f'    {{"{name}", {sum(1 << n for n in numbers):#x}}},')
print("};")
