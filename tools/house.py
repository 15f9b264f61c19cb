"""Draws crates.txt: prints the graph in the dot language, a colour for each of its headings. An arrow goes from a crate to one that it names;
where another arrow's way leads there too, none is drawn. Crates of the toolchain are left out.

    python3 tools/house.py crates.txt | dot -Tsvg > docs/house.svg
"""
import sys

COLOURS = ["#e8dcc8", "#f6c9a8", "#f4b8b0", "#f3e39a", "#c5e1a5", "#a9d8d8", "#d9c4ec", "#cfd8dc", "#aecbf5", "#e6d0a0"]


def read(path):
    """The headings in order, each with its crates; and for each crate those that it names."""
    groups, uses = [], {}
    for number, line in enumerate(open(path)):
        if line.startswith("# ") and number > 0:
            groups.append((line[2:].strip(), []))
        elif ":" in line and not line.startswith("#"):
            name, named = line.split(":")
            name = name.split()[0]  # without staticlib
            groups[-1][1].append(name)
            uses[name] = named.split()
    return groups, {name: [used for used in named if used in uses] for name, named in uses.items()}


def below(name, uses):
    """All that a crate uses, at any depth."""
    found = set()
    for used in uses[name]:
        found |= {used} | below(used, uses)
    return found


def arrows(uses):
    for name, named in uses.items():
        farther = set().union(*(below(used, uses) for used in named))
        for used in named:
            if used not in farther:
                yield name, used


def main():
    groups, uses = read(sys.argv[1])
    assert len(groups) <= len(COLOURS)
    print('digraph house {\n  graph [fontname="DejaVu Sans", fontsize=12, ranksep=0.35, nodesep=0.15, bgcolor=white];')
    print('  node [shape=box, style="filled,rounded", fontname="DejaVu Sans", fontsize=13, height=0.32, margin="0.1,0.03", color="#555555"];')
    print('  edge [arrowsize=0.5, color="#777777"];')
    for (heading, crates), colour in zip(groups, COLOURS):
        print(f'  // {heading}')
        for name in crates:
            print(f'  {name} [fillcolor="{colour}"];')
    for name, used in arrows(uses):
        print(f'  {name} -> {used};')
    key = "".join(f'<td bgcolor="{colour}">{heading}</td>' for (heading, _), colour in zip(groups, COLOURS))
    print(f'  label=<<table border="0" cellborder="0" cellspacing="6" cellpadding="4"><tr>{key}</tr></table>>;')
    print('}')


main()
