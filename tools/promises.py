#!/usr/bin/env python3
"""Writes what of docs/PROMISES.md can be made from the tree, in place:

    tools/promises.py            writes it
    tools/promises.py --check    says what it would write, and fails if that is anything

Under "The contracts" each crate has a section. Made from the tree there are
- the column Edit of a table of functions: the must-fail edits that change a row's function, or an item of its crate without a row of its
  own that the function's code names, directly or through other such items;
- the line "Edits of definitions", where no table with the column "Refused by" has them;
- the line "Besides", with the functions that have no row, each with the definitions that its contract names.
The columns Definition, Rules out and Refused by are written by hand; tools/check_docs.py holds them to the tree where it can.
"""
import os
import re
import sys

from tree import Tree

DOCUMENT = os.path.join("docs", "PROMISES.md")
CONTRACTS = "## The contracts"
FUNCTIONS = "| Function | Definition | Rules out | Edit |"
REFUSED = "| Edit | Definition | Refused by |"
BESIDES = "Besides, each with the definitions in its contract: "
EDITS = "Edits of definitions: "
# in nearly every contract, and saying nothing of one function
COMMON = {"Bytes", "read", "pick", "ascii"}


def quoted(cell):
    return re.findall(r"`([^`]+)`", cell)


class Section:
    """A crate's part of the contracts: lines of the document from `first` up to `last`, and the rows of its tables by line."""

    def __init__(self, crate, first, last, lines):
        self.crate, self.first, self.last = crate, first, last
        self.functions, self.refused = {}, {}
        rows = None
        for at in range(first, last):
            line = lines[at]
            if line in (FUNCTIONS, REFUSED):
                rows = self.functions if line == FUNCTIONS else self.refused
            elif not line.startswith("|"):
                rows = None
            elif rows is not None and not line.startswith("|---"):
                rows[at] = [cell.strip() for cell in line.strip()[1:-1].split(" | ")]

    def named(self):
        """The functions that have a row."""
        return {name for cells in self.functions.values() for name in quoted(cells[0])}


def sections(lines):
    start = lines.index(CONTRACTS)
    heads = [at for at in range(start, len(lines)) if lines[at].startswith("### ")]
    ends = heads[1:] + [len(lines)]
    return [Section(lines[at][4:], at + 1, end, lines) for at, end in zip(heads, ends)]


def edits_of(tree, crate, names, with_row):
    """The edits of a row: see above."""
    todo = [f for f in tree.functions(crate) if f.name in names]
    seen, found = [], set()
    while todo:
        item = todo.pop()
        if any(item is s for s in seen):
            continue
        seen.append(item)
        found |= {e.name for e in tree.edits[crate] if not e.wrong and any(item is i for i in tree.changed(e))}
        todo += [i for i in tree.uses(item) if not (i.kind == "fn" and i.name in with_row)]
    return sorted(found)


def of_definitions(tree, crate):
    return [e for e in tree.edits[crate] if not e.wrong and e.changes.endswith(".antt")]


def made(tree, text):
    """The document as the tree has it."""
    lines = text.splitlines()
    for section in reversed(sections(lines)):
        crate = section.crate
        if crate not in tree.depends:
            continue
        with_row = section.named()
        for at, cells in section.functions.items():
            edits = edits_of(tree, crate, quoted(cells[0]), with_row)
            # the order of a cell that has them all is kept, and so are words in place of none ("those of …")
            if set(quoted(cells[-1])) != set(edits) and (edits or not cells[-1].startswith("those ")):
                cells[-1] = ", ".join("`%s`" % e for e in edits) or "-"
                lines[at] = "| " + " | ".join(cells) + " |"
        tail = []
        besides = [f for f in tree.functions(crate) if f.name not in with_row]
        if besides:
            tail.append(BESIDES + ", ".join(listed(tree, f) for f in besides) + ".")
        edits = of_definitions(tree, crate)
        if edits and not section.refused:
            tail.append(EDITS + ", ".join("`%s` (`%s`)" % (e.name, "`, `".join(tree.changed(e))) for e in edits) + ".")
        replace(lines, section, tail)
    return "\n".join(lines) + "\n"


def listed(tree, function):
    names = [d for d in tree.definitions(function) if d not in COMMON]
    return "`%s`%s" % (function.name, " (%s)" % ", ".join("`%s`" % n for n in names) if names else "")


def replace(lines, section, tail):
    """Puts the made lines behind the table of functions, in place of those that stand in the section."""
    kept = []
    for line in lines[section.first : section.last]:
        if line.startswith((BESIDES, EDITS)):
            # with the empty line before it
            if kept and not kept[-1]:
                kept.pop()
        else:
            kept.append(line)
    if section.functions:
        before = len([line for line in lines[section.first : max(section.functions) + 1] if not line.startswith((BESIDES, EDITS))])
    else:
        before = len(kept)
        while before and not kept[before - 1]:
            before -= 1
    put = [line for made_line in tail for line in ("", made_line)]
    lines[section.first : section.last] = kept[:before] + put + kept[before:]


def main():
    root = os.path.dirname(os.path.dirname(os.path.abspath(__file__)))
    tree = Tree(root)
    text = tree.read(DOCUMENT)
    new = made(tree, text)
    if sys.argv[1:] == ["--check"]:
        old_lines = set(text.splitlines())
        differing = [line for line in new.splitlines() if line not in old_lines]
        for line in differing:
            print("tools/promises.py would write: " + line)
        return int(text != new)
    if sys.argv[1:]:
        print(__doc__)
        return 2
    with open(os.path.join(root, DOCUMENT), "w", encoding="utf-8") as f:
        f.write(new)
    return 0


if __name__ == "__main__":
    sys.exit(main())
