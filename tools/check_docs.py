#!/usr/bin/env python3
"""Holds the documents to the tree, and says what it compared:

    tools/check_docs.py              fails with file, line and reason for each thing that is not so
    tools/check_docs.py --self-test  plants each kind of mistake in a copy of the tree and fails if one is not found

What is looked for, in README.md, CONTRIBUTING.md, docs/PROMISES.md and docs/DECISIONS.md (not in blocks of code):
1. Names. A word in backquotes that could be a name (letters, digits, _ and -) is declared somewhere: as a function, constant, type,
   field or variant of crates/*/src, in a .antt file, as a crate or an edit, as an item of the judge or the host, or as a program there.
   WORDS has those that are words of pages, of Rust or of commands. The column "Rules out" is wrong answers and is passed over.
2. Places. Names right before a bracket that opens with a crate, as in `a`, `b` (spec, Answer.antt) or `a` (crates/spec), are declared in
   that crate, and in that file where one is given. Of `a` of `b`, or `a`: `b`, this is so of the first; the others may be of a crate below.
3. Files. A path that begins with a folder of the repository exists; a bare .antt, .rt, .rs, .py, .md or .sh name is some file's.
4. Functions. In a crate's section of "The contracts" a row's functions are that crate's, none has two rows, every `pub fn` of a library has
   one, a method as TYPE::NAME. The names in "Definition" are of the crate or of one below; where there are any, one is in the contract of a
   function of the row.
   "The last N are used within the crate only" is so of the last N functions of the table, and not of the one before them.
5. Edits. Each `old:` stands once in its file; each edit is named in its crate's section; where a table says what refuses it, the definition
   beside it is the one that it changes.
6. What tools/promises.py makes is as it would make it.
7. The table of crates in README.md has those of crates.txt, in that order.
"""
import os
import re
import shutil
import sys
import tempfile

import promises
from tree import Tree

DOCUMENTS = ["README.md", "CONTRIBUTING.md", "docs/PROMISES.md", "docs/DECISIONS.md"]
# words in backquotes that are no name of the tree
WORDS = set(
    # of pages: attributes, elements, a source, values
    "DISABLED bR br class className dangerouslySetInnerHTML data-x h1 hidden href key param react ref true false xlink "
    # of Rust, of Rattle and of document 000
    "JsxPrecompile ensures requires peekable refl "
    # of commands
    "rt cargo clippy rustfmt".split()
)
NAME = re.compile(r"[A-Za-z_][\w'-]*$")
PLACED = re.compile(r"((?:`[^`\n]+`(?:, | and | or | to | of |: )?)+) \(([^()]*)\)")
FOLDERS = ("crates", "docs", "examples", "host", "node", "oracle", "tools", ".ci")
PATH = re.compile(r"(?<![\w./-])((?:%s)/[\w.*/+-]*)" % "|".join(re.escape(f) for f in FOLDERS))
BARE = re.compile(r"(?<![\w./*-])([A-Za-z_]\w*\.(?:antt|rt|rs|py|md|sh))\b")
UNITS = "one two three four five six seven eight nine".split()
TEENS = "ten eleven twelve thirteen fourteen fifteen sixteen seventeen eighteen nineteen".split()
TENS = "twenty thirty forty fifty sixty seventy eighty ninety".split()
# the words for 1 to 99, in order
NUMBERS = UNITS + TEENS + [ten + rest for ten in TENS for rest in [""] + ["-" + unit for unit in UNITS]]


class Check:
    def __init__(self, root):
        self.tree = Tree(root)
        self.wrong = []
        self.counts = {}

    def count(self, what, n=1):
        self.counts[what] = self.counts.get(what, 0) + n

    def say(self, path, line, reason):
        self.wrong.append("%s:%d: %s" % (path, line, reason))

    def run(self):
        for path in DOCUMENTS:
            if path in self.tree.files:
                lines = without_code(self.tree.read(path))
                self.names(path, lines)
                self.places(path, lines)
                self.paths(path, lines)
            else:
                self.say(path, 1, "no such document")
        self.contracts()
        self.generated()
        self.crates()
        return self

    def is_name(self, word):
        return word in self.tree.declared or word in self.tree.depends or word in WORDS

    def names(self, path, lines):
        for n, line in enumerate(lines, 1):
            cells = line.split(" | ")
            # a row of functions: its third column is wrong answers
            if path == promises.DOCUMENT and len(cells) == 4:
                line = " | ".join(cells[:2] + cells[3:])
            for word in promises.quoted(line):
                if NAME.match(word):
                    self.count("names")
                    if not self.is_name(word):
                        self.say(path, n, "`%s` is declared nowhere" % word)

    def places(self, path, lines):
        for n, line in enumerate(lines, 1):
            for names, place in PLACED.findall(line):
                crate, file = self.place(place)
                if crate is None:
                    continue
                chained = set(re.findall(r"`(?: of |: )`([^`]+)(?=`)", names))
                for name in promises.quoted(names):
                    if not NAME.match(name) or name in WORDS:
                        continue
                    self.count("names with a place")
                    allowed = [(crate, file)] + [(c, "") for c in [crate] + self.tree.depends[crate] if name in chained]
                    if not any(is_in(p, *place) for p in self.tree.declared.get(name, ()) for place in allowed):
                        self.say(path, n, "`%s` is not declared in %s" % (name, "crate " + crate + (", " + file if file else "")))

    def place(self, text):
        """The crate and the file of a bracket that opens with a crate: `spec, Answer.antt`, `crates/spec`, `page, specs/Jsx.antt; …`."""
        first, _, rest = text.partition(";")[0].partition(", ")
        if first.startswith("crates/"):
            parts = first.split("/")
            crate, file = parts[1], "/".join(parts[2:])
        else:
            crate, file = first, rest if re.fullmatch(r"(?:\w+/)*\w+\.(?:antt|rt)", rest) else ""
        return (crate, file) if crate in self.tree.depends else (None, "")

    def paths(self, path, lines):
        bare = {os.path.basename(f) for f in self.tree.files}
        for n, line in enumerate(lines, 1):
            for found in PATH.findall(line):
                found = found.rstrip(".")
                # CRATE, FILE and FUNCTION stand for any
                if re.search(r"[*]|\b(?:CRATE|NAME|FILE|FUNCTION)\b", found):
                    continue
                self.count("paths")
                if not os.path.exists(os.path.join(self.tree.root, found)):
                    self.say(path, n, "no file %s" % found)
            for found in BARE.findall(line):
                self.count("paths")
                # document 000 is compiled from beside the repository
                if found not in bare and found != "jsx_precompile.rs":
                    self.say(path, n, "no file is called %s" % found)

    def contracts(self):
        tree, path = self.tree, promises.DOCUMENT
        lines = tree.read(path).splitlines()
        found = {s.crate: s for s in promises.sections(lines)}
        for crate in tree.depends:
            if crate not in found:
                self.say(path, lines.index(promises.CONTRACTS) + 1, "no section on crate %s" % crate)
        for crate, section in found.items():
            if crate not in tree.depends:
                self.say(path, section.first, "there is no crate %s" % crate)
                continue
            self.functions(section)
            self.used_within(section, lines)
            self.edits(section, lines)

    def functions(self, section):
        tree, path, crate = self.tree, promises.DOCUMENT, section.crate
        functions = {f.name: f for f in tree.functions(crate)}
        below = [crate] + tree.depends[crate]
        rows = {}
        for at, cells in section.functions.items():
            if len(cells) != 4:
                self.say(path, at + 1, "a row of functions has four columns")
                continue
            known = []
            for name in promises.quoted(cells[0]):
                self.count("functions with a row")
                if name not in functions:
                    self.say(path, at + 1, "`%s` is no function of %s" % (name, crate))
                elif name in rows:
                    self.say(path, at + 1, "`%s` has a row already, on line %d" % (name, rows[name]))
                else:
                    known.append(functions[name])
                rows[name] = at + 1
            if any("?" == cell for cell in cells):
                self.say(path, at + 1, "a column is still to be written")
            named = [w for w in promises.quoted(cells[1]) if NAME.match(w) and tree.specified(w)]
            for word in named:
                self.count("definitions of rows")
                if not any("crates/%s/" % c in p for c in below for p in tree.declared[word]):
                    self.say(path, at + 1, "`%s` is not of %s, nor of a crate below it" % (word, crate))
            contracts = {d for f in known for d in tree.definitions(f)}
            if named and known and not contracts & set(named):
                self.say(path, at + 1, "no contract of %s names %s" % (cells[0], ", ".join(named)))
        for f in functions.values():
            self.count("functions")
            if f.public and f.name not in rows and "crates/%s/src/lib.rt" % crate in tree.files:
                self.say(f.path, f.first, "`%s` has no row in %s" % (f.name, path))

    def used_within(self, section, lines):
        """The sentence on the last functions of a table."""
        tree, path = self.tree, promises.DOCUMENT
        for at in range(section.first, section.last):
            said = re.search(r"The last ([\w-]+) are used within the crate only", lines[at])
            if not said:
                continue
            self.count("sentences on use")
            functions = {f.name: f for f in tree.functions(section.crate)}
            names = [n for cells in section.functions.values() for n in promises.quoted(cells[0]) if n in functions]
            last = 0
            while last < len(names) and not tree.used_outside(functions[names[-1 - last]]):
                last += 1
            if said[1] not in NUMBERS or NUMBERS.index(said[1]) + 1 != last:
                self.say(path, at + 1, "the last %d are used within the crate only, not %s" % (last, said[1]))

    def edits(self, section, lines):
        tree, path, crate = self.tree, promises.DOCUMENT, section.crate
        text = "\n".join(lines[section.first : section.last])
        by_name = {e.name: e for e in tree.edits[crate]}
        for edit in tree.edits[crate]:
            self.count("edits")
            if edit.wrong:
                self.say(edit.path, 1, edit.wrong)
            if "`%s`" % edit.name not in text:
                self.say(edit.path, 1, "not named in %s, section %s" % (path, crate))
        for at, cells in section.refused.items():
            for name in promises.quoted(cells[0]):
                if name not in by_name:
                    self.say(path, at + 1, "`%s` is no edit of %s" % (name, crate))
                elif not by_name[name].wrong and promises.quoted(cells[1]) != tree.changed(by_name[name]):
                    self.say(path, at + 1, "`%s` changes `%s`" % (name, "`, `".join(tree.changed(by_name[name]))))
        for at, cells in section.functions.items():
            for name in promises.quoted(cells[-1]):
                if name not in by_name and not cells[-1].startswith("those "):
                    self.say(path, at + 1, "`%s` is no edit of %s" % (name, crate))

    def generated(self):
        text = self.tree.read(promises.DOCUMENT)
        new = promises.made(self.tree, text)
        if new != text:
            old, new = text.splitlines(), new.splitlines()
            at = next((i for i, (a, b) in enumerate(zip(old, new)) if a != b), min(len(old), len(new)))
            self.say(promises.DOCUMENT, at + 1, "not as tools/promises.py makes it; run that")


    def crates(self):
        lines = self.tree.read("README.md").splitlines()
        start = lines.index("| Crate | What it holds | What it promises |")
        rows = lines[start + 2 :]
        rows = rows[: next(i for i, line in enumerate(rows) if not line.startswith("|"))]
        named = [promises.quoted(line)[0] for line in rows]
        self.count("crates", len(named))
        for n, (name, crate) in enumerate(zip(named + [None] * len(self.tree.depends), self.tree.depends), start + 3):
            if name != crate:
                self.say("README.md", n, "crates.txt has %s here, not %s" % (crate, name))
                return
        if len(named) > len(self.tree.depends):
            self.say("README.md", start + 3 + len(self.tree.depends), "crates.txt has no crate here")


def is_in(path, crate, file):
    return path.startswith("crates/%s/" % crate) and (not file or path.endswith("/" + file) or ("/" + file + "/") in path)


def left_out(folder, names):
    """What no copy of the tree needs: what was made in it."""
    made = {"target", ".git", "__pycache__", "node_modules"}
    if os.path.basename(os.path.dirname(folder)) == "crates":
        made.add("out")
    return made & set(names)


def without_code(text):
    """The lines of a document, those of its blocks of code empty."""
    lines, inside = [], False
    for line in text.splitlines():
        fence = line.startswith("```")
        lines.append("" if inside or fence else line)
        inside ^= fence
    return lines


# mistakes to plant: a file, what stands there (or a pattern of it), what is put in its place, and what must be found
PLANTED = [
    ("README.md", "`demand3_of_answer`", "`demand4_of_answer`", "`demand4_of_answer` is declared nowhere"),
    ("docs/PROMISES.md", "`outcome` (spec, Answer.antt)", "`outcome` (spec, Marks.antt)", "`outcome` is not declared in crate spec, Marks.antt"),
    ("docs/PROMISES.md", "`outcome` (spec, Answer.antt)", "`outcome` (page)", "`outcome` is not declared in crate page"),
    ("docs/DECISIONS.md", "crates/spec/specs/Pass.antt", "crates/spec/specs/Passes.antt", "no file crates/spec/specs/Passes.antt"),
    ("docs/PROMISES.md", "| `put_two` |", "| `put_too` |", "`put_too` is no function of field"),
    ("docs/PROMISES.md", "| `read_header` | `header_of` |", "| `read_header` | `body_of` |", "no contract of `read_header` names body_of"),
    ("docs/PROMISES.md", "| `read_header` | `header_of` |", "| `read_header` | `outcome` |", "`outcome` is not of field, nor of a crate below it"),
    ("crates/field/src/reader.rt", "pub fn field_at(", "pub fn first_field(", "`first_field` has no row"),
    ("crates/text/src/lines.rt", "pub fn new(", "pub fn over(", "`Lines::over` has no row"),
    ("docs/PROMISES.md", "`body_with_length`, ", "", "not named in docs/PROMISES.md, section field"),
    ("docs/PROMISES.md", "`body_with_length`, ", "`body_behind`, ", "not as tools/promises.py makes it"),
    ("crates/field/src/reader.rt", "Fields(s).next()", "Fields(s).nth(0)", "its old: stands 0 times"),
    ("docs/PROMISES.md", "as_string` | `expr_row` |", "as_string` | `number_in` |", "`literal_written_as_string` changes `expr_row`"),
    ("README.md", "| `utf8` |", "| `text` |", "crates.txt has utf8 here, not text"),
    ("docs/PROMISES.md", r"The last \w+ are used", "The last one are used", "are used within the crate only, not one"),
]


def self_test(root):
    clean = Check(root).run()
    if clean.wrong:
        print("check_docs: the self-test wants documents that are right")
        return report(clean)
    with tempfile.TemporaryDirectory() as folder:
        copy = os.path.join(folder, "copy")
        shutil.copytree(root, copy, ignore=left_out)
        for path, old, new, reason in PLANTED:
            file = os.path.join(copy, path)
            with open(file, encoding="utf-8") as f:
                text = f.read()
            if old not in text:
                pattern = re.search(old, text)
                old = pattern[0] if pattern else None
            if old is None:
                print("check_docs: %s has nothing to plant this mistake in: %s" % (path, reason))
                return 1
            with open(file, "w", encoding="utf-8") as f:
                f.write(text.replace(old, new, 1))
            wrong = Check(copy).run().wrong
            with open(file, "w", encoding="utf-8") as f:
                f.write(text)
            if not any(reason in w for w in wrong):
                print("check_docs: planted in %s, not found: %s" % (path, reason))
                return 1
    print("check_docs: self-test: %d planted mistakes, each found" % len(PLANTED))
    return 0


def report(check):
    for wrong in check.wrong:
        print(wrong)
    print("check_docs: " + ", ".join("%d %s" % (n, what) for what, n in check.counts.items()) + "; %d wrong" % len(check.wrong))
    return int(bool(check.wrong))


def main():
    root = os.path.dirname(os.path.dirname(os.path.abspath(__file__)))
    if sys.argv[1:] == ["--self-test"]:
        return self_test(root)
    if sys.argv[1:]:
        print(__doc__)
        return 2
    return report(Check(root).run())


if __name__ == "__main__":
    sys.exit(main())
