"""What stands in the tree, for the tools that hold documents to it: crates, functions with their contracts, declared names, edits.

The sources are read line by line, as `rt fmt` lays them out: an item of a .rt file begins in the first column and ends with a brace or a
semicolon there, a method four columns further on; a declaration of a .antt file is a line `NAMES : TYPE`, behind any of the words pub,
abbrev and unfoldable. A method is called TYPE::NAME, or TRAIT::NAME where a trait says what it does; what a type has of a trait is no
function of its own, but code that others reach.
"""
import os
import re
from collections import defaultdict
from dataclasses import dataclass, field

ITEM = re.compile(r'^(pub )?(?:pub\(crate\) )?(?:extern "C" )?(fn|const|enum|struct|mod|type) (\w+)')
BLOCK = re.compile(r"^(?:pub )?(?:trait|impl(?:<[^>]*>)?) (?:([\w:]+)(?:<[^>]*>)? for )?(\w+)")
METHOD = re.compile(r"^    (pub )?(?:pub\(crate\) )?fn (\w+)")
# where the code of a function begins, behind its signature
CODE = re.compile(r"^ *\{$", re.M)
DECLARED = re.compile(r"^\s*(?:(?:pub|abbrev|unfoldable)\s+)*((?:[^\s:(){}=λ]+\s+)+):(?:\s|$)")
TYPE = re.compile(r"^\s*(?:(?:pub|abbrev|unfoldable)\s+)*(?:record|data)\s+([^\s{]+)")
RUST = re.compile(r"\b(?:fn|const|static|enum|struct|mod|trait|type)\s+(\w+)")
# a variable of the environment
VARIABLE = re.compile(r'"([A-Z]+(?:_[A-Z]+)+)"')
WORD = re.compile(r"[^\s(){}\[\],;⌜⌝]+")
# what a reference points to, now or at a call's begin and end
POINTED = {"now", "old", "new", "entry", "exit"}


@dataclass
class Item:
    """A function, constant or type of a .rt file."""

    crate: str
    path: str
    kind: str
    name: str
    public: bool
    first: int
    last: int = 0
    text: str = ""
    # of a method the trait that says what it does
    trait: str = ""

    def bare(self):
        """As calls have it."""
        return self.name.split("::")[-1]

    def contract(self):
        """The words of a function's ensures; none where it has no such clause. Its parameters and `result` are left out; of what is read
        of them, as `result.text`, the field is there, as `.text`."""
        head = CODE.split(self.text, maxsplit=1)[0]
        if head == self.text and not head.endswith(";") or "ensures" not in head:
            return []
        # a clause may have a name
        signature, clause = re.sub(r"\bensures \w+ \{", "ensures {", head).split("ensures", 1)
        given = {"result", *re.findall(r"(\w+):", signature)}
        words = []
        for word in WORD.findall(clause):
            first, *fields = word.split(".")
            words += ["." + f for f in fields if f not in POINTED] if first in given else [word]
        return words


@dataclass
class Edit:
    """A must-fail edit: the file that it changes and the lines of its `old:` texts there; `wrong` says why rt would not take it."""

    crate: str
    name: str
    path: str
    changes: str = ""
    lines: list = field(default_factory=list)
    wrong: str = ""


class Tree:
    def __init__(self, root):
        self.root = root
        self.depends = self._crates()
        self.items = {crate: [] for crate in self.depends}
        self.edits = {crate: [] for crate in self.depends}
        # name -> the files that declare it
        self.declared = defaultdict(set)
        self.files = set()
        self._changed, self._sources = {}, {}
        self._walk()

    def read(self, path):
        with open(os.path.join(self.root, path), encoding="utf-8") as f:
            return f.read()

    def _crates(self):
        depends = {}
        for line in self.read("crates.txt").splitlines():
            if line.strip() and not line.startswith("#"):
                # NAME or NAME staticlib
                name, below = line.split(":")
                depends[name.split()[0]] = below.split()
        return depends

    def _walk(self):
        for folder, folders, files in os.walk(self.root):
            made = ["out"] if os.path.dirname(os.path.relpath(folder, self.root)) == "crates" else []
            folders[:] = sorted(f for f in folders if f not in ("target", ".git", "node_modules", "__pycache__", *made))
            for name in sorted(files):
                path = os.path.relpath(os.path.join(folder, name), self.root)
                self.files.add(path)
                parts = path.split(os.sep)
                crate = parts[1] if parts[0] == "crates" and len(parts) > 2 else None
                if crate is not None and crate not in self.depends:
                    continue
                if name.endswith(".rt"):
                    self._rattle(crate, path)
                elif name.endswith(".antt"):
                    self._antt(path)
                elif name.endswith(".rs"):
                    text = self.read(path)
                    for word in RUST.findall(text) + VARIABLE.findall(text):
                        self.declared[word].add(path)
                elif name == "Cargo.toml":
                    # the package and its programs
                    for word in re.findall(r'^name = "([^"]+)"', self.read(path), flags=re.M):
                        self.declared[word].add(path)
                elif name.endswith(".edit"):
                    self._edit(crate, path, name[: -len(".edit")])

    def _rattle(self, crate, path):
        lines = self.read(path).splitlines()
        at = 0
        while at < len(lines):
            found = ITEM.match(lines[at])
            if BLOCK.match(lines[at]):
                at = self._methods(crate, path, lines, at)
                continue
            if not found:
                at += 1
                continue
            item = Item(crate, path, found[2], found[3], bool(found[1]), at + 1)
            end = at
            if item.kind in ("const", "type", "mod"):
                while not lines[end].endswith(";"):
                    end += 1
            elif not lines[end].endswith(";"):
                while lines[end] != "}":
                    end += 1
            item.last = end + 1
            item.text = "\n".join(lines[at : end + 1])
            self.declared[item.name].add(path)
            if item.kind in ("enum", "struct"):
                for word in re.findall(r"^    (?:pub )?(\w+)", item.text, flags=re.M):
                    self.declared[word].add(path)
            if item.kind != "mod":
                self.items[crate].append(item)
            at = end + 1

    def _methods(self, crate, path, lines, at):
        """Those of a block that begins at a line; answers the line behind the block."""
        of_trait, name = BLOCK.match(lines[at]).groups()
        self.declared[name].add(path)
        while lines[at] != "}":
            found = METHOD.match(lines[at])
            if found:
                first, has_code = at, lines[at].endswith("{")
                while lines[at] != "    }" and (has_code or not lines[at].endswith(";")):
                    at += 1
                    has_code = has_code or lines[at].endswith("{")
                kind = "method" if of_trait else "fn"
                item = Item(crate, path, kind, "%s::%s" % (name, found[2]), bool(found[1]), first + 1, at + 1)
                item.text = "\n".join(lines[first : at + 1])
                item.trait = of_trait or ""
                self.declared[found[2]].add(path)
                self.items[crate].append(item)
            at += 1
        return at + 1

    def _antt(self, path):
        for line in self.read(path).splitlines():
            for name in declared_in(line):
                self.declared[name].add(path)

    def _edit(self, crate, path, name):
        edit = Edit(crate, name, path)
        self.edits[crate].append(edit)
        self.declared[name].add(path)
        text, old = None, None
        for line in self.read(path).splitlines():
            key, _, value = line.partition(": ")
            if key == "file":
                edit.changes = os.path.join("crates", crate, value)
                if edit.changes not in self.files and not os.path.exists(os.path.join(self.root, edit.changes)):
                    edit.wrong = "no file " + value
                    return
                text = self.read(edit.changes)
            elif key == "old":
                old = value
            elif key == "new":
                if text is None or old is None:
                    edit.wrong = "a new: without its file: and old:"
                    return
                if text.count(old) != 1:
                    edit.wrong = "its old: stands %d times in %s" % (text.count(old), edit.changes)
                    return
                # a pair that changes white space only makes room for the next one: it is no change
                if old.split() != value.split():
                    edit.lines.append(text[: text.index(old)].count("\n") + 1)
                text = text.replace(old, value)
        if not edit.lines:
            edit.wrong = "it changes nothing"

    def functions(self, crate):
        return [i for i in self.items[crate] if i.kind == "fn"]

    def definitions(self, function):
        """The names in a function's contract that its file takes from a crate's specs/, in order: by name (`ghost use … .{a, b}`),
        through a module that has another name there (`ghost use … as M`, `M.a`), or as a field of a record (`.a`)."""
        text = self.read(function.path)
        taken, modules = set(), set()
        for crate, names in re.findall(r"^ghost use Rattle\.(\w+)\.specs\.[^;{]*\{([^}]*)\};", text, flags=re.M):
            if crate in self.depends:
                taken |= {n.strip() for n in names.split(",")}
        for crate, name in re.findall(r"^ghost use Rattle\.(\w+)\.specs\.[^;{]* as (\w+);", text, flags=re.M):
            if crate in self.depends:
                modules.add(name)
        found = []
        for word in function.contract():
            module, dot, name = word.rpartition(".")
            if word in taken:
                found.append(word)
            elif dot and name and (module in modules or (not module and self.specified(name))):
                found.append(name)
        return list(dict.fromkeys(found))

    def specified(self, name):
        """Whether a crate's specs/ declare the name."""
        return any("/specs/" in path for path in self.declared.get(name, ()))

    def used_outside(self, function):
        """Whether another crate's code names the function, by its path or in the braces behind one; of a method, whether it calls one of
        that name."""
        path = re.compile(r"\b%s::(?:\w+::)*(?:\{[^;]*\b)?%s\b" % (function.crate, function.name))
        if function.name != function.bare():
            path = re.compile(r"(?:\.|::)%s\(" % function.bare()) if function.public else re.compile(r"$.")
        return any(path.search(self._source(crate)) for crate in self.depends if crate != function.crate)

    def _source(self, crate):
        if crate not in self._sources:
            paths = [p for p in self.files if p.startswith("crates/%s/src/" % crate)]
            self._sources[crate] = "\n".join(self.read(p) for p in paths)
        return self._sources[crate]

    def changed(self, edit):
        """The items of the code, or the names of the definitions, that an edit changes."""
        if edit.path not in self._changed:
            self._changed[edit.path] = self._changes(edit)
        return self._changed[edit.path]

    def _changes(self, edit):
        if edit.changes.endswith(".rt"):
            return [i for i in self.items[edit.crate] if i.path == edit.changes and any(i.first <= n <= i.last for n in edit.lines)]
        lines = self.read(edit.changes).splitlines()
        names = []
        for n in edit.lines:
            while n > 0 and not declared_in(lines[n - 1]):
                n -= 1
            names += [name for name in (declared_in(lines[n - 1])[:1] if n else []) if name not in names]
        return names

    def uses(self, item):
        """The other items that an item's code names: functions and methods of its crate by a call, its public items, and all of its own
        file. An iterator's `next` is named by its type, since a loop has no call of it; a method of a type of the language, as u32::from, by
        no call with another of these in front."""
        code = re.split(r"\{$" if item.kind == "method" else r"^ *\{$", item.text, maxsplit=1, flags=re.M)[-1]
        calls, words = set(re.findall(r"((?:\b[a-z]\w*::)?\w+)(?:::<[^()]*>)?\(", code)), set(re.findall(r"\w+", code))
        seen = [i for i in self.items[item.crate] if i.path == item.path or i.public or i.kind in ("fn", "method")]
        named = [i for i in seen if i is not item and is_named(i, calls, words)]
        # of methods that are called alike those of the item's own file are meant
        own = {i.bare() for i in named if i.path == item.path and i.name != i.bare()}
        return [i for i in named if i.path == item.path or i.name == i.bare() or i.bare() not in own]


def is_named(item, calls, words):
    """Whether code names an item, by its calls, each with a word in small letters in front where one stands there, and by its words."""
    if item.kind not in ("fn", "method"):
        return item.name in words
    if item.trait == "Iterator" and item.bare() == "next":
        return item.name.split("::")[0] in words
    if item.kind == "method" and item.name[0].islower():
        return bool({item.name, item.bare()} & calls)
    return any(call.split("::")[-1] == item.bare() for call in calls)


def declared_in(line):
    """The names that a line of a .antt file declares."""
    if line.lstrip().startswith("--"):
        return []
    found = TYPE.match(line)
    if found:
        return [found[1]]
    found = DECLARED.match(line)
    return found[1].split() if found else []
