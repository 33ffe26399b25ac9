#!/usr/bin/env python3
"""Spells the repository's own names as its library does: words in snake case. Run once, at the top, right after the older files were turned.

usage: tools/snake_names.py [--check]

A name with a dash that the repository declares gets underscores, in specs/, in proofs/ and in clauses. Names that a file imports from the
kit keep their spelling. A name that would then meet another gets the name in RENAMED. The map of names is printed, a line for each.
"""

import os
import re
import subprocess
import sys

# names that would fall together with a field, a parameter or another name of the same file
RENAMED = {
    # fields of the answers of transform, convert and tag_pass have the plain spelling
    "templates-bytes": "bytes_of_templates",
    "page-bytes": "bytes_of_page",
    "tag-bytes": "bytes_of_tag",
    # the kit's own word for an enum's variant
    "tag-of": "tag_of_front",
}

WORD = re.compile(r"[^\s(){};,.\"«»@`]+")
DASHED = re.compile(r"[A-Za-z][\w'₀-₉⁺]*(?:-[\w'₀-₉⁺ℕℤ]+)+\Z")
USE = re.compile(r"\buse\s+((?:[^\s.{};]+\.)+)\{([^}]*)\}")
KIT = ("native", "lib", "mathlib", "borrow", "Prim", "types", "denote", "seplogic", "Rattle.std", "Rattle.core", "Rattle.bytes", "Rattle.check", "Rattle.io", "Rattle.libc")
CLAUSE = re.compile(r"\b(?:requires|ensures|ghost)\*?(?: \w+)? \{")


def antt_files():
    out = subprocess.run(["git", "ls-files", "crates"], capture_output=True, text=True, check=True).stdout.split("\n")
    return [f for f in out if f.endswith((".antt", ".rt"))]


def is_kit(path):
    return any(path == k or path.startswith(k + ".") for k in KIT)


def imported_from_kit(text):
    found = set()
    for path, items in USE.findall(text):
        if is_kit(path.rstrip(".")):
            found |= {w.strip().split(" as ")[0] for w in items.split(",")}
    return found


def is_function_proof(path):
    return bool(re.search(r"/proofs/(.*/)?(Proof|Answers|Invariants)(/.*)?\.antt$", path))


def spelled(name):
    return RENAMED.get(name, name.replace("-", "_"))


def without_comments(text):
    return re.sub(r'--[^\n]*|"(?:\\.|[^"\\\n])*"', "", text)


def clause_spans(text):
    """The spans of a .rt file that antt reads: its `ghost use` items, clauses, ghost members."""
    spans = [m.span() for m in re.finditer(r"(?m)^ *(?:pub )?ghost use [^;]*;", text)]
    for m in CLAUSE.finditer(text):
        depth, i = 1, m.end()
        while i < len(text) and depth:
            depth += {"{": 1, "}": -1}.get(text[i], 0)
            i += 1
        spans.append((m.end(), i))
    return spans


def turned(text, names):
    """The text with each name in `names` respelled, in comments only where it stands in backquotes."""
    out = []
    for line in text.split("\n"):
        code, mark, comment = line.partition("--") if "--" in line else (line, "", "")
        if mark and '"' in code and code.count('"') % 2:
            code, mark, comment = line, "", ""
        one = lambda m: spelled(m[0]) if m[0] in names else m[0]
        # a text in quotes is no name
        code = "".join(part if k % 2 else WORD.sub(one, part) for k, part in enumerate(re.split(r'("(?:\\.|[^"\\])*")', code)))
        out.append(code + mark + re.sub(r"`[^`]*`", lambda m: WORD.sub(one, m[0]), comment))
    return "\n".join(out)


def main():
    check = "--check" in sys.argv[1:]
    files = antt_files()
    texts = {f: open(f, encoding="utf-8").read() for f in files}
    own = set()
    for f, t in texts.items():
        if is_function_proof(f):
            continue
        kit = imported_from_kit(t)
        parts = [t[a:b] for a, b in clause_spans(t)] if f.endswith(".rt") else [without_comments(t)]
        for p in parts:
            own |= {w for w in WORD.findall(re.sub(r'"(?:\\.|[^"\\\n])*"', "", p)) if DASHED.match(w) and w not in kit}
    for f, t in texts.items():
        if is_function_proof(f):
            kit = imported_from_kit(t)
            own |= {w for w in re.findall(r"(?m)^(?:abbrev |unfoldable |pub )*([^\s:]+) :(?! (?:tie|goal)\.)", t) if DASHED.match(w) and w not in kit}
    for f, t in sorted(texts.items()):
        names = own - imported_from_kit(t)
        if f.endswith(".rt"):
            new, at = [], 0
            for a, b in sorted(clause_spans(t)):
                if a < at:
                    continue
                new += [t[at:a], turned(t[a:b], names)]
                at = b
            new = "".join(new) + t[at:]
            # comments name them in backquotes
            new = re.sub(r"(?m)//.*$", lambda m: re.sub(r"`[^`]*`", lambda q: WORD.sub(lambda w: spelled(w[0]) if w[0] in names else w[0], q[0]), m[0]), new)
        else:
            new = turned(t, names)
        if new != t:
            had = {w for w in WORD.findall(without_comments(t)) if "_" in w}
            for w in sorted({w for w in WORD.findall(without_comments(t)) if w in names}):
                if spelled(w) in had and not is_function_proof(f) and f.endswith(".antt"):
                    print(f"look: {f}: {w} meets {spelled(w)}")
            if not check:
                with open(f, "w", encoding="utf-8") as it:
                    it.write(new)
    for w in sorted(own):
        print(f"{w}\t{spelled(w)}")
    return 0


if __name__ == "__main__":
    sys.exit(main())
