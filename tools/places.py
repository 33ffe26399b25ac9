#!/usr/bin/env python3
"""Lists the places in crates/*/src that the design pass looks at (docs/DESIGN-PASS.md), a line each, and counts them by point.

places.py [POINT]: only the counts, or the places of a point 1 to 8 too. The lists are made by the text alone, so they hold more than must change:
docs/DESIGN-PASS.md says which of them are places, and which stay and why.
"""
import collections
import pathlib
import re
import sys

ROOT = pathlib.Path(__file__).resolve().parent.parent
ORDER = [l.split(":")[0] for l in (ROOT / "crates.txt").read_text().splitlines() if l.strip() and not l.startswith("#")]
ORDER = [l.split()[0] for l in ORDER]


def sources():
    for crate in ORDER:
        for path in sorted((ROOT / "crates" / crate / "src").rglob("*.rt")):
            yield crate, path, path.read_text().splitlines()


Function = collections.namedtuple("Function", "crate file line name head params answer clauses body")


def functions():
    """Each function with its parameters, clauses and body, as text."""
    for crate, path, lines in sources():
        i = 0
        while i < len(lines):
            m = re.match(r"\s*(pub(\([a-z]+\))? )?(extern \"C\" )?(final )?fn (\w+)", lines[i])
            if not m:
                i += 1
                continue
            start = i
            indent = len(lines[i]) - len(lines[i].lstrip())
            while i < len(lines) and lines[i] not in (" " * indent + "{",) and not lines[i].endswith(" {") and not lines[i].endswith(";"):
                i += 1
            head = lines[start : i + 1]
            end = i
            while end < len(lines) and lines[end] != " " * indent + "}":
                end += 1
            text = " ".join(l.strip() for l in head)
            sig = re.split(r" (?:requires|ensures)\b", text)[0]
            inner = re.search(r"\((.*)\)(?: -> (.*))?", sig)
            params = [p.strip() for p in re.split(r",(?![^<(\[]*[>)\]])", inner.group(1)) if p.strip()] if inner else []
            answer = (inner.group(2) or "").rstrip(" {") if inner else ""
            clauses = re.findall(r"(requires|ensures)(?: \w+)? \{(.*)\}", "\n".join(head))
            yield Function(crate, path.relative_to(ROOT), start + 1, m.group(5), sig, params, answer, clauses, lines[i + 1 : end])
            i = end + 1


def grep(pattern):
    for crate, path, lines in sources():
        for k, l in enumerate(lines):
            if re.search(pattern, l):
                yield f"{path.relative_to(ROOT)}:{k + 1}: {l.strip()}"


def point_1():
    yield from grep(r"^    (Nothing|Absent|None|Fine|End|Empty|Stays|Bytes|Refused\(\w+\)),?$")
    yield from grep(r"^(pub )?const [A-Z_]+: (u8|u64|usize) = [0-9]+;")
    yield from grep(r"^    pub read: bool|^    pub (fits|clear|long|wide): bool")
    yield from grep(r"\b(256|0) => (return|Verdict|\{|None|0|false|st|cur|t)\b|== 256\b|!= 256\b")
    for f in functions():
        if f.answer in ("u8", "usize", "u32", "u64") and any(re.match(r"\s*(return )?0;?$|.*=> 0,$|\s*return \d+;", l) for l in f.body):
            yield f"{f.file}:{f.line}: fn {f.name} -> {f.answer}"


def shape(f):
    """The body with numbers, literals and names made alike, in the order in which they come."""
    words, names = [], {}
    for w in re.findall(r"[A-Za-z_]\w*|\d\w*|b?'(?:\\.|[^'])'|b?\"[^\"]*\"|[^\s\w]", " ".join(l.split("//")[0] for l in f.body)):
        if re.match(r"\d|b?'|b?\"", w):
            words.append("#")
        elif re.match(r"[A-Za-z_]", w) and w not in "let mut if else match return loop while for in as true false continue break".split():
            words.append(names.setdefault(w, f"n{len(names)}"))
        else:
            words.append(w)
    return " ".join(words)


def point_2():
    groups = collections.defaultdict(list)
    for f in functions():
        s = shape(f)
        if len(s.split()) >= 9:
            groups[s].append(f)
    for s, fs in sorted(groups.items(), key=lambda g: (-len(g[1]), str(g[1][0].file))):
        if len(fs) > 1:
            yield f"{len(fs)} alike: " + ", ".join(f"{f.crate}::{f.name}" for f in fs)


def point_3():
    yield from grep(r"^\s*('[a-z]+: )?while ")
    for crate, path, lines in sources():
        for k, l in enumerate(lines):
            if re.match(r"\s*loop \{$", l):
                indent = len(l) - len(l.lstrip())
                e = k
                while e < len(lines) and lines[e] != " " * indent + "}":
                    e += 1
                if any(re.search(r"\b\w+ [+-]= ", x) for x in lines[k:e]):
                    yield f"{path.relative_to(ROOT)}:{k + 1}: loop that counts"


def point_4():
    yield from grep(r"as usize\) \* 256|/ 256 % 256|% 256\) as u8|% 65536\) as u16|% 4294967296\) as u32|n \* 256 \+ b")
    yield from grep(r"\bfn (letter|small|same_bytes|letters_are|low|wide|less|either|at_most|at_most_15|graver|number_of|is_entered|print_what|is_digit|is_upper|is_within|is_zero|bit|boolean_in|starts_with_lf)\b")
    yield from grep(r"c \+ 32\b|b'A' <= |97 <= c|65 <= c|48 <= c|b'0' <= ")
    yield from grep(r"Verdict::Refused\(e\) => (return )?Verdict::Refused\(e\)|return Verdict::Refused\(e\);")


def point_5():
    facts = collections.defaultdict(set)
    groups = collections.defaultdict(set)
    for f in functions():
        for kind, c in f.clauses:
            if kind == "requires":
                for fact in re.split(r" × (?![^()]*\))", c):
                    fact = re.sub(r"[()]", "", fact).strip()
                    facts[fact].add(f"{f.crate}::{f.name}")
        names = [p.split(":")[0].replace("mut ", "").strip() for p in f.params]
        for n in range(2, min(len(names), 7) + 1):
            for k in range(len(names) - n + 1):
                groups[tuple(names[k : k + n])].add(f"{f.crate}::{f.name}")
    for fact, fs in sorted(facts.items(), key=lambda x: -len(x[1])):
        if len(fs) >= 3:
            yield f"a fact of {len(fs)}: {fact}"
    for g, fs in sorted(groups.items(), key=lambda x: (-len(x[1]), x[0])):
        longer = any(set(g) < set(h) and len(fs) == len(hs) for h, hs in groups.items())
        if len(fs) >= 3 and not longer:
            yield f"together in {len(fs)}: {', '.join(g)}"


def point_6():
    yield from grep(r"\[(\w+|0u\d+|b'0'); ([A-Z_]+|\d{2,})\]")
    yield from grep(r"\b(height|top|left|room) (\+|-)= ")


def point_7():
    yield from grep(r"\bmatch (kind|from|mode|first|second|m|expect)\b")
    for f in functions():
        if sum(bool(re.match(r"\s*if (st\.)?(mode|kind|tag|expect)\b.* == ", l)) for l in f.body) >= 2:
            yield f"{f.file}:{f.line}: fn {f.name} goes by the value of a mode"


def point_8():
    for crate in ORDER:
        base = ROOT / "crates" / crate / "proofs"
        answers = [p for p in base.rglob("Answers.antt")]
        lines = [l for p in answers for l in p.read_text().splitlines()]
        if answers:
            lets = sum(bool(re.match(r"\s+let ", l)) for l in lines)
            goals = sum(l.startswith("pub ") for l in lines)
            yield f"{crate}: {len(answers)} files, {goals} answers, {len(lines)} lines, {lets} lets"


POINTS = [point_1, point_2, point_3, point_4, point_5, point_6, point_7, point_8]


def main():
    wanted = [int(a) for a in sys.argv[1:]]
    for k, point in enumerate(POINTS, 1):
        if wanted and k not in wanted:
            continue
        found = list(dict.fromkeys(point()))
        if wanted:
            print("\n".join(found))
        print(f"point {k}: {len(found)}")


main()
