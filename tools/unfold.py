#!/usr/bin/env python3
"""The definitions that an answer computes with, for proof files that compute: `use` lines and the names to unfold; and a check of such a file.

A definition marked `unfoldable` counts, and of an `unfoldable mutual` block its first member, in every specs/ file named. Files that only
the contracts of helper functions cite are left out.
"""
import os
import re
import shutil
import subprocess
import tempfile

ORDER = [
    ("field", ["Bytes", "Number", "Row", "Put"]),
    ("utf8", ["Utf8"]),
    ("text", ["Escape", "Lines", "Trim", "Text", "Decimal"]),
    ("names", ["Names"]),
    ("page", ["Number", "Tree", "Refusal", "Check", "Encode"]),
    ("sums", ["Choice", "Value", "Machine"]),
    ("worked", ["Worked"]),
    ("spec", ["Words", "Pass", "Output", "Merge", "Attributes", "Children", "Visit", "Transform", "Answer"]),
]
# the same for the answer to tag text
TAG_ORDER = [
    ("field", ["Bytes", "Number", "Row", "Put"]),
    ("utf8", ["Utf8"]),
    ("page", ["Number", "Encode"]),
    ("grammar", ["Signs", "Known", "Syntax", "Reader"]),
    ("tag_tree", ["PageTag", "TagAnswer"]),
]
# names of types, which nothing has to unfold
TYPES = {"AllBytes", "WellNestedBy", "Fits", "AllFit"}
# crates whose names other crates have too: theirs are written behind the name of their file
QUALIFIED = {"sums"}


def root():
    return os.path.dirname(os.path.dirname(os.path.abspath(__file__)))


def modules(crate, wanted):
    specs = os.path.join(root(), "crates", crate, "specs")
    lib = open(os.path.join(specs, "Lib.antt")).read()
    names = re.findall(r"^pub mod (\S+)", lib, re.M)
    missing = [n for n in wanted if n not in names]
    if missing:
        raise SystemExit("unfold: no such file in the specs of %s: %s" % (crate, ", ".join(missing)))
    return [(n, open(os.path.join(specs, n + ".antt")).read()) for n in names if n in wanted]


def defined(text):
    out = re.findall(r"^ *unfoldable pub (\S+) :", text, re.M)
    for m in re.finditer(r"^( *)unfoldable mutual\n", text, re.M):
        first = re.search(r"pub (\S+) :", text[m.end():])
        out.append(first.group(1))
    return [n for n in out if n not in TYPES]


def gather(order=ORDER):
    """use lines and names; `order` has the modules that a proof computes with. A name stands for one definition in a list of names to unfold, so two
    modules that define the same one are an error."""
    uses, names, owner, twice = [], [], {}, []
    for crate, wanted in order:
        for module, text in modules(crate, wanted):
            new = defined(text)
            if crate in QUALIFIED and new:
                uses.append("use Rattle.%s.specs.%s as %s" % (crate, module, module))
                names += ["%s.%s" % (module, n) for n in new]
                continue
            path = "Rattle.%s.specs.%s" % (crate, module)
            twice += ["%s: %s and %s" % (n, owner[n], path) for n in new if n in owner]
            owner.update((n, path) for n in new)
            names += new
            if new:
                uses.append("use %s.{%s}" % (path, ", ".join(new)))
    if twice:
        raise SystemExit("unfold: defined twice, rename one: " + "; ".join(twice))
    return uses, names


def checked(crate, text):
    """What rt says of the crate where this text is its only proof, in a copy of the crates in a temporary folder, and its exit status."""
    with tempfile.TemporaryDirectory() as tmp:
        copy = os.path.join(tmp, "crates")
        shutil.copytree(os.path.join(root(), "crates"), copy, ignore=shutil.ignore_patterns("out", "must-fail"))
        shutil.copy(os.path.join(root(), "crates.txt"), tmp)
        proofs = os.path.join(copy, crate, "proofs")
        shutil.rmtree(proofs)
        os.mkdir(proofs)
        with open(os.path.join(proofs, "Lib.antt"), "w", encoding="utf-8") as f:
            f.write("pub mod Vectors\n")
        with open(os.path.join(proofs, "Vectors.antt"), "w", encoding="utf-8") as f:
            f.write(text)
        run = subprocess.run([os.environ.get("RT", "rt"), "check"], cwd=os.path.join(copy, crate), capture_output=True, text=True)
    return run.stdout + run.stderr, run.returncode
