#!/usr/bin/env python3
"""Holds the definition of the answer against the judge's stored vectors, by computation in the checker.

  tools/vectors.py VECTORS FROM COUNT [MOST]

Takes COUNT lines of VECTORS (crates/replay/stdin) from line FROM on, those of at most MOST characters (default 3000). Each becomes a
theorem, proved by computing, in a copy of the crates in a temporary folder; nothing is written here. Exit status 0: all agree.
"""
import sys

from unfold import checked, gather


def row(text):
    data = b"" if text == "-" else bytes.fromhex(text)
    return "(" + " ∷ ".join([str(c) for c in data] + ["[]"]) + ")" if data else "[]"


def main():
    path, start, count = sys.argv[1], int(sys.argv[2]), int(sys.argv[3])
    most = int(sys.argv[4]) if len(sys.argv) > 4 else 3000
    uses, names = gather()
    text = "-- Vectors of the judge.\nuse Rattle.std.proofs.Common.{ℕ, ◌≡◌, refl, [], ◌∷◌}\nuse Rattle.field.specs.Bytes.{Bytes}\n"
    text += "use Rattle.spec.specs.Answer.{Outcome}\nuse Rattle.spec.specs.Marks.{reply}\n" + "\n".join(uses) + "\n\n"
    text += "unfoldable computed : Bytes → Bytes → ℕ → ℕ → ℕ → Outcome\nunfolding " + " ".join(names) + "\ncomputed p o d s q = outcome p o d s q\n\n"
    seen, taken = {}, 0
    for k, line in enumerate(open(path)):
        p = line.split()
        if k < start or taken >= count or len(p) != 12 or len(line) > most:
            continue
        taken += 1
        seen[int(p[5])] = seen.get(int(p[5]), 0) + 1
        text += "-- %s\nv%d : reply (outcome %s %s %s %s %s) ≡ record { number = %s; templates = %s; templates_out = %s; page_out = %s }\nunfolding computed reply\nv%d = refl\n\n" % (
            p[11], k, row(p[0]), row(p[1]), p[2], p[3], p[4], p[5], p[8], row(p[9]), row(p[10]), k)
    out, status = checked("spec", text)
    print(taken, "vectors, by answer:", dict(sorted(seen.items())), "-> exit", status)
    for line in out.splitlines():
        if "error" in line:
            print(line[:600])
    sys.exit(status)


if __name__ == "__main__":
    main()
