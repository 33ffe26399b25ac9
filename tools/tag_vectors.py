#!/usr/bin/env python3
"""Holds the definition of the answer to tag text against stored answers, by computation in the checker.

  tools/tag_vectors.py VECTORS FROM COUNT [MOST]

A line of VECTORS is one call: seed, text, bytes lent, number, bytes written, field; bytes in hex, `-` for none. Lent bytes are 6d. Takes
COUNT lines from line FROM on, those of at most MOST characters (default 600). Each becomes a theorem, proved by computing, in a copy of the
crates in a temporary folder; nothing is written here. A vector with more than 4,096 lent bytes is held to the field, not to every byte
lent. Exit status 0: all agree.
"""
import sys

from unfold import TAG_ORDER, checked, gather


def row(text):
    data = b"" if text == "-" else bytes.fromhex(text)
    return "(" + " ∷ ".join([str(c) for c in data] + ["[]"]) + ")" if data else "[]"


def main():
    path, start, count = sys.argv[1], int(sys.argv[2]), int(sys.argv[3])
    most = int(sys.argv[4]) if len(sys.argv) > 4 else 600
    uses, names = gather(TAG_ORDER)
    text = "-- Stored answers to tag text.\nuse Rattle.std.proofs.Common.{ℕ, ◌≡◌, refl, [], ◌∷◌}\nuse Rattle.std.proofs.Math.ListN.{replicate}\n"
    text += "use Rattle.field.specs.Bytes.{Bytes}\nuse Rattle.tag_tree.specs.TagAnswer.{TagOutcome}\n" + "\n".join(uses) + "\n\n"
    text += "pub record Reply : Type 0 where\n  pub number : ℕ\n  pub written : ℕ\n  pub out : Bytes\n\n"
    text += "unfoldable reply : TagOutcome → Bytes → Reply\nunfolding " + " ".join(names) + "\nreply o b = record { number = tag_number o; written = bytes_of_tag o; out = tag_left o b }\n\n"
    text += "unfoldable computed : Bytes → ℕ → TagOutcome\nunfolding " + " ".join(names) + "\ncomputed s room = tag_outcome s room\n\n"
    seen, taken = {}, 0
    for k, line in enumerate(open(path)):
        p = line.split()
        if k < start or taken >= count or len(p) != 6 or len(line) > most:
            continue
        taken += 1
        seen[int(p[3])] = seen.get(int(p[3]), 0) + 1
        lent = int(p[2])
        field = b"" if p[5] == "-" else bytes.fromhex(p[5])
        shown = lent if lent <= 4096 else len(field)
        out = field + b"\x6d" * (shown - len(field)) if p[3] == "0" else bytes(shown)
        text += "-- %s\nv%d : reply (tag_outcome %s %d) (replicate %d 109) ≡ record { number = %s; written = %s; out = %s }\nunfolding computed reply\nv%d = refl\n\n" % (
            p[0], k, row(p[1]), lent, shown, p[3], p[4], row(out.hex() or "-"), k)
    out, status = checked("tag_tree", text)
    print(taken, "vectors, by answer:", dict(sorted(seen.items())), "-> exit", status)
    for line in out.splitlines():
        if "error" in line:
            print(line[:600])
    sys.exit(status)


if __name__ == "__main__":
    main()
