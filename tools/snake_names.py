#!/usr/bin/env python3
"""Brings the names of definitions and lemmas of this repository to snake case: `chosenBy` to `chosen_by`, `next-less` to `next_less`, a prime to an apostrophe.

usage: tools/snake_names.py          at the top of the repository, once, over the text that the port's script left
       tools/snake_names.py --list   what would be renamed, and which names would fall together

Renamed is what a file of specs/ or a file of lemmas in proofs/ declares, wherever an .antt or .rt file names it. Names of the library and
names that the check makes for a function's proof keep their spelling; so do functions, types and constructors.
"""

import collections
import os
import re
import sys

WORD = re.compile(r"[^\s(){}\[\],;.=:λ∷@\"|⟨⟩«»`↦→∙]+")
DECLARED = re.compile(r"^[ ]*(?:(?:unfoldable|abbrev|pub|pattern|axiom) )*([^\s(){}\[\],;.=:]+)(?: \{[^}]*\})? : ", re.M)
USES = re.compile(r"^use ([^\s{]+?)\.\{([^}]*)\}", re.M)
WALKS = ("Proof.antt", "Answers.antt", "Invariants.antt")

# Lemmas that the port's script had named as the definition that they speak of is named now, with the file that declares each.
LEMMAS = {
    "is_base": "rules.proofs.rounding.Sums",
    "by_one": "rules.proofs.runs.LinesAlone",
    "laid_out": "loading.proofs.memory_laid.LayingOut",
}


def files(endings):
    for folder, dirs, names in os.walk("crates"):
        dirs[:] = sorted(d for d in dirs if d != "out")
        for name in sorted(names):
            if name.endswith(endings):
                yield os.path.join(folder, name)


def text(path):
    with open(path, encoding="utf-8") as f:
        return f.read()


def snake(name):
    name = name.replace("′", "'").replace("-", "_")
    if name[0].isupper():
        return name
    return re.sub(r"([a-z0-9])([A-Z])", lambda m: m[1] + "_" + m[2].lower(), name)


def is_walk(path):
    return os.path.basename(path) in WALKS or "/Proof/" in path


def renamed():
    crates, declared, library = set(os.listdir("crates")), set(), set()
    for path in files((".antt",)):
        t = text(path)
        for m in USES.finditer(t):
            parts = m[1].split(".")
            if not (parts[0] == "Rattle" and parts[1] in crates):
                library |= {n.strip().split(" as ")[0].strip() for n in m[2].split(",")}
        if not is_walk(path):
            declared |= set(DECLARED.findall(t))
    names = {n: snake(n) for n in declared - library if snake(n) != n}
    # A lemma that would have its function's name ends in `_lem`.
    taken = declared | {new for old, new in names.items() if "-" not in old}
    return {old: new + "_lem" if "-" in old and new in taken else new for old, new in names.items()}


def lemmas_of(path, t):
    """Which of LEMMAS this file declares or imports."""
    module = path[len("crates/") : -len(".antt")].replace("/", ".")
    return {n for n, home in LEMMAS.items() if module == home or re.search(rf"^use Rattle\.{re.escape(home)}\.\{{[^}}]*\b{n}\b", t, re.M)}


def main(argv):
    names = renamed()
    seen = collections.defaultdict(set)
    for path in files((".antt", ".rt")):
        for w in set(WORD.findall(text(path))):
            seen[w].add(path)
    made = collections.Counter(names.values())
    for old, new in sorted(names.items()):
        if made[new] > 1 or new in seen:
            print(f"falls together: {old} -> {new}: {sorted(seen[old])[:2]} {sorted(seen.get(new, ()))[:3]}")
    if "--list" in argv:
        for old, new in sorted(names.items()):
            print(old, new)
        return 0
    for path in files((".antt", ".rt", ".edit")):
        t = text(path)
        here = lemmas_of(path, t)
        walk = is_walk(path)

        def turned(m):
            word = m[0]
            if word in here:
                return word + "_lem"
            if walk and "-" in word and t[m.start() - 1 : m.start()] == ".":
                return word
            return names.get(word, word)

        u = WORD.sub(turned, t)
        if u != t:
            with open(path, "w", encoding="utf-8") as f:
                f.write(u)
    print(f"{len(names)} names")
    return 0


if __name__ == "__main__":
    raise SystemExit(main(sys.argv[1:]))
