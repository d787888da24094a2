#!/usr/bin/env python3
"""Counts the places of docs/DESIGN-PASS.md, point by point, in the sources of a tree: tools/design_places.py [TREE] [--list]."""
import collections
import glob
import os
import re
import sys

FAILS = {"Spoiled", "Broken", "Bad", "Unsound", "Unknown", "Missing", "Refused", "Failed", "TooMuch", "NoPipe", "NoBase", "Unfit", "Nothing", "Nobody"}
NUMBER = r"(?:u8|u16|u32|u64|usize|i32)"


def sources(tree):
    for path in sorted(glob.glob(os.path.join(tree, "crates/*/src/**/*.rt"), recursive=True)):
        text = open(path, encoding="utf-8").read()
        yield os.path.relpath(path, tree), re.sub(r"//[^\n]*", "", text)


def line_of(text, at):
    return text.count("\n", 0, at) + 1


def functions(text):
    """Name, parameters, clauses, body and place of each function."""
    for found in re.finditer(r"(?m)^( *)(?:pub(?:\(crate\))? )?(?:extern \"C\" )?fn (\w+)[^(]*\(", text):
        indent = found.group(1)
        end = re.compile(r"(?m)^%s\}$" % indent).search(text, found.end())
        if not end:
            continue
        whole = text[found.start():end.end()]
        opening = re.search(r"(?m)(?:^%s| )\{$" % indent, whole)
        head = whole[:opening.start()] if opening else whole
        body = whole[opening.end():] if opening else ""
        close = head.find(")\n") if ")\n" in head else head.rfind(")")
        params = head[head.index("(") + 1:]
        yield found.group(2), params, head, body, found.start()


def blocks(word, text):
    for found in re.finditer(r"(?m)^(?:pub(?:\(crate\))? )?%s (\w+)[^{;]*\{\n(.*?)^\}" % word, text, re.S):
        yield found.group(1), [line.strip() for line in found.group(2).splitlines() if line.strip()], found.start()


def own_results(files):
    for path, text in files:
        for name, lines, at in blocks("enum", text):
            cases = [re.match(r"(\w+)(\(.*)?", line) for line in lines]
            cases = [(c.group(1), bool(c.group(2))) for c in cases if c]
            names = {c for c, _ in cases}
            option = len(cases) == 2 and sum(v for _, v in cases) == 1
            result = names & FAILS and any(v for _, v in cases) and len(cases) <= 4
            if option or result:
                yield path, line_of(text, at), "enum %s { %s }" % (name, ", ".join(sorted(names)))


def flags(files):
    for path, text in files:
        for name, lines, at in blocks("struct", text):
            flagged = [l for l in lines if re.match(r"(pub )?\w+: bool,", l)]
            if flagged and len(lines) > 1:
                yield path, line_of(text, at), "struct %s: %s" % (name, " ".join(flagged))
        for name, params, head, body, at in functions(text):
            if re.search(r"agreed: bool,\s*other:", params):
                yield path, line_of(text, at), "fn %s: agreed beside other" % name


def codes(files):
    for path, text in files:
        for found in re.finditer(r"(?m)^ *(?:pub )?(kind|base): u(?:8|16),$|(?m:^ *(?:pub )?const \w+_MARK: u16)|\b(?:letter|verb): u8\b", text):
            yield path, line_of(text, found.start()), found.group(0).strip()


def skeleton(body):
    body = re.sub(r"\b%s\b" % NUMBER, "T", body)
    body = re.sub(r"\b[A-Z][A-Z_0-9]+\b|\b\d+\b|b\"[^\"]*\"|b'[^']*'", "C", body)
    body = re.sub(r"::[A-Z]\w*", "::V", body)
    return re.sub(r"\s+", " ", body).strip()


def twins(files):
    groups = collections.defaultdict(list)
    for path, text in files:
        for name, params, head, body, at in functions(text):
            key = skeleton(body)
            if len(key) > 24:
                groups[key].append((path, line_of(text, at), "fn " + name))
    for places in groups.values():
        if len(places) > 1:
            yield from places


def loops(files):
    for path, text in files:
        for found in re.finditer(r"(?m)^ *while (.*) \{$", text):
            yield path, line_of(text, found.start()), "while " + found.group(1)


def counted(files):
    for path, text in files:
        for found in re.finditer(r"(?m)^ *for \w+ in [^{]*\.\.[^{]* \{$", text):
            if "MAX" not in found.group(0):
                yield path, line_of(text, found.start()), found.group(0).strip()


def by_hand(files):
    for path, text in files:
        for name, params, head, body, at in functions(text):
            if re.match(r"(same|all_same|from_|wide$|number_of|opening_number|smaller|larger|at_most)", name):
                yield path, line_of(text, at), "fn " + name


def casts(files):
    for path, text in files:
        for found in re.finditer(r"[\w\]\).]+ as %s" % NUMBER, text):
            yield path, line_of(text, found.start()), found.group(0)


def facts(files):
    clauses = collections.defaultdict(set)
    for path, text in files:
        for name, params, head, body, at in functions(text):
            for clause in re.findall(r"requires(?: \w+)? \{ (.*) \}", head):
                for fact in re.split(r" × ", clause.replace("(", "").replace(")", "")):
                    fact = re.sub(r"\.(now|old|new)\b", "", fact)
                    clauses[(os.path.dirname(path), fact)].add((path, line_of(text, at), "fn %s: %s" % (name, fact)))
    for places in clauses.values():
        if len(places) > 2:
            yield from sorted(places)


def travelling(files):
    """Functions of a crate that share three parameters or more, by name, with two others of it."""
    crates = collections.defaultdict(list)
    for path, text in files:
        for name, params, head, body, at in functions(text):
            names = frozenset(re.findall(r"(\w+): ", params.split("->")[0]))
            crates[path.split("/src/")[0]].append((names, path, line_of(text, at), name))
    for members in crates.values():
        shared = {a[0] & b[0] for a in members for b in members if len(a[0] & b[0]) > 2 and a != b}
        shared = {group for group in shared if sum(group <= m[0] for m in members) > 2}
        for names, path, line, name in members:
            mine = [group for group in shared if group <= names]
            if mine:
                yield path, line, "fn %s: %s" % (name, " ".join(sorted(max(mine, key=len))))


def buffers(files):
    for path, text in files:
        for name, lines, at in blocks("struct", text):
            arrays = [l for l in lines if re.search(r": \[", l)]
            if len(arrays) > 1:
                yield path, line_of(text, at), "struct %s: %d arrays" % (name, len(arrays))
            ends = [l for l in lines if re.match(r"(pub )?(at|end|size|lent|held|many|figures|count): (usize|u16),", l)]
            if ends:
                yield path, line_of(text, at), "struct %s: %s" % (name, " ".join(ends))


def switches(files):
    for path, text in files:
        for name, params, head, body, at in functions(text):
            if re.search(r"\b(of_runs|short): bool|\bquestion: Question|\b(verb|letter): u8", params):
                yield path, line_of(text, at), "fn " + name


POINTS = [
    ("1 own Option or Result", own_results),
    ("1 flag with a value beside", flags),
    ("1 number for a kind", codes),
    ("2 twins", twins),
    ("3 while", loops),
    ("3 for over a range", counted),
    ("4 by hand", by_hand),
    ("4 casts", casts),
    ("5 repeated fact", facts),
    ("5 parameters together", travelling),
    ("6 length beside, parallel arrays", buffers),
    ("7 switch on a step", switches),
]


def main():
    args = [a for a in sys.argv[1:] if not a.startswith("--")]
    tree = args[0] if args else "."
    files = list(sources(tree))
    for title, count in POINTS:
        places = list(count(files))
        print("%-34s %4d" % (title, len(places)))
        if "--list" in sys.argv:
            for path, line, what in places:
                print("    %s:%d %s" % (path, line, what))


main()
