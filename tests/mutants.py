"""Small wrong versions of the library crates: does the prover refuse each?

    python3 tests/mutants.py [--crates a,b] [--only LABEL] [--all] [--jobs 2] [--list] [--keep DIR] [--write docs/MUTANTS.md]

A mutant is one small change of the code: a comparison, a constant, operands exchanged, or an
assignment whose effect is dropped. It is made in a copy of the repository and checked there by
`rt check`. One that is still proved is a survivor: it does the same as the code, or it lies outside
what any contract says, or a contract says too little. The exit status is 1 if a survivor is not
explained: not in KNOWN below, not refused by a crate above, and not (in a function that has no
contract) told by a program that prints something else than is stored.

--all tries every mutant, which takes over an hour; --only one, by its label; --list shows them;
--keep keeps what the prover said. `rt` must be there, and the crates' out/ folders warm from an `rt all check`.
"""

import argparse
import hashlib
import os
import queue
import re
import shutil
import signal
import subprocess
import sys
import tempfile
import threading
import time
from collections import Counter
from pathlib import Path

ROOT = Path(__file__).resolve().parent.parent
CRATES = ["vocabulary", "fields", "plan", "tables", "facts", "taking", "releasing", "sink", "printing", "state", "ranges", "loading", "opening", "engine", "marking", "journal", "journal_file", "rounding", "rounded_opening", "rounded", "cells", "session", "feeding", "words", "commands", "answering", "serving", "whole_run", "offered_run", "taken_run", "rounded_run"]
KINDS = ["comparison", "constant", "swap", "drop"]

# Without --all a function with a contract gets one mutant, or two if many can be made of it. Of
# constants, and of functions without a contract, there are some of each file.
MANY = 20
CONSTANTS_OF_FILE = 3
UNPROVED_OF_FILE = 2

# A check takes seconds, one of all crates minutes. What takes longer has lost its way.
LONGEST_CHECK = 600
LONGEST_ABOVE = 1800

# Survivors that are no gap: label -> (the line after the change, why). The line stands there so that
# a label which comes to mean another change, as the code changes, is asked about again.
KNOWN = {}


# ---- reading the sources


class Source:
    """A file of a crate: its lines, and the same with comments and literals of bytes blanked."""

    def __init__(self, crate, path):
        self.crate = crate
        self.name = path.name
        self.lines = path.read_text(encoding="utf-8").split("\n")
        self.code = [blanked(line) for line in self.lines]


class Owner:
    """A function or a constant: where its code stands, its parameters, and whether a contract speaks of it."""

    def __init__(self, source, name, first, last, parameters, of, proved):
        self.source = source
        self.name = name
        self.first = first
        self.last = last
        self.parameters = parameters
        self.of = of
        self.proved = proved
        self.is_constant = bool(CONSTANT.match(source.code[first]))


def blanked(line):
    """The line with spaces for what is no code, so that columns stay as they are."""
    literal = re.compile(r"""b"(?:\\.|[^"\\])*"|b'(?:\\.|[^'\\])'|//.*""")
    return literal.sub(lambda m: " " * len(m.group()), line)


def split_top(text, types=False):
    """The parts between commas that stand in no bracket; among types `<` and `>` are brackets, too."""
    parts, depth, start = [], 0, 0
    if types:
        text = text.replace("->", "  ")
    for i, c in enumerate(text):
        if c in "([{" or types and c == "<":
            depth += 1
        elif c in ")]}" or types and c == ">":
            depth -= 1
        elif c == "," and depth == 0:
            parts.append(text[start:i].strip())
            start = i + 1
    if text[start:].strip():
        parts.append(text[start:].strip())
    return parts


def closing(text, opening):
    """Where the bracket at this place closes, or None where it does not in this text."""
    depth = 0
    for i in range(opening, len(text)):
        if text[i] in "([{":
            depth += 1
        elif text[i] in ")]}":
            depth -= 1
            if depth == 0:
                return i
    return None


FUNCTION = re.compile(r"^(\s*)(?:pub(?:\(\w+\))? )?(?:extern \"C\" )?fn (\w+)\s*(?:<.*?>)?\(")
CONSTANT = re.compile(r"^\s*(?:pub(?:\(\w+\))? )?const (\w+): ([^=]+) = (\d+);")


def owners_of(source):
    """The functions and constants of a file, in order."""
    found = []
    code, i = source.code, 0
    while i < len(code):
        constant = CONSTANT.match(code[i])
        if constant:
            found.append(Owner(source, constant.group(1), i, i, [], constant.group(2), False))
        head = FUNCTION.match(code[i])
        if not head:
            i += 1
            continue
        indent, name = head.groups()
        # The body begins where a line opens a brace that is none of a contract's. A trait's method may have none.
        begin, contract, ensures = i, False, False
        while begin < len(code) - 1:
            word = code[begin].strip()
            contract = contract or word.startswith(("requires", "ensures"))
            ensures = ensures or word.startswith("ensures")
            if code[begin].rstrip() == indent + "{" or (word.endswith("{") and not contract):
                break
            if word.endswith(";"):
                break
            begin += 1
        if code[begin].rstrip().endswith(";"):
            i = begin + 1
            continue
        end = begin
        while end < len(code) - 1 and code[end].rstrip() != indent + "}":
            end += 1
        text = " ".join(code[i : begin + 1])
        opening = head.end() - 1
        close = closing(text, opening)
        parameters = []
        for part in split_top(text[opening + 1 : close], types=True):
            if ":" in part:
                left, right = part.split(":", 1)
                parameters.append((left.replace("mut ", "").strip(), right.strip()))
        found.append(Owner(source, name, begin + 1, end - 1, parameters, "", ensures))
        i = end + 1
    return found


class Program:
    """What the crates declare: enough of their types to change code into code that is likely valid."""

    def __init__(self, root):
        self.sources = []
        for crate in CRATES:
            for path in sorted((root / "crates" / crate / "src").glob("*.rt")):
                self.sources.append(Source(crate, path))
        self.owners = [owner for source in self.sources for owner in owners_of(source)]
        self.functions = [o for o in self.owners if not o.is_constant]
        self.constants = [o for o in self.owners if o.is_constant]
        self.structs = {}
        self.enums = {}
        self.lengths = set()
        for source in self.sources:
            text = "\n".join(source.code)
            self.read_types(text)
            self.lengths.update(re.findall(r"; ([A-Z][A-Z0-9_]*)\]", text))
        # A contract speaks of a constant if it speaks of a function that uses it.
        for constant in self.constants:
            name = re.compile(rf"\b{constant.name}\b")
            seen = [f for f in self.functions if is_seen(constant, f.source)]
            constant.proved = any(f.proved and name.search("\n".join(body(f))) for f in seen)

    def read_types(self, text):
        for found in re.finditer(r"\b(struct|enum) (\w+) (\{)", text):
            inside = text[found.end() : closing(text, found.start(3))]
            parts = [re.sub(r"^pub(?:\(\w+\))? ", "", part) for part in split_top(inside, types=True)]
            if found.group(1) == "struct":
                pairs = [part.split(":", 1) for part in parts]
                self.structs[found.group(2)] = {field.strip(): of.strip() for field, of in pairs}
            else:
                shapes = [re.match(r"(\w+)\s*(.*)", part, re.S) for part in parts]
                self.enums[found.group(2)] = {shape.group(1): shape.group(2) for shape in shapes}

    def function(self, name, count, source):
        """The function that a call with so many arguments means: the nearest of its name."""
        fits = [f for f in self.functions if f.name == name and len(f.parameters) == count]
        return min(fits, key=lambda f: far(f, source), default=None)

    def struct_of(self, path, known):
        """The struct whose field ends this path: by its types, or the only one with such a field."""
        of = known.get(path[0])
        for field in path[1:-1]:
            of = self.structs.get(of, {}).get(field) if of else None
        if of:
            return self.structs.get(of.split("::")[-1])
        fits = [fields for fields in self.structs.values() if path[-1] in fields]
        return fits[0] if len(fits) == 1 else None


def body(owner):
    return owner.source.code[owner.first : owner.last + 1]


def is_seen(constant, source):
    """Whether a file can use a constant: its own file, its crate, or all, as it is declared."""
    line = constant.source.code[constant.first].lstrip()
    if line.startswith("pub const"):
        return True
    return constant.source is source or (line.startswith("pub") and constant.source.crate == source.crate)


def number_of(constant):
    return CONSTANT.match(constant.source.code[constant.first]).group(3)


def far(owner, source):
    return (owner.source is not source, owner.source.crate != source.crate)


# ---- finding mutants


class Mutant:
    """A change: one or more forms of it, each a list of (line number, new line or None)."""

    def __init__(self, owner, kind, forms):
        self.owner = owner
        self.source = owner.source
        self.crate = owner.source.crate
        self.kind = kind
        self.forms = forms
        self.label = ""

    def text(self, form):
        """The file's text with a form of the change."""
        lines = list(self.source.lines)
        for at, new in form:
            lines[at] = new
        return "\n".join(line for line in lines if line is not None)

    def old(self, form):
        return " ".join(self.source.lines[at].strip() for at, _ in form)

    def new(self, form):
        return " ".join(new.strip() for _, new in form if new is not None) or "(left out)"

    def is_risky(self):
        """Whether it is likely that the proof does not fit: a call or a long statement goes, or branches change places."""
        form = self.forms[0]
        if self.kind == "drop":
            left = self.old(form).split(" = ")[0]
            steps = any(re.search(r"(?:= 0|= false|[-+] 0)[;,]$", self.new(f)) for f in self.forms)
            return not steps and ("[" in left or len(form) > 1 or " = " not in self.old(form))
        return self.kind == "comparison" and "if !" in self.old(form) + self.new(form)


OPERAND = r"(?:\([^()]*\)|[\w.:]+(?:\([^()]*\))?(?:\[[^\[\]]*\])?)(?: as \w+)?"
NEAR = {"<": "<=", "<=": "<", ">": ">=", ">=": ">", "==": "!=", "!=": "=="}
ALIKE = {"u8", "u16", "u32", "u64", "usize", "bool", "&[u8]", "&[u16]"}


def put(line, start, end, text):
    return line[:start] + text + line[end:]


def after(names, name):
    """The name that follows this one, or None where there is no other."""
    names = list(names)
    return names[(names.index(name) + 1) % len(names)] if len(names) > 1 else None


def comparisons(owner, program):
    """A comparison becomes its neighbour, or a test its opposite."""
    for at in range(owner.first, owner.last + 1):
        line, code = owner.source.lines[at], owner.source.code[at]
        for m in re.finditer(r" (<=|>=|==|!=|<|>) ", code):
            yield [[(at, put(line, m.start(1), m.end(1), NEAR[m.group(1)]))]]
        test = re.match(r"^(\s*(?:\} else )?if )(!?)([\w.:]+(?:\(.*\))? \{)$", code)
        if test:
            yield [[(at, test.group(1) + ("" if test.group(2) else "!") + line[test.start(3) :])]]


def after_pattern(code):
    """Where a line's expressions begin: what stands before is a pattern, which no value goes into."""
    pattern = re.search(r"\blet [A-Z][^=]* = ", code)
    return max(code.find("=>") + 2 if "=>" in code else 0, pattern.end() if pattern else 0)


def constants(owner, program):
    """A number is one more or one less; a bool, a variant or a named constant becomes another."""
    # Another length of an array is another type.
    if owner.is_constant and owner.name in program.lengths:
        return
    for at in range(owner.first, owner.last + 1):
        line, code = owner.source.lines[at], owner.source.code[at]
        found = []
        for m in re.finditer(r"(?<!\w)(?<![\w)\]]\.)(\d+)(?=(?:[ui](?:8|16|32|64|size))?(?!\w))", code):
            value = int(m.group(1))
            found.append((m.start(1), m.end(1), str(value + 1)))
            if value > 0:
                found.append((m.start(1), m.end(1), str(value - 1)))
        for m in re.finditer(r"\b(true|false)\b", code):
            found.append((m.start(), m.end(), "false" if m.group() == "true" else "true"))
        for m in re.finditer(r"\b([A-Z]\w*)::([A-Z]\w*)\b", code):
            variants = program.enums.get(m.group(1), {})
            if m.group(2) in variants:
                same = [name for name, holds in variants.items() if holds == variants[m.group(2)]]
                found.append((m.start(2), m.end(2), after(same, m.group(2))))
        for m in re.finditer(r"(?<![\w.:])((?:\w+::)*)([A-Z][A-Z0-9_]+)\b", code):
            if not owner.is_constant:
                found.append((m.start(), m.end(), other_constant(program, owner, m.group(1), m.group(2))))
        for m in re.finditer(r'b"([A-Za-z])', line):
            found.append((m.start(1), m.end(1), chr(ord(m.group(1)) + 1)))
        begin = after_pattern(code)
        for start, end, text in found:
            if start >= begin and text is not None:
                yield [[(at, put(line, start, end, text))]]


def other_constant(program, owner, path, name):
    """The next constant of its file with its type and another value, by a path that reaches it from here."""
    here = owner.source
    fits = [c for c in program.constants if c.name == name and is_seen(c, here)]
    if not fits:
        return None
    this = min(fits, key=lambda c: far(c, here))
    home = this.source
    same = [c for c in program.constants if c.source is home and c.of == this.of and is_seen(c, here)]
    others = [c.name for c in same if c is this or number_of(c) != number_of(this)]
    other = after(others, name) if name in others else None
    if other is None:
        return None
    if path or home is here:
        return path + other
    for line in here.code:
        imported = re.match(rf"\s*(?:pub )?use ([\w:]+)::{name};", line)
        if imported:
            return f"{imported.group(1)}::{other}"
    return None


def swaps(owner, program):
    """Two operands, arguments or fields change places, or one gives way to another of its type."""
    known = dict(owner.parameters)
    fixed = set(known)
    for at in range(owner.first, owner.last + 1):
        line, code = owner.source.lines[at], owner.source.code[at]
        sides = re.match(
            r"^(\s*(?:\} else )?(?:if |while |return |let \w+ = )?)([^&|{}]+?) (<=|>=|<|>) ([^&|{}]+?)( \{|;|)$", code
        )
        if sides and "=>" not in code:
            head, left, sign, right, tail = sides.groups()
            # `x as u8 < y` would be read as a type with a parameter.
            right = f"({right})" if re.search(r" as \w+$", right) else right
            yield [[(at, f"{head}{right} {sign} {left}{tail}")]]
        for m in re.finditer(rf"({OPERAND}) ([-/%]) ({OPERAND})", code):
            yield [[(at, put(line, m.start(), m.end(), f"{m.group(3)} {m.group(2)} {m.group(1)}"))]]
        yield from exchanged_arguments(owner, program, at)
        yield from exchanged_fields(owner, program, at)
        yield from other_fields(owner, program, known, at)
        yield from other_names(owner, known, fixed, at)
        local = re.match(r"^\s*let (mut )?(\w+): (\w+) = ", code)
        if local:
            known[local.group(2)] = local.group(3)
            if not local.group(1):
                fixed.add(local.group(2))


def exchanged_arguments(owner, program, at):
    line, code = owner.source.lines[at], owner.source.code[at]
    for call in re.finditer(r"\b(\w+)\(", code):
        close = closing(code, call.end() - 1)
        if close is None:
            continue
        arguments = split_top(line[call.end() : close])
        callee = program.function(call.group(1), len(arguments), owner.source)
        types = [of for _, of in callee.parameters] if callee else []
        for i in range(len(types)):
            j = next((k for k in range(i + 1, len(types)) if types[k] == types[i]), None)
            if j is not None:
                changed = list(arguments)
                changed[i], changed[j] = changed[j], changed[i]
                yield [[(at, put(line, call.end(), close, ", ".join(changed)))]]


def exchanged_fields(owner, program, at):
    code = owner.source.code
    opened = re.match(r"^(\s*).*?\b(\w+) \{$", code[at])
    if not opened or opened.group(2) not in program.structs:
        return
    types = program.structs[opened.group(2)]
    indent = opened.group(1) + "    "
    values = []
    for i in range(at + 1, owner.last + 1):
        if not code[i].startswith(indent):
            break
        field = re.match(rf"^{indent}(\w+): (.+),$", code[i])
        if field and field.group(1) in types:
            values.append((i, field.group(1), field.group(2)))
    for k, (i, one, value) in enumerate(values):
        for j, other, instead in values[k + 1 :]:
            if types[one] == types[other] and value != instead:
                yield [[(i, f"{indent}{one}: {instead},"), (j, f"{indent}{other}: {value},")]]
                break


def other_fields(owner, program, known, at):
    line, code = owner.source.lines[at], owner.source.code[at]
    for m in re.finditer(r"(?<![\w.:])([a-z_]\w*(?:\.[a-z_]\w*)+)(?![\w(])", code):
        path = m.group(1).split(".")
        fields = program.struct_of(path, known)
        if fields and path[-1] in fields:
            other = after([name for name, of in fields.items() if of == fields[path[-1]]], path[-1])
            if other:
                yield [[(at, put(line, m.end() - len(path[-1]), m.end(), other))]]


def other_names(owner, known, fixed, at):
    line, code = owner.source.lines[at], owner.source.code[at]
    # A name alone on a line is a field, too.
    if re.match(r"^\s*\w+,$", code):
        return
    for m in re.finditer(r"(?<![\w.:])([a-z_]\w*)(?!\w|::|:|\(| \}|\.)", code):
        of = known.get(m.group(1))
        if of not in ALIKE or re.search(r"\b(?:let|mut|for) $", code[: m.start()]):
            continue
        other = after([name for name, type_ in known.items() if type_ == of], m.group(1))
        stored = re.match(r" [-+]?= ", code[m.end() :])
        if other and not (stored and other in fixed):
            yield [[(at, put(line, m.start(), m.end(), other))]]


def drops(owner, program):
    """An assignment without its effect, in more than one form: one may suit the proof where another does not."""
    for at in range(owner.first, owner.last + 1):
        code = owner.source.code[at]
        gone = [(at, None)]
        added = re.match(r"^(\s*(?:.* => )?\w+ [-+]= )(.+)([;,])$", code)
        stored = re.match(r"^(\s*)((?:\w+\.)*\w+(?:\[.+\])?) = (.+)$", code)
        if added:
            yield [[(at, f"{added.group(1)}0{added.group(3)}")]] + ([] if "=>" in code else [gone])
        elif stored and stored.group(3).endswith("{"):
            close = [i for i in range(at, owner.last + 1) if owner.source.code[i].rstrip() == stored.group(1) + "};"]
            if close:
                yield [[(i, None) for i in range(at, close[0] + 1)]]
        elif stored and stored.group(3).endswith(";"):
            indent, place, value = stored.groups()
            kept = [(at, f"{indent}{place} = {place};")]
            # A sum or a difference stays one, so that there is as much to prove.
            sign = re.match(rf"^{OPERAND} ([-+]) {OPERAND};$", value)
            none_added = [[(at, f"{indent}{place} = {place} {sign.group(1)} 0;")]] if sign else []
            if "[" in place:
                forms = [kept, gone]
                # To read an element is more to prove than to store one: if all else fails, 0 is stored.
                nothing = "false" if re.search(r" [=!]= |^(?:true|false);", value) else "0"
                name = value.rstrip(";").split("::")[-1]
                zeros = [c.name for c in program.constants if number_of(c) == "0"]
                if name != nothing and name not in zeros:
                    forms.append([(at, f"{indent}{place} = {nothing};")])
            else:
                forms = [gone, kept] if "." in place else [kept, gone]
            yield none_added + forms
        elif re.match(r"^\s*[\w:]+\(.*\);$", code):
            yield [gone]


FINDERS = {"drop": drops, "comparison": comparisons, "constant": constants, "swap": swaps}


def all_mutants(program):
    """All mutants, each change once: a dropped step that is a changed constant, too, is a dropped step."""
    numbers = Counter()
    result = []
    for owner in program.owners:
        seen = {"\n".join(owner.source.lines)}
        found = []
        for kind, finder in FINDERS.items():
            if owner.is_constant and kind != "constant":
                continue
            for forms in finder(owner, program):
                mutant = Mutant(owner, kind, forms)
                text = mutant.text(forms[0])
                if text not in seen:
                    seen.add(text)
                    found.append(mutant)
        for mutant in sorted(found, key=lambda m: KINDS.index(m.kind)):
            name = f"{mutant.crate}/{mutant.source.name}:{owner.name}:{mutant.kind}"
            numbers[name] += 1
            mutant.label = f"{name}-{numbers[name]}"
            result.append(mutant)
    return result


def digest(text):
    return int(hashlib.sha256(text.encode()).hexdigest(), 16)


def chosen(program, mutants):
    """Some of them, spread over crates, files, functions and kinds, the same each time."""
    of = {}
    for mutant in mutants:
        of.setdefault(id(mutant.owner), []).append(mutant)
    picked = set()
    used, in_file = Counter(), Counter()
    for owner in program.owners:
        mine = of.get(id(owner), [])
        file = (owner.source.crate, owner.source.name, owner.is_constant, owner.proved)
        if owner.is_constant:
            most = 1 if in_file[file] < CONSTANTS_OF_FILE else 0
        elif owner.proved:
            most = 2 if len(mine) >= MANY else 1
        else:
            most = 1 if in_file[file] < UNPROVED_OF_FILE else 0
        # A risky one only where there is no other.
        mine = [m for m in mine if not m.is_risky()] or mine
        kinds = {m.kind for m in mine}
        in_file[file] += bool(kinds)
        for _ in range(min(most, len(kinds))):
            # The kind that the crate has least of so far.
            kind = min(kinds, key=lambda k: (used[owner.source.crate, k], digest(owner.name + k)))
            kinds.remove(kind)
            used[owner.source.crate, kind] += 1
            best = min((m for m in mine if m.kind == kind), key=lambda m: digest(m.label))
            picked.add(best.label)
    return [m for m in mutants if m.label in picked]


# ---- judging one


class Ended(Exception):
    """The run was ended: what a stopped prover said is no verdict."""


class Room:
    """A copy of the repository in which mutants are tried, one at a time."""

    running = set()
    ended = threading.Event()

    def __init__(self, folder, origin, warm=True):
        self.root = Path(folder)
        shutil.copy2(origin / "crates.txt", self.root)
        left = shutil.ignore_patterns() if warm else shutil.ignore_patterns("out", "must-fail")
        shutil.copytree(origin / "crates", self.root / "crates", symlinks=True, ignore=left)

    def rt(self, words, longest, crate=None):
        """The exit status of rt in a crate's folder or at the top, None where it took too long, and what it said."""
        if Room.ended.is_set():
            raise Ended
        process = subprocess.Popen(
            ["rt", *words],
            cwd=self.root / "crates" / crate if crate else self.root,
            stdin=subprocess.DEVNULL,
            stdout=subprocess.PIPE,
            stderr=subprocess.STDOUT,
            start_new_session=True,
        )
        Room.running.add(process)
        if Room.ended.is_set():
            stop(process)
        try:
            said, _ = process.communicate(timeout=longest)
            status = process.returncode
        except subprocess.TimeoutExpired:
            stop(process)
            said, _ = process.communicate()
            status = None
        Room.running.discard(process)
        if Room.ended.is_set():
            raise Ended
        return status, said.decode("utf-8", "replace").replace(str(self.root) + "/", "")

    def file_of(self, source):
        return self.root / "crates" / source.crate / "src" / source.name

    def changed(self, trial):
        return Changed(self, trial)


class Changed:
    """The time in which a room has a mutant."""

    def __init__(self, room, trial):
        self.file = room.file_of(trial.mutant.source)
        self.text = trial.mutant.text(trial.form)
        self.back = "\n".join(trial.mutant.source.lines)
        self.proofs = proofs_of(room.root, trial.mutant.owner) if trial.unaided else []

    def __enter__(self):
        self.kept = [(proof, proof.read_bytes()) for proof in self.proofs]
        for proof in self.proofs:
            proof.unlink()
        self.file.write_text(self.text, encoding="utf-8")

    def __exit__(self, *_):
        self.file.write_text(self.back, encoding="utf-8")
        for proof, data in self.kept:
            proof.write_bytes(data)


class Trial:
    """A form of a mutant, with the function's proof or without it."""

    def __init__(self, mutant, form, unaided=False):
        self.mutant = mutant
        self.form = form
        self.unaided = unaided


def stop(process):
    """Ends rt and the prover that it started."""
    try:
        os.killpg(process.pid, signal.SIGKILL)
    except ProcessLookupError:
        pass


def proofs_of(root, owner):
    """The function's proof, if there is one; a method's stands below its type."""
    base = root / "crates" / owner.source.crate / "proofs"
    stem = owner.source.name.removesuffix(".rt")
    if stem not in ("lib", "main"):
        base = base / stem
    return [p for at in (owner.name, f"[A-Z]*/{owner.name}") for p in base.glob(f"{at}/*.antt") if p.name in ("Answers.antt", "Proof.antt")]


# The first error says whether the proof could be read against the code at all. Of these it could
# not: the change took away, added or renamed a fact to prove, and nothing follows about the contract.
UNREAD = [
    r"has no `[^`]*` that can be named from here",
    r"record `[^`]*` has no field",
    r"this pattern needs a function",
    r"expected type `tie\.Need-[^`]*`,? but this has type `tie\.Need-",
]

# Of these a fact was not proved.
UNPROVED = [
    r"`omega`: the (?:goal|part .*) does not follow",
    r"`search`: no proof of",
    r"expected type|two types|two sides",
    r"give a proof of that as the last argument",
    r"`rw`: no (?:occurrence|part)",
    r"`simp`: no equation",
    r"it is not proved that",
]

# Which fact, by the name that the prover gives it.
FACTS = [
    ("what the contract says at a return", r"returns"),
    ("what a called function requires", r".*-requires"),
    ("a loop's invariant or measure", r"loop"),
    ("no wrap, no index out of range", r""),
]

def first_error(said):
    """The first error that is no consequence of another, in one line, and the name of the fact it is about."""
    for found in re.finditer(r"^(?:\S+: error(?:\[[^\]]*\])?|note: (?:src|proofs|specs)/\S+): .*(?:\n  .*)*", said, re.M):
        text = " ".join(found.group().split())
        if "was not admitted" not in text:
            name = re.search(r"error: `([^`]*)`", text) or re.search(r"\(`([^`]*)`\)", text)
            return text, name.group(1) if name else ""
    return "", ""


def judged(status, said):
    """proved, refused, shape, invalid or unclear, and why."""
    if status is None:
        return "unclear", "the check took too long"
    if status == 0 or re.search(r"^logic=proved", said, re.M):
        return "proved", ""
    error, name = first_error(said)
    if not re.search(r"^logic=not-proved", said, re.M):
        if status == 1 and "error[" in error:
            return "invalid", error
        return "unclear", f"exit status {status}: {error or said.strip()[-200:]}"
    uncovered = re.search(r"the borrow checker does not cover.*", said)
    if uncovered:
        return "shape", uncovered.group()
    if any(re.search(pattern, error) for pattern in UNREAD):
        return "shape", error
    if any(re.search(pattern, error) for pattern in UNPROVED):
        return "refused", next(fact for fact, pattern in FACTS if re.match(pattern, name))
    return "unclear", error or f"exit status {status} and no error"


class Verdict:
    """What became of a mutant."""

    def __init__(self, trial, answer, why):
        self.trial = trial
        self.mutant = trial.mutant
        self.answer = answer
        self.why = why
        self.told = ""
        self.explained = False

    def lines(self):
        why = self.why if len(self.why) < 300 else self.why[:300] + " .."
        shown = [
            f"{self.answer:9} {self.mutant.label}" + (f"  ({why})" if why else ""),
            f"    old: {self.mutant.old(self.trial.form)}",
            f"    new: {self.mutant.new(self.trial.form)}",
        ]
        return shown + ([f"    {self.told}"] if self.told else [])


class Judge:
    """Tries mutants in a room, and knows what the crates ask for unchanged."""

    def __init__(self, keep):
        self.keep = keep

    def before(self, room, crate):
        """The crate is proved as it is; this warms its folder out/, too."""
        status, said = room.rt(["check"], LONGEST_ABOVE, crate)
        if judged(status, said)[0] != "proved":
            print(f"{crate} is not proved as it is: {first_error(said)[0] or said.strip()[-500:]}", file=sys.stderr)
            sys.exit(2)

    def once(self, room, trial):
        mutant = trial.mutant
        with room.changed(trial):
            status, said = room.rt(["check"], LONGEST_CHECK, mutant.crate)
            answer, why = judged(status, said)
        if self.keep:
            name = mutant.label.replace("/", ".") + ("-unaided" if trial.unaided else "")
            (self.keep / name).write_text(said, encoding="utf-8")
        return Verdict(trial, answer, why)

    def judge(self, room, mutant):
        """The first form whose answer says something; what suits no form is tried with no proof, too."""
        first = None
        for form in mutant.forms:
            verdict = self.once(room, Trial(mutant, form))
            first = first or verdict
            if verdict.answer not in ("shape", "invalid"):
                break
        else:
            verdict = first
        if verdict.answer == "shape" and proofs_of(room.root, mutant.owner):
            unaided = self.once(room, Trial(mutant, mutant.forms[0], unaided=True))
            if unaided.answer == "proved":
                verdict = unaided
        if verdict.answer == "proved":
            verdict.answer = "survived"
            self.explain(room, verdict)
        return verdict

    def explain(self, room, verdict):
        """A survivor is in KNOWN, or the crates above and the programs' stored output may tell."""
        mutant, trial = verdict.mutant, verdict.trial
        line, why = KNOWN.get(mutant.label, ("", ""))
        if line and line == mutant.new(trial.form):
            verdict.told, verdict.explained = why, True
            return
        with tempfile.TemporaryDirectory() as folder:
            above = Room(folder, room.root, warm=False)
            with above.changed(trial):
                above.rt(["fmt"], LONGEST_CHECK, mutant.crate)  # what is not laid out is refused for that
                status, said = above.rt(["ci"], LONGEST_ABOVE)
        if self.keep:
            (self.keep / (mutant.label.replace("/", ".") + "-above")).write_text(said, encoding="utf-8")
        unproved = re.findall(r"^rt: (\w+) NOT PROVED$", said, re.M)
        differing = sorted(set(re.findall(r"^rt: (\w+)(?: \([^)]*\))?: what the program wrote", said, re.M)))
        outside = "" if mutant.owner.proved else "no contract speaks of it; "
        if status is None or status not in (0, 1) or mutant.crate in unproved:
            verdict.told = f"rt ci cannot tell (exit status {status}; not proved: {unproved})"
        elif unproved:
            verdict.told, verdict.explained = f"refused by the crate above it: {', '.join(unproved)}", True
        elif differing:
            verdict.told = f"{outside}the stored output of {', '.join(differing)} differs"
            verdict.explained = not mutant.owner.proved
        else:
            verdict.told = f"{outside}all crates are proved, and all programs write what is stored"


# ---- trying all


def tried(mutants, jobs, keep):
    """The verdicts, in the order of the mutants; each is printed as it comes."""
    judge = Judge(keep)
    verdicts = {}
    todo = queue.Queue()
    # The mutants of a function stay together: the prover has then less to check again.
    groups = {}
    for mutant in mutants:
        groups.setdefault(id(mutant.owner), []).append(mutant)
    for group in groups.values():
        todo.put(group)
    lock = threading.Lock()
    faults = []

    def work(room):
        try:
            while not faults:
                for mutant in todo.get_nowait():
                    verdict = judge.judge(room, mutant)
                    with lock:
                        verdicts[mutant.label] = verdict
                        print(f"[{len(verdicts)}/{len(mutants)}]", "\n".join(verdict.lines()), flush=True)
        except queue.Empty:
            pass
        except BaseException as fault:  # noqa: B036: told by the main thread
            faults.append(fault)

    threads = []
    with tempfile.TemporaryDirectory() as folder:
        try:
            rooms = []
            for i in range(max(1, min(jobs, todo.qsize()))):
                place = Path(folder) / str(i)
                place.mkdir()
                rooms.append(Room(place, rooms[0].root if rooms else ROOT))
                if i == 0:
                    if any(m.text([]) != rooms[0].file_of(m.source).read_text(encoding="utf-8") for m in mutants):
                        print("the sources changed while they were copied", file=sys.stderr)
                        sys.exit(2)
                    for crate in sorted({m.crate for m in mutants}, key=CRATES.index):
                        judge.before(rooms[0], crate)
            for room in rooms:
                threads.append(threading.Thread(target=work, args=(room,), daemon=True))
                threads[-1].start()
            for thread in threads:
                while thread.is_alive():
                    thread.join(1)
        finally:
            # No prover goes on, and none is started, before the copies are removed.
            Room.ended.set()
            for process in list(Room.running):
                stop(process)
            for thread in threads:
                thread.join()
    if faults:
        raise faults[0]
    return [verdicts[m.label] for m in mutants]


def counted(verdicts):
    answers = Counter(v.answer for v in verdicts)
    tail = f", {answers['unclear']} unclear" if answers["unclear"] else ""
    return (
        f"{len(verdicts)} mutants: {answers['refused']} refused, {answers['survived']} survived, "
        f"{answers['shape']} shape, {answers['invalid']} invalid{tail}"
    )


def code_of(text):
    return "`" + text.replace("|", "\\|") + "`"


def report(verdicts, seconds, jobs):
    """The report in Markdown."""
    out = ["# Small wrong versions that the prover refuses", ""]
    out += [
        "`tests/mutants.py` changes one small thing in a function or a constant of a library crate and asks the prover again:",
        "",
        "- *comparison*: `<` becomes `<=`, `==` becomes `!=`, a test its opposite",
        "- *constant*: a number is one more or one less; a bool, a refusal or a named constant is another",
        "- *swap*: two operands, arguments or fields change places, or one gives way to another of its type",
        "- *drop*: an assignment, or a call that writes, has no effect; or 0 is stored, where no other form suits the proof",
        "",
        "The changes are found by rules over the code, not by hand, and spread over crates, files, functions and kinds. A mutant is",
        "**refused** if a fact that is to be proved of the changed code is not proved, **survived** if all is proved still. It is",
        "**shape** if the proof no longer fits the code's operations, and **invalid** if it is no valid code: these two say nothing",
        "about a contract, and count for nothing. Refused means that the proofs in the repository do not prove the changed code; it",
        "is no proof that the contract is false of it.",
        "",
        f"**{counted(verdicts)}** ({minutes(seconds)}, {jobs} at a time).",
        "",
        "| refused, of those refused and survived | " + " | ".join(KINDS) + " | all | shape | invalid |",
        "|---|" + "---|" * (len(KINDS) + 3),
    ]
    rows = [(crate, [v for v in verdicts if v.mutant.crate == crate]) for crate in CRATES]
    for name, mine in [row for row in rows if row[1]] + [("all", verdicts)]:
        cells = [share([v for v in mine if v.mutant.kind == kind]) for kind in KINDS] + [share(mine)]
        cells += [str(sum(v.answer == answer for v in mine)) for answer in ("shape", "invalid")]
        out.append(f"| {name} | " + " | ".join(cells) + " |")
    facts = Counter(v.why for v in verdicts if v.answer == "refused")
    out += ["", "The first fact that was not proved:", "", "| fact | mutants |", "|---|---|"]
    out += [f"| {fact} | {facts[fact]} |" for fact, _ in FACTS if facts[fact]]
    groups = [
        ("Survivors", "survived", "None."),
        ("Shape", "shape", ""),
        ("Unclear", "unclear", ""),
    ]
    for title, answer, none in groups:
        mine = [v for v in verdicts if v.answer == answer]
        if not mine and not none:
            continue
        out += ["", f"## {title}", ""]
        if not mine:
            out.append(none)
            continue
        out += ["| mutant | was | became |" + (" why |" if answer != "shape" else ""), "|---|---|---|" + ("---|" if answer != "shape" else "")]
        for v in mine:
            row = f"| {v.mutant.label} | {code_of(v.mutant.old(v.trial.form))} | {code_of(v.mutant.new(v.trial.form))} |"
            out.append(row + (f" {(v.told or v.why).replace('|', '/')} |" if answer != "shape" else ""))
    return "\n".join(out) + "\n"


def share(verdicts):
    refused = sum(v.answer == "refused" for v in verdicts)
    survived = sum(v.answer == "survived" for v in verdicts)
    return f"{refused} of {refused + survived}" if refused + survived else "-"


def minutes(seconds):
    return f"{round(seconds / 60)} minutes" if seconds >= 90 else f"{round(seconds)} seconds"


def main():
    parser = argparse.ArgumentParser(description=__doc__.split("\n")[0])
    parser.add_argument("--crates", default=",".join(CRATES), help="only the mutants of these crates")
    parser.add_argument("--only", help="only the mutant with this label")
    parser.add_argument("--all", action="store_true", help="every mutant, not some of each function")
    parser.add_argument("--jobs", type=int, default=2, help="how many are tried at a time")
    parser.add_argument("--list", action="store_true", help="show the mutants and try none")
    parser.add_argument("--keep", type=Path, help="a folder for what the prover says")
    parser.add_argument("--write", type=Path, help="a file for the report")
    wanted = parser.parse_args()

    # So that a run that is ended leaves no prover and no copy behind.
    signal.signal(signal.SIGTERM, lambda *_: sys.exit(2))
    program = Program(ROOT)
    mutants = all_mutants(program)
    if wanted.only:
        mutants = [m for m in mutants if m.label == wanted.only]
    elif not wanted.all:
        mutants = chosen(program, mutants)
    mutants = [m for m in mutants if m.crate in wanted.crates.split(",")]
    if not mutants:
        parser.error("there is no such mutant")
    if wanted.list:
        for mutant in mutants:
            print(f"{mutant.label}\n    old: {mutant.old(mutant.forms[0])}\n    new: {mutant.new(mutant.forms[0])}")
        print(f"{len(mutants)} mutants")
        return 0
    if wanted.keep:
        wanted.keep.mkdir(parents=True, exist_ok=True)

    began = time.monotonic()
    verdicts = tried(mutants, wanted.jobs, wanted.keep)
    seconds = time.monotonic() - began
    open_ = [v for v in verdicts if v.answer == "unclear" or (v.answer == "survived" and not v.explained)]
    print()
    for title, answer in [("shape", "shape"), ("survivors", "survived"), ("unclear", "unclear")]:
        mine = [v for v in verdicts if v.answer == answer]
        if mine:
            print(f"{title}:")
            print("\n".join("  " + line for v in mine for line in v.lines()))
    print(f"{counted(verdicts)}; {minutes(seconds)}")
    if wanted.write:
        wanted.write.write_text(report(verdicts, seconds, wanted.jobs), encoding="utf-8")
    if open_:
        print("not explained: " + ", ".join(v.mutant.label for v in open_))
        return 1
    return 0


if __name__ == "__main__":
    sys.exit(main())
