#!/usr/bin/env python3
"""What the proofs cost: for each crate the lines of code, of specs and of proof, their ratio, and the seconds to check it.

    python3 tests/costs.py            lines
    python3 tests/costs.py --check    takes a verdict of every crate first, one at a time

Lines are those that are neither empty nor a comment. Contracts stand in the code's files and are counted with the specs.
Seconds are those of a verdict, which checks the crate and all that it depends on from nothing.
"""

import subprocess
import sys
import time
from pathlib import Path

ROOT = Path(__file__).resolve().parent.parent


def crates():
    """The crates of crates.txt, in an order in which each comes after what it depends on."""
    depends = {}
    for line in (ROOT / "crates.txt").read_text().splitlines():
        line = line.split("#")[0].strip()
        if line:
            name, _, others = line.partition(":")
            depends[name.split()[0]] = others.split()
    done = []
    while len(done) < len(depends):
        for name, others in depends.items():
            if name not in done and all(other in done or other not in depends for other in others):
                done.append(name)
    return done


def lines(folder, suffix, comment):
    """The lines of all files of a kind that say something."""
    for path in sorted(folder.rglob("*" + suffix)):
        for line in path.read_text().splitlines():
            text = line.strip()
            if text and not text.startswith(comment):
                yield text


def code_and_contracts(folder):
    """How many lines of the .rt files are code, and how many are contracts or what they are written with."""
    code = contracts = 0
    inside = False
    for text in lines(folder, ".rt", "//"):
        if inside or text.startswith(("requires", "ensures", "ghost use")):
            contracts += 1
            inside = not text.endswith((";", " }"))
        else:
            code += 1
    return code, contracts


def counted(name):
    folder = ROOT / "crates" / name
    code, contracts = code_and_contracts(folder / "src")
    specs = contracts + sum(1 for _ in lines(folder / "specs", ".antt", "--"))
    proof = sum(1 for _ in lines(folder / "proofs", ".antt", "--"))
    return code, specs, proof


def checked_now(names):
    """Seconds of a verdict of each crate, which takes nothing that an earlier check kept, of the crates below it neither."""
    seconds = {}
    for name in names:
        began = time.monotonic()
        said = subprocess.run(["rt", "verdict"], cwd=ROOT / "crates" / name, capture_output=True, text=True)
        if said.returncode != 0:
            sys.exit(said.stdout + said.stderr)
        seconds[name] = round(time.monotonic() - began)
    return seconds


def row(name, code, specs, proof, seconds):
    ratio = f"{proof / code:.1f}" if code else "-"
    return f"| {name} | {code} | {specs} | {proof} | {ratio} | {seconds} |"


def main():
    names = crates()
    seconds = checked_now(names) if "--check" in sys.argv[1:] else {}
    print("| crate | code | specs and contracts | proof | proof / code | seconds |")
    print("|---|--:|--:|--:|--:|--:|")
    totals = [0, 0, 0]
    for name in names:
        parts = counted(name)
        totals = [total + part for total, part in zip(totals, parts)]
        print(row(name, *parts, seconds.get(name, "-")))
    print(row("all", *totals, sum(seconds.values()) if len(seconds) == len(names) else "-"))


if __name__ == "__main__":
    main()
