"""Makes the stored vectors and what is expected of them, or checks them.

    python3 tests/second/vectors.py --write [plans]
    python3 tests/second/vectors.py --check [plans]

With `plans` only the part of plan files is done.
"""

import sys
from pathlib import Path

HERE = Path(__file__).resolve().parent
sys.path.insert(0, str(HERE))

import plan_vectors
import run_vectors

ROOT = HERE.parent.parent
DATA = Path("crates/vectors/data")
EXPECTED = Path("tests/second/expected")
# What the engine's own walk through the vectors must print.
STDOUT = Path("crates/vectors/stdout")


def made(parts):
    """Pairs (path from the root, bytes) of all files of these parts."""
    files = []
    stdout = b""
    for part, entries, maker in (
        ("plans", plan_vectors.plan_files, plan_vectors),
        ("runs", run_vectors.run_entries, run_vectors),
    ):
        if part not in parts:
            continue
        entries = entries()
        text = maker.expected(entries)
        files.append((DATA / f"{part}.bin", maker.stored(entries)))
        files.append((EXPECTED / f"{part}.txt", text))
        stdout += text
    files.append((STDOUT, stdout))
    return files


def write(files):
    for path, data in files:
        target = ROOT / path
        target.parent.mkdir(parents=True, exist_ok=True)
        target.write_bytes(data)
        print(f"{path.as_posix()}: {len(data)} bytes")
    return 0


def check(files):
    result = 0
    for path, data in files:
        try:
            there = (ROOT / path).read_bytes()
        except FileNotFoundError:
            there = None
        if there == data:
            continue
        print(f"{path.as_posix()}: {'missing' if there is None else 'differs'}")
        result = 1
    return result


def main(words):
    if words[:1] not in (["--write"], ["--check"]) or words[1:] not in ([], ["plans"]):
        print(__doc__, file=sys.stderr)
        return 2
    files = made(words[1:] or ["plans", "runs"])
    return write(files) if words[0] == "--write" else check(files)


if __name__ == "__main__":
    sys.exit(main(sys.argv[1:]))
