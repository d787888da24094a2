"""The program: a plan file and standard input in, one line for each choice out."""

import sys

import plan_file
from plan_file import Refused
from run import Run


# An event's letter and its numbers, by how many there are.
FORMS = {2: "%s %d", 3: "%s %d %d", 6: "%s %d %d %d %d %d"}


def line_of(event):
    return FORMS[len(event)] % event


def output(plan, stdin):
    """All bytes that the program writes for these plan.bin and input bytes."""
    workers = stdin[0] if stdin else 0
    try:
        run = Run(plan_file.read(plan), workers)
    except Refused as refused:
        return b"R %d\n" % refused.number
    # Two bytes a choice, worker and line; a lone last byte is ignored.
    lines = [line_of(run.choose(*choice)) for choice in zip(stdin[1::2], stdin[2::2])]
    lines.append("E" if run.ended else "O")
    lines.append("")
    return "\n".join(lines).encode("ascii")


def main():
    try:
        with open("plan.bin", "rb") as file:
            plan = file.read()
    except FileNotFoundError:
        plan = b""
    sys.stdout.buffer.write(output(plan, sys.stdin.buffer.read()))
    sys.stdout.buffer.flush()


if __name__ == "__main__":
    main()
