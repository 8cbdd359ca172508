"""cases.py SEED COUNT: made lines with their answers, for the program beside this, and canonical texts with the responses that they have to be.

Each line and each answer stands behind the number of its bytes, as four bytes, the highest first.
"""

import random
import sys
from itertools import islice

from canonical import canonical, is_bracketed, read
from grammar import answer
from lines import Lines

BEHIND = [b"", b"xy", b"\r\n", b")", b"* 1 EXISTS\r\n"]


def counted(given):
    return len(given).to_bytes(4, "big") + given


def cases(seed):
    """Made lines, and behind each that is read as a response the canonical text of this, whatever follows it."""
    made, some = Lines(seed), random.Random(seed)
    while True:
        line = made.line()
        said = answer(line)
        yield line, said
        if " of " in said:
            shown = said.rsplit(" of ", 1)[0]
            value = read(shown)
            if not is_bracketed(value):
                text = canonical(value)
                yield text + some.choice(BEHIND), f"{shown} of {len(text)}"


def main():
    seed, count = map(int, sys.argv[1:])
    for line, said in islice(cases(seed), count):
        sys.stdout.buffer.write(counted(line) + counted(said.encode()))


main()
