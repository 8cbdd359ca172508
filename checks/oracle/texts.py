"""texts.py SEED COUNT: lemmas for the checker, of which each says what the canonical text of a made response is, by definition."""

import sys
from itertools import islice

import terms
from canonical import canonical, read
from forms import Denied, Waiting
from grammar import response
from lines import Lines

MOST_BYTES = 400


def responses(seed):
    """What made lines, none of them long, are read as."""
    made = Lines(seed)
    while True:
        line = made.line()
        if len(line) > MOST_BYTES:
            continue
        try:
            yield read(response(line, 0)[0])
        except (Denied, Waiting):
            pass


def main():
    seed, count = map(int, sys.argv[1:])
    found = ((value, terms.response(value)) for value in responses(seed))
    print("-- The canonical texts of made responses.\n" + terms.USES, end="")
    for k, (value, term) in enumerate(islice((it for it in found if it[1] is not None), count)):
        print(f"\ntext_{k} : canonical_bytes {term} ≡ {terms.in_bytes(canonical(value))}")
        print(f"unfolding digits is_utf8 chars encode\ntext_{k} = refl")


main()
