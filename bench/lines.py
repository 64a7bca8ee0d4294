#!/usr/bin/env python3
"""Writes lines to measure far_uniq with: the same for the same words.

    bench/lines.py urls|distinct|words LINES >FILE

- urls: 60 to 199 bytes, drawn from 2^20 by Zipf's law (exponent 1)
- distinct: like urls, each of them another
- words: 9 bytes, drawn in the same way
"""
import random
import sys

LETTERS = "abcdefghijklmnopqrstuvwxyz0123456789-_"


def url_of(rank: int) -> str:
    """The url of a rank."""
    own = random.Random(rank)
    head = f"https://www.host{own.randrange(50_000)}.example/{own.getrandbits(64):016x}/"
    return head + "".join(own.choices(LETTERS, k=max(0, own.randrange(60, 200) - len(head))))


def word_of(rank: int) -> str:
    """The word of a rank."""
    return "".join(random.Random(rank).choices(LETTERS, k=9))


def drawn(line_of, count: int):
    """Lines of ranks by Zipf's law: as many of each power of two."""
    draws, known = random.Random(1), {}
    for _ in range(count):
        bits = draws.randrange(21)
        rank = (1 << bits >> 1) + draws.randrange(max(1, 1 << bits >> 1))
        if rank not in known:
            known[rank] = line_of(rank)
        yield known[rank]


def main() -> int:
    kinds = {
        "urls": lambda count: drawn(url_of, count),
        "distinct": lambda count: map(url_of, range(count)),
        "words": lambda count: drawn(word_of, count),
    }
    if len(sys.argv) != 3 or sys.argv[1] not in kinds:
        print(__doc__.strip(), file=sys.stderr)
        return 2
    for line in kinds[sys.argv[1]](int(sys.argv[2])):
        print(line)
    return 0


if __name__ == "__main__":
    sys.exit(main())
