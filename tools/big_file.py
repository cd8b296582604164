"""Writes a big command file to standard output: a good S line, then A, O, F and unreadable lines.

The argument is the size in MB (1,000,000 bytes), 10 if there is none. The file has at most that size, is short of it by
less than one line, and ends with a line feed. It is the same on every run. The lines follow docs/COMMAND_FILE.md.

    python3 tools/big_file.py 10 > big.in
"""

import random
import sys
from typing import List

SEED = 10_240
POOL_SIZE = 5_000
LINES_AT_ONCE = 10_000
FIRST_LINE = b"S\t1\n"


def key(source: random.Random) -> bytes:
    return b"%064x" % source.getrandbits(256)


def account_line(source: random.Random) -> bytes:
    return b"A\t%d\t%s\n" % (source.randrange(65_536), key(source))


def office_line(source: random.Random) -> bytes:
    return b"O\t%d\t%s\n" % (source.randrange(7), key(source))


def sheet_line(source: random.Random) -> bytes:
    path = b"sheets/%d" % source.randrange(1_000)
    if source.randrange(20) == 0:
        path = b"p" * source.choice((0, 40, 41))
    return b"F\t%s\t%d\t%d\n" % (path, source.randrange(65_536), source.randrange(2**32))


def unreadable_line(source: random.Random) -> bytes:
    kind = source.randrange(8)
    if kind == 0:
        return b"\n"
    if kind == 1:
        return b"S\t1\n"
    if kind == 2:
        return b"A\t%d\t%s\n" % (source.randrange(65_536, 2**33), key(source))
    if kind == 3:
        return b"A\t%d\t%s\n" % (source.randrange(65_536), key(source)[:63])
    if kind == 4:
        return b"O\t2\t%sg\n" % key(source)[:63]
    if kind == 5:
        return b"F\tsheets/1\t7\n"
    if kind == 6:
        return b"F\tsheets/1\t7\t54\t\n"
    length = source.randrange(100)
    return bytes(source.randrange(256) for _ in range(length)).replace(b"\n", b" ") + b"\n"


def any_line(source: random.Random) -> bytes:
    kind = source.randrange(10)
    if kind < 3:
        return account_line(source)
    if kind < 5:
        return office_line(source)
    if kind < 8:
        return sheet_line(source)
    return unreadable_line(source)


def line_pool(source: random.Random) -> List[bytes]:
    """The lines that the file is drawn from; one of them is too long."""
    pool = [any_line(source) for _ in range(POOL_SIZE - 1)]
    pool.append(b"F\tsheets/1\t7\t" + b"0" * 10_240 + b"54\n")
    return pool


def write_file(size: int) -> None:
    source = random.Random(SEED)
    pool = line_pool(source)
    output = sys.stdout.buffer
    output.write(FIRST_LINE)
    left = size - len(FIRST_LINE)
    while True:
        lines = source.choices(pool, k=LINES_AT_ONCE)
        block = b"".join(lines)
        if len(block) > left:
            break
        output.write(block)
        left -= len(block)
    for text in lines:
        if len(text) > left:
            break
        output.write(text)
        left -= len(text)


def main(arguments: List[str]) -> int:
    if len(arguments) > 1 or not all(text.isdecimal() and int(text) >= 1 for text in arguments):
        print("usage: big_file.py [SIZE_IN_MB]", file=sys.stderr)
        return 2
    megabytes = int(arguments[0]) if arguments else 10
    write_file(megabytes * 1_000_000)
    return 0


if __name__ == "__main__":
    sys.exit(main(sys.argv[1:]))
