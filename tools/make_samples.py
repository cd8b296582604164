"""Writes the sample command files samples/NAME.in and, by calling the model, their outputs samples/NAME.out.

The samples are the same on every run. They follow docs/COMMAND_FILE.md; the outputs come from tools/model.py.

    python3 tools/make_samples.py
"""

import random
import sys
from pathlib import Path
from typing import Callable, Dict, List

from model import answer_file

SAMPLES = Path(__file__).resolve().parent.parent / "samples"
SIZE_LIMIT = 400_000

KEY_1 = b"1" * 64
KEY_2 = b"2" * 64
KEY_3 = b"3" * 64
KEY_4 = b"4" * 64


def number(value: int) -> bytes:
    return b"%d" % value


def line(*fields: bytes) -> bytes:
    """The fields parted by tabs, with a line feed at the end."""
    return b"\t".join(fields) + b"\n"


def scheme(text: bytes = b"1") -> bytes:
    return line(b"S", text)


def account(text: bytes, key: bytes = KEY_1) -> bytes:
    return line(b"A", text, key)


def office(text: bytes, key: bytes = KEY_2) -> bytes:
    return line(b"O", text, key)


def sheet(path: bytes, owner: bytes = b"7", cards: bytes = b"54") -> bytes:
    return line(b"F", path, owner, cards)


def zeros_to_length(before: bytes, after: bytes, length: int) -> bytes:
    """A line of exactly `length` bytes, without its line feed, filled with zeros in the middle."""
    return before + b"0" * (length - len(before) - len(after)) + after + b"\n"


# Samples for single rules.


def lists() -> bytes:
    lines = [
        scheme(b"1"),
        account(b"7", KEY_1),
        account(b"8", KEY_2),
        office(b"1", KEY_1),
        office(b"2", KEY_2),
        office(b"3", KEY_3),
        office(b"4", KEY_4),
        sheet(b"fox/s1", b"7", b"54"),
        sheet(b"fox/s2", b"8", b"12"),
        sheet(b"owl/s1", b"900", b"0"),
        account(b"7", KEY_3),  # a duplicate account
        office(b"5", KEY_3),  # a fifth office
        office(b"2", KEY_4),  # a duplicate office
        sheet(b"", b"7", b"54"),  # an empty path
        sheet(b"a" * 41, b"7", b"54"),  # a path of 41 bytes
        sheet(b"fox/s1", b"8", b"1"),  # a duplicate path
        b"this line cannot be read\n",
        scheme(b"2"),  # a late S
        account(b"9", KEY_3),
    ]
    return b"".join(lines)


NUMBER_TEXTS: List[bytes] = [
    # small, and with leading zeros
    b"0",
    b"1",
    b"4",
    b"5",
    b"00",
    b"01",
    b"0007",
    b"0" * 300,
    b"0" * 300 + b"9",
    b"0" * 5000 + b"10",
    # about 16 bits
    b"65534",
    b"65535",
    b"65536",
    b"65537",
    b"99999",
    b"000065535",
    b"000065536",
    b"0" * 300 + b"65535",
    b"0" * 300 + b"65536",
    # about 32 bits
    b"2147483647",
    b"2147483648",
    b"4294967294",
    b"4294967295",
    b"4294967296",
    b"4294967297",
    b"0004294967295",
    b"0004294967296",
    b"9999999999",
    # about 64 and 128 bits
    number(2**63),
    number(2**64 - 1),
    number(2**64),
    number(2**64 + 1),
    number(2**64 + 2**32),
    number(2**128),
    number(2**128 + 1),
    b"9" * 300,
    # not numbers
    b"",
    b"+1",
    b"-1",
    b"-0",
    b" 1",
    b"1 ",
    b"1 2",
    b"1,000",
    b"1_000",
    b"1.0",
    b"1e3",
    b"0x1",
    b"x",
    b"one",
    b"1a",
    b"a1",
    b"1/",
    b":1",
    b"\x001",
    b"1\x00",
    b"1\x002",
    b"\x00",
    b"1\r",
    b"\xb9",
    b"\xef\xbc\x91",
]


def numbers() -> bytes:
    lines = [scheme()]
    # Every spelling in each of the four places of a number. Each path is new; a number may be listed already.
    for index, text in enumerate(NUMBER_TEXTS):
        lines.append(account(text))
        lines.append(office(text))
        lines.append(sheet(b"account/%d" % index, text, b"1"))
        lines.append(sheet(b"cards/%d" % index, b"1", text))
    # A late S is refused however its number is spelled.
    for text in (b"1", b"2", b"0", b"3", b"", b"01", b"65537"):
        lines.append(scheme(text))
    # Unreadable lines listed nothing.
    lines.append(account(b"2"))
    lines.append(office(b"2"))
    return b"".join(lines)


def keys() -> bytes:
    digits = b"0123456789abcdef" * 4
    capitals = digits.upper()
    mixed = b"0123456789aBcDeFAbCdEf0123456789" * 2
    lines = [scheme()]
    # Lengths.
    for length in (0, 1, 2, 32, 62, 63, 65, 66, 128):
        lines.append(account(b"1", (digits * 2)[:length]))
    lines.append(account(b"1", digits))
    # Small, capital and mixed letters.
    for index, key in enumerate((capitals, mixed, b"a" * 64, b"F" * 64, b"0" * 64, b"9" * 64)):
        lines.append(account(number(10 + index), key))
    # A bad digit at the first, the middle and the last places, in an account and in an office.
    for bad in (b"/", b":", b"@", b"G", b"`", b"g", b" ", b"z", b"-", b"x", b"\x00", b"\r", b"\x80", b"\xff", b"\xc1"):
        for place in (0, 31, 32, 63):
            key = digits[:place] + bad + digits[place + 1 :]
            lines.append(account(b"2", key))
            if place in (0, 63):
                lines.append(office(b"2", key))
    # Sixty-four digits with something around them.
    for key in (b" " + digits, digits + b" ", b"0x" + digits, b"0x" + digits[2:], digits + b"\r", digits + b"\x00"):
        lines.append(account(b"2", key))
        lines.append(office(b"2", key))
    # The line is read before the office's number is checked.
    lines.append(office(b"5", digits[:63]))
    lines.append(office(b"5", digits))
    # None of the bad keys was listed.
    lines.append(account(b"2", capitals))
    lines.append(office(b"2", mixed))
    lines.append(account(b"2", digits))
    lines.append(office(b"2", digits))
    return b"".join(lines)


def fields() -> bytes:
    good: Dict[bytes, List[bytes]] = {
        b"S": [b"S", b"1"],
        b"A": [b"A", b"7", KEY_1],
        b"O": [b"O", b"2", KEY_2],
        b"F": [b"F", b"fox/s1", b"7", b"54"],
    }
    lines = [scheme(b"2")]
    # Too few and too many fields, with closing and leading tabs.
    for parts in good.values():
        for count in range(1, len(parts)):
            lines.append(line(*parts[:count]))
        lines.append(line(*parts, b""))
        lines.append(line(*parts, b"", b""))
        lines.append(line(*parts, b"1"))
        lines.append(line(*parts, parts[-1]))
        lines.append(line(b"", *parts))
        lines.append(line(parts[0], b"", *parts[1:]))
        lines.append(line(*[parts[0]] + [b""] * (len(parts) - 1)))
        lines.append(line(*parts[:-1], b""))
        # Another parting than the tab.
        lines.append(b" ".join(parts) + b"\n")
        lines.append(b"\x0b".join(parts) + b"\n")
    # The numbers of fields of one command with the letter of another.
    lines.append(line(b"A", b"fox/s1", b"7", b"54"))
    lines.append(line(b"F", b"7", KEY_1))
    lines.append(line(b"S", b"7", KEY_1))
    lines.append(line(b"A", b"1"))
    # Empty lines, lines of only tabs, of only spaces.
    lines.extend([b"\n", b"\n", b"\t\n", b"\t\t\n", b"\t\t\t\n", b"\t\t\t\t\n", b" \n", b"\r\n", b"\x00\n"])
    # The letter: small, doubled, unknown, with something around it.
    for parts in good.values():
        letter, rest = parts[0], parts[1:]
        for other in (letter.lower(), letter * 2, letter + b" ", b" " + letter, letter + b"\x00", b"\x00" + letter):
            lines.append(line(other, *rest))
    for code in range(ord("A"), ord("Z") + 1):
        if bytes([code]) not in good:
            lines.append(line(bytes([code]), b"7", KEY_1))
    for other in (b"AO", b"#", b"@", b"[", b"1", b"\xc1", b"\xff", b"", b"\xef\xbb\xbfA", b"\x00", b"\r"):
        lines.append(line(other, b"7", KEY_1))
    lines.append(b"# a comment\n")
    # A carriage return before the line feed, and elsewhere.
    for parts in good.values():
        lines.append(b"\t".join(parts) + b"\r\n")
        lines.append(b"\r" + b"\t".join(parts) + b"\n")
        lines.append(b"\t".join(parts) + b"\x00\n")
        lines.append(b"\t".join(parts) + b"\xff\n")
        lines.append(b"\t".join(parts) + b" \n")
    # Two commands in one line, parted by what is no line feed.
    for parting in (b"\r", b"\x00", b"\x0b", b"\x0c", b"\x1c", b"\xc2\x85", b"\xe2\x80\xa8", b";"):
        lines.append(b"F\tx\t1\t1" + parting + b"F\ty\t1\t1\n")
    # Nothing so far was listed.
    for parts in good.values():
        lines.append(line(*parts))
    # Paths: any bytes, compared byte by byte; each twice, so that the second is a duplicate.
    paths = [
        b"a",
        b"A",
        b" ",
        b"  ",
        b" a",
        b"a ",
        b"/",
        b"//",
        b"a/b",
        b"a//b",
        b"./a/b",
        b"../a b/c d",
        b"\x00",
        b"\x00\x00",
        b"a\x00",
        b"a\x00b",
        b"a\x00c",
        b"\r",
        b"a\r",
        b"\x80",
        b"\xff",
        b"\xc3\xa9",
        b"e\xcc\x81",
        b"1",
        b"01",
        b"F",
        b"p" * 39,
        b"p" * 40,
        b"p" * 39 + b"q",
        b"q" + b"p" * 39,
        b"\xff" * 40,
        b"\x00" * 40,
        b"\xc3\xa9" * 20,
    ]
    for path in paths:
        lines.append(sheet(path, b"1", b"1"))
        lines.append(sheet(path, b"2", b"2"))
    # Paths of a wrong length; bytes are counted, not characters.
    for path in (b"", b"p" * 41, b"\x00" * 41, b" " * 41, b"\xc3\xa9" * 20 + b"p", b"p" * 255, b"p" * 256, b"p" * 297):
        lines.append(sheet(path, b"1", b"1"))
    # The line is read before the path is checked.
    lines.append(sheet(b"", b"x", b"1"))
    lines.append(sheet(b"", b"1", b"x"))
    lines.append(sheet(b"p" * 41, b"65536", b"1"))
    lines.append(sheet(b"p" * 41, b"1", b"4294967296"))
    return b"".join(lines)


def full() -> bytes:
    lines = [scheme()]
    # Accounts: 16, one beyond, each listed one again, a new one again.
    for value in range(100, 116):
        lines.append(account(number(value)))
    lines.append(account(b"116"))
    for value in range(100, 116):
        lines.append(account(number(value), KEY_3))
    lines.append(account(b"116"))
    lines.append(account(b"0"))
    lines.append(account(b"65535"))
    lines.append(account(b"65536"))
    # Offices: 4, one beyond (which is no office), each listed one again, others again. 20 cannot come here.
    for value in (4, 2, 3, 1):
        lines.append(office(number(value)))
    lines.append(office(b"5"))
    for value in (1, 2, 3, 4):
        lines.append(office(number(value), KEY_3))
    lines.append(office(b"5"))
    lines.append(office(b"0"))
    lines.append(office(b"65536"))
    # Sheets: 64, one beyond, each listed one again, a new one again, then wrong lengths in the full list.
    for value in range(64):
        lines.append(sheet(b"sheet/%d" % value))
    lines.append(sheet(b"sheet/64"))
    for value in range(64):
        lines.append(sheet(b"sheet/%d" % value, b"8", b"1"))
    lines.append(sheet(b"sheet/64"))
    lines.append(sheet(b"Sheet/0"))
    lines.append(sheet(b""))
    lines.append(sheet(b"p" * 41))
    lines.append(sheet(b"sheet/65", b"1", b"4294967296"))
    return b"".join(lines)


def long_lines() -> bytes:
    lines = [
        scheme(),
        # Readable but for their length, with a path that is far too long: 12 up to 10,240 bytes, then 27.
        b"F\t" + b"p" * (10_239 - 6) + b"\t1\t1\n",
        b"F\t" + b"p" * (10_240 - 6) + b"\t1\t1\n",
        b"F\t" + b"p" * (10_241 - 6) + b"\t1\t1\n",
        sheet(b"after/1"),
        # One line of 30,000 bytes. Cut off or cut up at 10,240 bytes it would list sheets, which it must not.
        zeros_to_length(b"F\tlong/1\t1\t", b"54", 10_240)[:-1]
        + zeros_to_length(b"F\tlong/2\t1\t", b"54", 10_240)[:-1]
        + zeros_to_length(b"F\tlong/3\t1\t", b"54", 30_000 - 2 * 10_240),
        sheet(b"long/1"),
        sheet(b"long/2"),
        sheet(b"long/3"),
        # A command of 10,240 bytes by leading zeros, which is carried out, and again with one more zero.
        zeros_to_length(b"F\tzeros/1\t1\t", b"54", 10_240),
        zeros_to_length(b"F\tzeros/2\t1\t", b"54", 10_241),
        sheet(b"zeros/1"),
        sheet(b"zeros/2"),
        account(b"7"),
        office(b"2"),
        b"\n",
        account(b"8"),
    ]
    return b"".join(lines)


def unended() -> bytes:
    return scheme() + account(b"7") + sheet(b"fox/s1") + sheet(b"fox/s2")[:-1]


def unended_long() -> bytes:
    return scheme() + b"F\t" + b"p" * 12_000


# Samples for the first line. What follows it would be answered if the file were read on.

REST = scheme() + account(b"7") + office(b"2") + sheet(b"fox/s1")


def first_bad() -> bytes:
    return account(b"7") + REST


def first_empty() -> bytes:
    return b"\n" + REST


def first_long() -> bytes:
    return zeros_to_length(b"S\t", b"1", 10_241) + REST


def first_scheme() -> bytes:
    return scheme(b"3") + REST


def first_scheme_0() -> bytes:
    return scheme(b"0") + REST


def first_scheme_wide() -> bytes:
    return scheme(b"65537") + REST


def first_closing_tab() -> bytes:
    return b"S\t1\t\n" + REST


def first_zeros() -> bytes:
    return scheme(b"0001") + REST


def first_unended() -> bytes:
    return b"S\t1"


def empty() -> bytes:
    return b""


# Random samples.


class RandomLines:
    """Random lines over small pools of numbers and paths."""

    def __init__(self, seed: int, account_pool: int, path_pool: int) -> None:
        self.random = random.Random(seed)
        self.accounts = [self.random.randrange(65_536) for _ in range(account_pool)]
        self.paths = [self.new_path() for _ in range(path_pool)]

    def random_bytes(self, length: int) -> bytes:
        return bytes(self.random.randrange(256) for _ in range(length))

    def new_path(self) -> bytes:
        kind = self.random.randrange(10)
        if kind == 0:
            return b"p" * self.random.choice((0, 1, 39, 40, 41, 42))
        if kind == 1:
            length = self.random.randrange(1, 41)
            return self.random_bytes(length).replace(b"\t", b"t").replace(b"\n", b"n")
        return b"%s/s%d" % (self.random.choice((b"fox", b"owl", b"elk")), self.random.randrange(100))

    def key(self) -> bytes:
        text = self.random_bytes(32).hex()
        if self.random.randrange(2) == 0:
            text = text.upper()
        return text.encode("ascii")

    def spelled(self, value: int) -> bytes:
        zeros = self.random.choice((0, 0, 0, 0, 1, 2, 9))
        return b"0" * zeros + number(value)

    def account_number(self) -> bytes:
        if self.random.randrange(20) == 0:
            return self.spelled(self.random.choice((0, 65_535, 65_536, 65_537, 2**32, 2**64)))
        return self.spelled(self.random.choice(self.accounts))

    def cards(self) -> bytes:
        if self.random.randrange(10) == 0:
            return self.spelled(self.random.choice((0, 65_536, 2**32 - 1, 2**32, 2**32 + 1, 2**64)))
        return self.spelled(self.random.randrange(200))

    def plausible_line(self) -> bytes:
        kind = self.random.randrange(20)
        if kind == 0:
            return scheme(self.spelled(self.random.randrange(4)))
        if kind < 6:
            return account(self.account_number(), self.key())
        if kind < 9:
            return office(self.spelled(self.random.randrange(7)), self.key())
        return sheet(self.random.choice(self.paths), self.account_number(), self.cards())

    def mutated_line(self) -> bytes:
        """A plausible line with one byte changed, inserted or deleted; its line feed may be that byte."""
        text = self.plausible_line()
        place = self.random.randrange(len(text))
        if self.random.randrange(2) == 0:
            byte = bytes([self.random.choice(b"\t\n\r\x00 019afgAFGOS/:@`\x7f\x80\xff")])
        else:
            byte = self.random_bytes(1)
        kind = self.random.randrange(3)
        if kind == 0:
            return text[:place] + byte + text[place + 1 :]
        if kind == 1:
            return text[:place] + byte + text[place:]
        return text[:place] + text[place + 1 :]

    def any_line(self) -> bytes:
        kind = self.random.randrange(20)
        if kind == 0:
            return self.random_bytes(self.random.randrange(60)) + b"\n"
        if kind < 6:
            return self.mutated_line()
        return self.plausible_line()

    def file(self, first: bytes, count: int) -> bytes:
        """The first line, random lines, and a plausible last line with its line feed."""
        return first + b"".join(self.any_line() for _ in range(count)) + self.plausible_line()


def random_1() -> bytes:
    return RandomLines(seed=1, account_pool=10, path_pool=40).file(scheme(b"1"), 1000)


def random_2() -> bytes:
    return RandomLines(seed=2, account_pool=30, path_pool=60).file(scheme(b"2"), 1000)


def random_3() -> bytes:
    return RandomLines(seed=3, account_pool=16, path_pool=200).file(scheme(b"001"), 1000)


def random_4() -> bytes:
    last = b"F\tlast\t1\t1"
    return RandomLines(seed=4, account_pool=200, path_pool=90).file(scheme(b"2"), 1000) + last


SAMPLE_MAKERS: List[Callable[[], bytes]] = [
    # Every list and every refusal of listing, in few lines that a person can follow.
    lists,
    # Every edge of the spelling and the width of numbers, in each place where a number stands.
    numbers,
    # The length and the digits of keys.
    keys,
    # The number of fields, the letter, bytes without a meaning of their own, and paths.
    fields,
    # Each list filled to its limit and beyond; 19 goes before 20 in a full list.
    full,
    # The limit of 10,240 bytes to a line, from both sides.
    long_lines,
    # A good last line that is unreadable for want of a line feed.
    unended,
    # The last line has no line feed and is too long: one answer.
    unended_long,
    # The first line is a readable command other than S: the run ends.
    first_bad,
    # The first line is empty: the run ends.
    first_empty,
    # The first line is an S of 10,241 bytes: the run ends.
    first_long,
    # The first line names a scheme that there is not: the run ends.
    first_scheme,
    # The first line names scheme 0, or one that is 1 in its low 16 bits: the run ends.
    first_scheme_0,
    first_scheme_wide,
    # The first line has a tab at its end, thus one field too many: the run ends.
    first_closing_tab,
    # The first line has leading zeros in its number: it is carried out, and the run goes on.
    first_zeros,
    # The first line is the last one too, and has no line feed: the run ends.
    first_unended,
    # No bytes at all: no lines and no answers.
    empty,
    # Random lines; few accounts and paths, so that most names come many times and the lists fill late or never.
    random_1,
    # Random lines; more accounts than can be listed, paths near the limit.
    random_2,
    # Random lines; accounts that just fit, far more paths than can be listed.
    random_3,
    # Random lines; far more accounts than can be listed, some more paths; the last line has no line feed.
    random_4,
]


def write_sample(name: str, data: bytes) -> int:
    """Writes both files of a sample; gives their size together."""
    output = answer_file(data)
    (SAMPLES / f"{name}.in").write_bytes(data)
    (SAMPLES / f"{name}.out").write_bytes(output)
    return len(data) + len(output)


def main() -> int:
    SAMPLES.mkdir(exist_ok=True)
    total = sum(write_sample(maker.__name__, maker()) for maker in SAMPLE_MAKERS)
    print(f"{len(SAMPLE_MAKERS)} samples, {total} bytes")
    if total > SIZE_LIMIT:
        print(f"over the limit of {SIZE_LIMIT} bytes", file=sys.stderr)
        return 1
    return 0


if __name__ == "__main__":
    sys.exit(main())
