"""An independent model of the command file, written from docs/COMMAND_FILE.md.

It reads a command file from standard input and writes the answers to standard output, both as raw bytes.
It serves to make expected outputs; the numbers of the refusals are those of docs/REFUSALS.md.

    python3 tools/model.py < samples/lists.in
    python3 tools/model.py --selftest

To add a command: write a method of Box that carries it out, and a row of COMMANDS that names its letter, how its fields
are read, and that method.
"""

import sys
from dataclasses import dataclass
from typing import Any, Callable, Dict, Iterator, List, Optional, Tuple

TAB = b"\t"
LINE_FEED = b"\n"

LINE_LIMIT = 10_240
KEY_DIGITS = 64
SCHEMES = (1, 2)

ACCOUNT_LIMIT = 16
OFFICE_LIMIT = 4
SHEET_LIMIT = 64

OFFICE_NUMBERS = range(1, 5)
PATH_LENGTHS = range(1, 41)

WRONG_LENGTH = 12
WRONG_OFFICE = 14
ALREADY_LISTED = 19
LIST_FULL = 20
UNREADABLE_LINE = 27


class Refused(Exception):
    """A refusal: its number and, where the refusal has one, its place."""

    def __init__(self, number: int, place: Optional[int] = None) -> None:
        super().__init__(number, place)
        self.number = number
        self.place = place


# Reading fields. Each reader takes the bytes of one field and gives its value, or refuses the line.


def read_number(field: bytes, bits: int) -> int:
    """A number: one or more decimal digits, any number of leading zeros, below 2 to the power of its width."""
    if field == b"" or any(byte not in b"0123456789" for byte in field):
        raise Refused(UNREADABLE_LINE)
    digits = field.lstrip(b"0")
    # No number of this width has more than `bits` digits; this keeps int() away from very long ones.
    if len(digits) > bits:
        raise Refused(UNREADABLE_LINE)
    value = int(digits) if digits else 0
    if value >= 2**bits:
        raise Refused(UNREADABLE_LINE)
    return value


def read_number_16(field: bytes) -> int:
    return read_number(field, 16)


def read_number_32(field: bytes) -> int:
    return read_number(field, 32)


def read_scheme(field: bytes) -> int:
    scheme = read_number_16(field)
    if scheme not in SCHEMES:
        raise Refused(UNREADABLE_LINE)
    return scheme


def read_key(field: bytes) -> bytes:
    """A key: exactly 64 hexadecimal digits."""
    if len(field) != KEY_DIGITS or any(byte not in b"0123456789abcdefABCDEF" for byte in field):
        raise Refused(UNREADABLE_LINE)
    return bytes.fromhex(field.decode("ascii"))


def read_path(field: bytes) -> bytes:
    """A path: any bytes at all. Its length is checked when it is listed, not when it is read."""
    return field


# The state of the box.


@dataclass(frozen=True)
class Sheet:
    account: int
    cards: int


def list_row(rows: Dict[Any, Any], limit: int, name: Any, value: Any) -> None:
    """Lists a row whose own checks have passed."""
    if name in rows:
        raise Refused(ALREADY_LISTED)
    if len(rows) >= limit:
        raise Refused(LIST_FULL)
    rows[name] = value


class Box:
    """The scheme and the three lists."""

    def __init__(self) -> None:
        self.scheme: Optional[int] = None
        self.accounts: Dict[int, bytes] = {}
        self.offices: Dict[int, bytes] = {}
        self.sheets: Dict[bytes, Sheet] = {}

    def choose_scheme(self, scheme: int) -> None:
        if self.scheme is not None:
            raise Refused(UNREADABLE_LINE)
        self.scheme = scheme

    def list_account(self, number: int, key: bytes) -> None:
        list_row(self.accounts, ACCOUNT_LIMIT, number, key)

    def list_office(self, number: int, key: bytes) -> None:
        if number not in OFFICE_NUMBERS:
            raise Refused(WRONG_OFFICE)
        list_row(self.offices, OFFICE_LIMIT, number, key)

    def list_sheet(self, path: bytes, account: int, cards: int) -> None:
        if len(path) not in PATH_LENGTHS:
            raise Refused(WRONG_LENGTH)
        list_row(self.sheets, SHEET_LIMIT, path, Sheet(account, cards))


# The commands.


@dataclass(frozen=True)
class Command:
    """How the fields after the letter are read, and what carries the command out with their values."""

    readers: Tuple[Callable[[bytes], Any], ...]
    carry_out: Callable[..., None]

    @property
    def field_count(self) -> int:
        """The number of fields of the line, the letter among them."""
        return 1 + len(self.readers)


FIRST_LETTER = b"S"

COMMANDS: Dict[bytes, Command] = {
    b"S": Command((read_scheme,), Box.choose_scheme),
    b"A": Command((read_number_16, read_key), Box.list_account),
    b"O": Command((read_number_16, read_key), Box.list_office),
    b"F": Command((read_path, read_number_16, read_number_32), Box.list_sheet),
}


# Lines and answers.


@dataclass(frozen=True)
class Line:
    content: bytes
    ended: bool


def split_lines(data: bytes) -> Iterator[Line]:
    """The lines of a file, without their line feeds."""
    parts = data.split(LINE_FEED)
    for part in parts[:-1]:
        yield Line(part, ended=True)
    if parts[-1] != b"":
        yield Line(parts[-1], ended=False)


def read_line(line: Line) -> Tuple[bytes, List[Any]]:
    """Reads a whole line: its letter and the values of its other fields."""
    if not line.ended or len(line.content) > LINE_LIMIT:
        raise Refused(UNREADABLE_LINE)
    fields = line.content.split(TAB)
    letter = fields[0]
    if letter not in COMMANDS:
        raise Refused(UNREADABLE_LINE)
    command = COMMANDS[letter]
    if len(fields) != command.field_count:
        raise Refused(UNREADABLE_LINE)
    values = [reader(field) for reader, field in zip(command.readers, fields[1:])]
    return letter, values


def carry_out_line(box: Box, line: Line) -> None:
    letter, values = read_line(line)
    if box.scheme is None and letter != FIRST_LETTER:
        raise Refused(UNREADABLE_LINE)
    COMMANDS[letter].carry_out(box, *values)


def answer_line(box: Box, line: Line) -> bytes:
    """The answer of a line, without the line's number and the line feed."""
    try:
        carry_out_line(box, line)
    except Refused as refusal:
        if refusal.place is None:
            return b"%d" % refusal.number
        return b"%d\t%d" % (refusal.number, refusal.place)
    return b"ok"


def answer_file(data: bytes) -> bytes:
    """The whole output for a command file."""
    box = Box()
    output: List[bytes] = []
    for number, line in enumerate(split_lines(data), start=1):
        answer = answer_line(box, line)
        output.append(b"%d\t%s\n" % (number, answer))
        if box.scheme is None:
            # The first line was not a good S: the rest of the file is not looked at.
            break
    return b"".join(output)


# The self-test. Every expected output is written out by hand from the documents.

KEY_1 = b"1" * 64
KEY_2 = b"2" * 64
KEY_3 = b"3" * 64

SELFTEST_CASES: List[Tuple[str, bytes, bytes]] = [
    (
        "the sample of docs/COMMAND_FILE.md",
        b"S\t1\n"
        b"A\t7\t" + KEY_1 + b"\n"
        b"O\t2\t" + KEY_2 + b"\n"
        b"F\tfox/s1\t7\t54\n"
        b"A\t7\t" + KEY_3 + b"\n"
        b"O\t5\t" + KEY_2 + b"\n"
        b"F\t\t7\t54\n"
        b"F\tfox/s1\t8\t1\n"
        b"S\t1\n"
        b"A\t65536\t" + KEY_1 + b"\n",
        b"1\tok\n2\tok\n3\tok\n4\tok\n5\t19\n6\t14\n7\t12\n8\t19\n9\t27\n10\t27\n",
    ),
    ("the empty file has no lines", b"", b""),
    ("an empty first line ends the run", b"\nS\t1\n", b"1\t27\n"),
    ("another first command ends the run", b"A\t7\t" + KEY_1 + b"\nS\t1\n", b"1\t27\n"),
    ("another scheme ends the run", b"S\t3\nS\t1\n", b"1\t27\n"),
    ("scheme 0 ends the run", b"S\t0\nS\t1\n", b"1\t27\n"),
    ("a scheme of over 16 bits ends the run", b"S\t65537\nS\t1\n", b"1\t27\n"),
    ("a first line without a line feed is unreadable", b"S\t1", b"1\t27\n"),
    ("a closing tab is one field more", b"S\t1\t\nS\t1\n", b"1\t27\n"),
    ("leading zeros are allowed", b"S\t0002\nF\ta\t" + b"0" * 9_000 + b"1\t1\n", b"1\tok\n2\tok\n"),
    ("later S lines are refused, good or not", b"S\t2\nS\t2\nS\t1\nS\t9\n", b"1\tok\n2\t27\n3\t27\n4\t27\n"),
    (
        "a last line without a line feed is unreadable",
        b"S\t1\nF\ta\t1\t1\nF\tb\t1\t1",
        b"1\tok\n2\tok\n3\t27\n",
    ),
    (
        "an account has 16 bits, cards have 32",
        b"S\t1\nF\ta\t65535\t4294967295\nF\tb\t65536\t1\nF\tb\t1\t4294967296\nF\tb\t1\t1\n",
        b"1\tok\n2\tok\n3\t27\n4\t27\n5\tok\n",
    ),
    (
        "a number is digits and nothing else",
        b"S\t1\nF\ta\t+1\t1\nF\ta\t-1\t1\nF\ta\t 1\t1\nF\ta\t1_0\t1\nF\ta\t\t1\nF\ta\t1\t1\r\nF\ta\t1\x00\t1\n",
        b"1\tok\n2\t27\n3\t27\n4\t27\n5\t27\n6\t27\n7\t27\n8\t27\n",
    ),
    (
        "a key is 64 hexadecimal digits, small or capital",
        b"S\t1\n"
        b"A\t1\t" + b"a" * 63 + b"\n"
        b"A\t1\t" + b"a" * 65 + b"\n"
        b"A\t1\t" + b"a" * 63 + b"g\n"
        b"A\t1\t" + b"a" * 62 + b"  \n"
        b"A\t1\t" + b"aF" * 32 + b"\n",
        b"1\tok\n2\t27\n3\t27\n4\t27\n5\t27\n6\tok\n",
    ),
    (
        "the line is read before its row is checked",
        b"S\t1\nF\t\t7\tx\nO\t5\tx\nO\t5\t" + KEY_1 + b"\nO\t0\t" + KEY_1 + b"\n",
        b"1\tok\n2\t27\n3\t27\n4\t14\n5\t14\n",
    ),
    (
        "a path has 1 to 40 bytes and is compared byte by byte",
        b"S\t1\n"
        b"F\t" + b"p" * 40 + b"\t1\t1\n"
        b"F\t" + b"p" * 41 + b"\t1\t1\n"
        b"F\t\t1\t1\n"
        b"F\tP\t1\t1\n"
        b"F\tp\t1\t1\n"
        b"F\tp\xff\x00\r\t1\t1\n"
        b"F\tp\xff\x00\r\t1\t1\n",
        b"1\tok\n2\tok\n3\t12\n4\t12\n5\tok\n6\tok\n7\tok\n8\t19\n",
    ),
    (
        "a line has at most 10,240 bytes",
        b"S\t1\n"
        b"F\t" + b"p" * 10_234 + b"\t1\t1\n"
        b"F\t" + b"p" * 10_235 + b"\t1\t1\n"
        b"F\tp\t" + b"0" * 10_234 + b"1\t1\n"
        b"F\tp\t" + b"0" * 10_233 + b"1\t1\n",
        b"1\tok\n2\t12\n3\t27\n4\t27\n5\tok\n",
    ),
    (
        "a repeated name in a full list is 19, a new one 20",
        b"S\t1\n"
        b"A\t0\t" + KEY_1 + b"\nA\t1\t" + KEY_1 + b"\nA\t2\t" + KEY_1 + b"\nA\t3\t" + KEY_1 + b"\n"
        b"A\t4\t" + KEY_1 + b"\nA\t5\t" + KEY_1 + b"\nA\t6\t" + KEY_1 + b"\nA\t7\t" + KEY_1 + b"\n"
        b"A\t8\t" + KEY_1 + b"\nA\t9\t" + KEY_1 + b"\nA\t10\t" + KEY_1 + b"\nA\t11\t" + KEY_1 + b"\n"
        b"A\t12\t" + KEY_1 + b"\nA\t13\t" + KEY_1 + b"\nA\t14\t" + KEY_1 + b"\nA\t15\t" + KEY_1 + b"\n"
        b"A\t16\t" + KEY_1 + b"\nA\t15\t" + KEY_1 + b"\nA\t16\t" + KEY_1 + b"\n",
        b"1\tok\n2\tok\n3\tok\n4\tok\n5\tok\n6\tok\n7\tok\n8\tok\n9\tok\n10\tok\n11\tok\n12\tok\n13\tok\n14\tok\n"
        b"15\tok\n16\tok\n17\tok\n18\t20\n19\t19\n20\t20\n",
    ),
    (
        "a letter is exactly one byte, one of those that exist",
        b"S\t1\na\t1\t" + KEY_1 + b"\nAA\t1\t" + KEY_1 + b"\nB\t1\t" + KEY_1 + b"\n\t1\t" + KEY_1 + b"\n\n",
        b"1\tok\n2\t27\n3\t27\n4\t27\n5\t27\n6\t27\n",
    ),
]


def selftest() -> int:
    failures = 0
    for name, data, expected in SELFTEST_CASES:
        output = answer_file(data)
        if output != expected:
            failures += 1
            print(f"FAILED: {name}\n  expected {expected!r}\n  got      {output!r}")
    print(f"{len(SELFTEST_CASES)} cases, {failures} failed")
    return 1 if failures else 0


def main(arguments: List[str]) -> int:
    if arguments == ["--selftest"]:
        return selftest()
    if arguments:
        print("usage: model.py [--selftest] < COMMAND_FILE", file=sys.stderr)
        return 2
    sys.stdout.buffer.write(answer_file(sys.stdin.buffer.read()))
    return 0


if __name__ == "__main__":
    sys.exit(main(sys.argv[1:]))
