"""Writes the vectors that the program `vectors` is run on, and the results that it must print.

The results come from Python's hashlib and hmac and from the ChaCha20 below, never from the box. Where a standard prints a
result, this script also asks that Python agrees with the print.

    python3 tools/make_vectors.py        writes crates/vectors/stdin and crates/vectors/stdout

A line of stdin has a name and its arguments, parted by tabs. Bytes are in hexadecimal. A message is given by a pattern and
a length: the pattern over and over, cut at the length.

    sha256 PATTERN LENGTH                   blake2s PATTERN LENGTH (without a key)
    hmac-sha256 KEY PATTERN LENGTH          keyed-blake2s KEY PATTERN LENGTH
    chacha20-block KEY COUNTER NONCE
    chacha20-cipher, hmac-sha256-cipher, keyed-blake2s-cipher KEY PLAIN: encrypted, a tab, decrypted again

The line of stdout is the result, or 18 where the message is over the code's limit of 1,024 bytes.
"""

import hashlib
import hmac
import random
import struct
from pathlib import Path
from typing import Callable, List, Tuple

CRATE = Path(__file__).resolve().parent.parent / "crates" / "vectors"
LIMIT = 1024
TOO_LONG = "18"


# ChaCha20, from RFC 8439.


def rotated(word: int, bits: int) -> int:
    return ((word << bits) | (word >> (32 - bits))) & 0xFFFFFFFF


def quarter_round(state: List[int], a: int, b: int, c: int, d: int) -> None:
    for sum_at, added, turned, bits in ((a, b, d, 16), (c, d, b, 12), (a, b, d, 8), (c, d, b, 7)):
        state[sum_at] = (state[sum_at] + state[added]) & 0xFFFFFFFF
        state[turned] = rotated(state[turned] ^ state[sum_at], bits)


def chacha20_block(key: bytes, counter: int, nonce: bytes) -> bytes:
    start = list(struct.unpack("<16I", b"expand 32-byte k" + key + struct.pack("<I", counter) + nonce))
    state = start[:]
    for _ in range(10):
        for column in range(4):
            quarter_round(state, column, column + 4, column + 8, column + 12)
        for column in range(4):
            quarter_round(state, column, 4 + (column + 1) % 4, 8 + (column + 2) % 4, 12 + (column + 3) % 4)
    return struct.pack("<16I", *((x + y) & 0xFFFFFFFF for x, y in zip(state, start)))


# The functions of the box, by other implementations.


def sha256(message: bytes) -> bytes:
    return hashlib.sha256(message).digest()


def blake2s(message: bytes) -> bytes:
    return hashlib.blake2s(message).digest()


def hmac_sha256(key: bytes, message: bytes) -> bytes:
    return hmac.new(key, message, hashlib.sha256).digest()


def keyed_blake2s(key: bytes, message: bytes) -> bytes:
    return hashlib.blake2s(message, key=key).digest()


HASHES = {"sha256": sha256, "blake2s": blake2s}
CODES = {"hmac-sha256": hmac_sha256, "keyed-blake2s": keyed_blake2s}
STREAMS = {
    "chacha20-cipher": lambda key: chacha20_block(key, 0, bytes(12))[:32],
    "hmac-sha256-cipher": lambda key: hmac_sha256(key, b"\x07"),
    "keyed-blake2s-cipher": lambda key: keyed_blake2s(key, b"\x07"),
}


def message_of(pattern: bytes, length: int) -> bytes:
    return (pattern * (length // max(len(pattern), 1) + 1))[:length]


# Lines: what is asked, and the result.

Line = Tuple[str, str]


def hashed(name: str, pattern: bytes, length: int) -> Line:
    return f"{name}\t{pattern.hex()}\t{length}", HASHES[name](message_of(pattern, length)).hex()


def tagged(name: str, key: bytes, pattern: bytes, length: int) -> Line:
    message = message_of(pattern, length)
    result = CODES[name](key, message).hex() if length <= LIMIT else TOO_LONG
    return f"{name}\t{key.hex()}\t{pattern.hex()}\t{length}", result


def block(key: bytes, counter: int, nonce: bytes) -> Line:
    return f"chacha20-block\t{key.hex()}\t{counter}\t{nonce.hex()}", chacha20_block(key, counter, nonce).hex()


def ciphered(name: str, key: bytes, plain: bytes) -> Line:
    hidden = bytes(x ^ y for x, y in zip(plain, STREAMS[name](key)))
    return f"{name}\t{key.hex()}\t{plain.hex()}", f"{hidden.hex()}\t{plain.hex()}"


def printed(line: Line, result: str) -> Line:
    """The line, whose result a standard prints so."""
    assert line[1].startswith(result.replace(" ", "").lower()), line[0]
    return line


def whole(function: Callable[..., Line], *arguments) -> Line:
    """The line of a message that is its own pattern."""
    return function(*arguments, len(arguments[-1]))


def padded(key: bytes) -> bytes:
    """A shorter key, filled up with zeros as HMAC itself fills it up."""
    return key + bytes(32 - len(key))


def published() -> List[Line]:
    counting = bytes(range(32))
    one = bytes(31) + b"\x01"
    lines = [
        # FIPS 180-4: the examples with its algorithms.
        printed(whole(hashed, "sha256", b"abc"), "ba7816bf 8f01cfea 414140de 5dae2223 b00361a3 96177a9c b410ff61 f20015ad"),
        printed(
            whole(hashed, "sha256", b"abcdbcdecdefdefgefghfghighijhijkijkljklmklmnlmnomnopnopq"),
            "248d6a61 d20638b8 e5c02693 0c3e6039 a33ce459 64ff2167 f6ecedd4 19db06c1",
        ),
        printed(hashed("sha256", b"a", 1_000_000), "cdc76e5c 9914fb92 81a1c7e2 84d73e67 f1809a48 a497200e 046d39cc c7112cd0"),
        # RFC 4231: the cases with a key of at most 32 bytes. The fifth prints the first half.
        printed(
            whole(tagged, "hmac-sha256", padded(b"\x0b" * 20), b"Hi There"),
            "b0344c61d8db38535ca8afceaf0bf12b881dc200c9833da726e9376c2e32cff7",
        ),
        printed(
            whole(tagged, "hmac-sha256", padded(b"Jefe"), b"what do ya want for nothing?"),
            "5bdcc146bf60754e6a042426089575c75a003f089d2739839dec58b964ec3843",
        ),
        printed(
            tagged("hmac-sha256", padded(b"\xaa" * 20), b"\xdd", 50),
            "773ea91e36800e46854db8ebd09181a72959098b3ef8c122d9635514ced565fe",
        ),
        printed(
            tagged("hmac-sha256", padded(bytes(range(1, 26))), b"\xcd", 50),
            "82558a389a443c0ea4cc819899f2083a85f0faa3e578f8077a2e3ff46729665b",
        ),
        printed(whole(tagged, "hmac-sha256", padded(b"\x0c" * 20), b"Test With Truncation"), "a3b6167473100ee06e0c796c2955552b"),
        # RFC 7693, appendix B, and the reference's keyed results: the bytes 0 to n - 1 under the key 00 to 1f.
        printed(
            whole(hashed, "blake2s", b"abc"),
            "508C5E8C 327C14E2 E1A72BA3 4EEB452F 37458B20 9ED63A29 4D999B4C 86675982",
        ),
        printed(
            whole(tagged, "keyed-blake2s", counting, b""),
            "48a8997da407876b3d79c0d92325ad3b89cbb754d86ab71aee047ad345fd2c49",
        ),
        printed(
            whole(tagged, "keyed-blake2s", counting, b"\x00"),
            "40d15fee7c328830166ac3f918650f807e7e01e177258cdc0a39b11f598066f1",
        ),
        printed(
            whole(tagged, "keyed-blake2s", counting, bytes(range(255))),
            "3fb735061abc519dfe979e54c1ee5bfad0a9d858b3315bad34bde999efd724dd",
        ),
        # RFC 8439: section 2.3.2, and appendix A.1.
        printed(
            block(counting, 1, bytes.fromhex("000000090000004a00000000")),
            "10f1e7e4d13b5915500fdd1fa32071c4c7d1f4c733c068030422aa9ac3d46c4e"
            "d2826446079faa0914c2d705d98b02a2b5129cd1de164eb9cbd083e8a2503c4e",
        ),
        printed(
            block(bytes(32), 0, bytes(12)),
            "76b8e0ada0f13d90405d6ae55386bd28bdd219b8a08ded1aa836efcc8b770dc7"
            "da41597c5157488d7724e03fb8d84a376a43b8f41518a11cc387b669b2ee6586",
        ),
        printed(
            block(bytes(32), 1, bytes(12)),
            "9f07e7be5551387a98ba977c732d080dcb0f29a048e3656912c6533e32ee7aed"
            "29b721769ce64e43d57133b074d839d531ed1f28510afb45ace10a1f4b794d6f",
        ),
        printed(
            block(one, 1, bytes(12)),
            "3aeb5224ecf849929b9d828db1ced4dd832025e8018b8160b82284f3c949aa5a"
            "8eca00bbb4a73bdad192b5c42f73f2fd4e273644c8b36125a64addeb006c13a0",
        ),
        printed(
            block(b"\x00\xff" + bytes(30), 2, bytes(12)),
            "72d54dfbf12ec44b362692df94137f328fea8da73990265ec1bbbea1ae9af0ca"
            "13b25aa26cb4a648cb9b9d1be65b2c0924a66c54d545ec1b7374f4872e99f096",
        ),
        printed(
            block(bytes(32), 0, bytes(11) + b"\x02"),
            "c2c64d378cd536374ae204b9ef933fcd1a8b2288b3dfa49672ab765b54ee27c7"
            "8a970e0e955c14f3a88e741b97c286f75f8fc299e8148362fa198a39531bed6d",
        ),
        # The first 32 bytes of the first of these, as the cipher of 32 zeros.
        printed(
            ciphered("chacha20-cipher", bytes(32), bytes(32)),
            "76b8e0ada0f13d90405d6ae55386bd28bdd219b8a08ded1aa836efcc8b770dc7",
        ),
    ]
    lines += [whole(tagged, "keyed-blake2s", counting, bytes(range(length))) for length in range(2, 255)]
    return lines


def pseudo_random() -> List[Line]:
    """Every length up to the limit and one past it, under keys and patterns of their own."""
    source = random.Random(20_261_118)
    lines = []
    for name in CODES:
        for length in range(LIMIT + 2):
            lines.append(tagged(name, source.randbytes(32), source.randbytes(29), length))
    for name in HASHES:
        for length in [*range(260), 1000, 4095, 4096, 4097, 100_000]:
            lines.append(hashed(name, source.randbytes(29), length))
    for _ in range(200):
        lines.append(block(source.randbytes(32), source.randrange(2**32), source.randbytes(12)))
    for name in STREAMS:
        for _ in range(150):
            lines.append(ciphered(name, source.randbytes(32), source.randbytes(32)))
    return lines


def main() -> None:
    lines = published() + pseudo_random()
    (CRATE / "stdin").write_text("".join(f"{asked}\n" for asked, _ in lines))
    (CRATE / "stdout").write_text("".join(f"{result}\n" for _, result in lines))
    print(f"{len(lines)} vectors")


if __name__ == "__main__":
    main()
