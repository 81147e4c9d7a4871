"""BinHex 4.0: a file as text. Yves Lempereur's definition, "BinHex 4.0 Definition" by Peter N Lewis (1991), has the form: a
line that says so, in one wording or another, and between two colons characters of six bits each, with runs of a byte behind
0x90. In that stand the name, the head, the data fork and the resource fork, each of the last three with a sum of 16 bits
(CRC-CCITT)."""

from __future__ import annotations

import base64
import binascii

from desk_kit.answers import Fault
from desk_kit.resources.cursor import Cursor

BEGIN = b"(This file must be converted"
# How far into a file that line may begin.
LATEST_BEGIN = 8192
LETTERS = b"!\"#$%&'()*+,-012345689@ABCDEFGHIJKLMNPQRSTUVXYZ[`abcdefhijklmpqr"
BASE_64 = b"ABCDEFGHIJKLMNOPQRSTUVWXYZabcdefghijklmnopqrstuvwxyz0123456789+/"
TO_BASE_64 = bytes.maketrans(LETTERS, BASE_64)
BLANKS = b" \t\r\n"
RUN = 0x90
# How many bytes may come of runs: a resource fork has no offset beyond 16 MB, and the rest is for the data fork.
MOST_BYTES = 1 << 26


def begins_in(data: bytes) -> bool:
    """Whether these bytes are BinHex."""
    return BEGIN in data[: LATEST_BEGIN + len(BEGIN)]


def resource_fork(data: bytes) -> bytes:
    """The resource fork of a file in BinHex."""
    found = Cursor(unpacked(bytes_between_colons(data)), "what BinHex holds")
    name = found.pascal("the file's name")
    _, _, _, _, data_size, fork_size = found.numbers("B4s4sHII", "the head")
    judge(found.data[: found.at], found, "the head")
    judge(found.take(data_size, "the data fork"), found, "the data fork")
    fork = found.take(fork_size, "the resource fork")
    judge(fork, found, "the resource fork")
    if not name:
        raise Fault("what BinHex holds has no name")
    return fork


def judge(part: bytes, found: Cursor, what: str) -> None:
    """A Fault where the sum that stands behind a part is not that part's."""
    due = found.number("H", f"the sum of {what}")
    if binascii.crc_hqx(part, 0) != due:
        raise Fault(f"{what} that BinHex holds is damaged: the sum at byte {found.at - 2} is not that of its bytes")


def bytes_between_colons(data: bytes) -> bytes:
    """The bytes that the characters between the two colons stand for."""
    at = data.find(b":", data.index(BEGIN))
    end = data.find(b":", at + 1)
    if at < 0 or end < 0:
        raise Fault(f"BinHex has {'one colon' if at >= 0 else 'no colon'}, and its characters stand between two")
    letters = data[at + 1 : end].translate(None, BLANKS)
    strange = letters.translate(None, LETTERS)
    if strange:
        raise Fault(f"BinHex has the byte {strange[0]:02X} among its characters, at byte {data.index(strange[:1], at + 1)}")
    # (one character more than whole bytes have holds no byte)
    whole = letters[: len(letters) - (len(letters) % 4 == 1)].translate(TO_BASE_64)
    return base64.b64decode(whole + b"=" * (-len(whole) % 4))


def unpacked(data: bytes) -> bytes:
    """The bytes with their runs: 0x90 and a count stand for the byte before, so often in all; 0x90 and 0 for 0x90 itself."""
    found, at = bytearray(), 0
    while (run := data.find(RUN, at)) >= 0:
        found += data[at:run]
        at = run + 2
        if at > len(data):
            raise Fault(f"BinHex ends within a run, at byte {run} of its {len(data)}")
        count = data[run + 1]
        if count and not found:
            raise Fault("BinHex begins with a run, and there is no byte before that")
        found += found[-1:] * (count - 1) if count else bytes([RUN])
        if len(found) > MOST_BYTES:
            raise Fault(f"BinHex holds more than {MOST_BYTES} bytes")
    return bytes(found + data[at:])
