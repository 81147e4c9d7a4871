"""The words of Rez text. *Building and Managing Programs in MPW*, chapter "Rez and DeRez", has the language: names, numbers,
types in single quotes, strings with their escapes, strings of hexadecimal digits, signs, comments, and lines of the
preprocessor.
"""

from __future__ import annotations

import re
from typing import NamedTuple

from desk_kit.answers import Fault

WORD = re.compile(
    r"""(?P<blank>[ \t\r\n\f\v\xca]+|/\*.*?\*/|//[^\r\n]*)
    |(?P<directive>\#[^\r\n]*)
    |(?P<digits>\$"[^"]*")
    |(?P<string>"(?:[^"\\\r\n]|\\.)*")
    |(?P<type>'(?:[^'\\\r\n]|\\.)*')
    |(?P<number>0[xX][0-9A-Fa-f]+|\$[0-9A-Fa-f]+|0[bB][01]+|[0-9]+)
    |(?P<name>[A-Za-z_][A-Za-z0-9_]*)
    |(?P<sign>[{}(),;:=|+-])""",
    re.DOTALL | re.VERBOSE,
)
END_OF_LINE = re.compile(r"\r\n|\r|\n")
ESCAPE = re.compile(r"\\(?:0[xX]([0-9A-Fa-f]{2})|\$([0-9A-Fa-f]{2})|0[dD]([0-9]{3})|0[bB]([01]{8})|([0-7]{3})|(.))", re.DOTALL)
BASES = (16, 16, 10, 2, 8)
# What a letter behind a backslash stands for. In Rez a newline is the Macintosh's return.
LETTERS = {"t": 9, "b": 8, "r": 10, "n": 13, "f": 12, "v": 11, "?": 127}
LONGEST_NUMBER = 34
BLANKS_OF_DIGITS = dict.fromkeys(map(ord, " \t\r\n"))


class Word(NamedTuple):
    """A word of the text."""

    # What it is: name, number, string, type, sign, directive or end.
    kind: str
    # Its text; of a string its bytes.
    value: str | bytes | int
    # Where it begins in the text.
    at: int


def text_of(data: bytes) -> str:
    """The text of a file, with each byte of MacRoman as the character of that number. A file in UTF-8 is turned into that."""
    try:
        text = data.decode("utf-8")
    except UnicodeDecodeError:
        return data.decode("latin-1")
    try:
        return text.encode("mac_roman").decode("latin-1")
    except UnicodeEncodeError as fault:
        raise Fault(f"line {line_of(text, fault.start)}: MacRoman has no character {text[fault.start]!r}") from None


def line_of(text: str, at: int) -> int:
    """The number of the line, from 1, in which this place lies."""
    return 1 + sum(1 for _ in END_OF_LINE.finditer(text, 0, at))


def words_of(text: str) -> list[Word]:
    """All words of a text, and one for its end."""
    found, at = [], 0
    while at < len(text):
        match = WORD.match(text, at)
        if match is None:
            raise Fault(f"line {line_of(text, at)}: {text[at]!r} begins no word of Rez")
        if match.lastgroup != "blank":
            found.append(word_of(text, match))
        at = match.end()
    return [*found, Word("end", "the end", at)]


def word_of(text: str, match: re.Match) -> Word:
    """The word that was matched."""
    kind, word, at = match.lastgroup or "", match[0], match.start()
    if kind == "number":
        return Word(kind, number_of(text, word, at), at)
    if kind == "digits":
        return Word("string", bytes_of_digits(text, word[2:-1], at), at)
    if kind == "string":
        return Word(kind, unescaped(text, word[1:-1], at), at)
    if kind == "type":
        return Word(kind, unescaped(text, word[1:-1], at).decode("latin-1"), at)
    return Word(kind, word, at)


def number_of(text: str, word: str, at: int) -> int:
    """The number that a word is: hexadecimal behind 0x and $, binary behind 0b, else decimal."""
    if len(word) > LONGEST_NUMBER:
        raise Fault(f"line {line_of(text, at)}: the number {word[:LONGEST_NUMBER]}... is too long")
    if word[0] == "$":
        return int(word[1:], 16)
    return int(word, {"x": 16, "b": 2}.get(word[1:2].lower(), 10))


def bytes_of_digits(text: str, digits: str, at: int) -> bytes:
    """The bytes of hexadecimal digits, which blanks may part."""
    try:
        return bytes.fromhex(digits.translate(BLANKS_OF_DIGITS))
    except ValueError:
        raise Fault(f"line {line_of(text, at)}: the string has other than pairs of hexadecimal digits") from None


def unescaped(text: str, string: str, at: int) -> bytes:
    """The bytes of a string, with what its backslashes stand for."""

    def meant(match: re.Match) -> str:
        for digits, base in zip(match.groups(), BASES):
            if digits is not None:
                number = int(digits, base)
                if number > 255:
                    raise Fault(f"line {line_of(text, at)}: the escape {match[0]} is no byte")
                return chr(number)
        return chr(LETTERS[match[6]]) if match[6] in LETTERS else match[6]

    return ESCAPE.sub(meant, string).encode("latin-1")
