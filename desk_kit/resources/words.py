"""Bytes of resources as the words and the comments of a script. A resource's texts are in MacRoman."""

from __future__ import annotations

# What stands for a character of MacRoman that a text of a script cannot have, for those that have a likeness.
LIKE = {
    "\u2026": "...", "\u201c": "'", "\u201d": "'", "\u2018": "'", "\u2019": "'", "\u2013": "-", "\u2014": "-", "\u2022": "*",
    "\u00a0": " ", '"': "'",
}  # fmt: skip
OTHERS = "?"
LONGEST_TEXT = 255
# How many bytes a comment may have, less a few than a line.
LONGEST_COMMENT = 1000


def is_plain(data: bytes) -> bool:
    """Whether a text of a script can have these bytes."""
    return all(0x20 <= it <= 0x7E and it != 0x22 for it in data)


def plain(data: bytes) -> str:
    """The text that is nearest to these bytes of those that a script can have."""
    found = []
    for it in data.decode("mac_roman"):
        found.append(it if " " <= it <= "~" and it != '"' else LIKE.get(it, OTHERS))
    return "".join(found)[:LONGEST_TEXT]


def text_word(data: bytes) -> str:
    """A text of a script: these bytes, or what is nearest to them."""
    return f'"{plain(data)}"'


def bytes_word(data: bytes) -> str:
    """Bytes as version 3 takes them: a text, or where that cannot have them their digits."""
    return text_word(data) if is_plain(data) and len(data) <= LONGEST_TEXT else digits(data)


def digits(data: bytes) -> str:
    """Bytes in hexadecimal."""
    return data.hex().upper()


def readable(data: bytes) -> str:
    """The text of these bytes, for somebody who reads it: what does not print is its number in MacRoman."""
    return "".join(shown(it) for it in data.decode("mac_roman"))


def shown(character: str) -> str:
    """A character, or its number where it does not print."""
    if character.isprintable():
        return character
    return "".join(f"\\x{it:02X}" for it in character.encode("mac_roman"))


def quoted(data: bytes) -> str:
    """The text of these bytes in quotes, for a comment."""
    return f'"{readable(data)}"'


def comment(text: str) -> str:
    """A line that is a comment. It is cut where a script would refuse it for its length."""
    line = f"# {text}" if text else "#"
    if len(line.encode("utf-8")) <= LONGEST_COMMENT:
        return line
    return line.encode("utf-8")[:LONGEST_COMMENT].decode("utf-8", "ignore") + " ..."
