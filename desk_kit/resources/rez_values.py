"""The values that a resource of Rez text holds between its braces, before a template says what they are."""

from __future__ import annotations

from typing import NamedTuple

from desk_kit.answers import Fault
from desk_kit.resources.rez_words import Word, line_of

# How deep braces may stand in braces. The templates have three.
DEEPEST = 8
PARTS = (",", ";")


class Value(NamedTuple):
    """A value: a number, a string, a name, values in braces, or a case, which is a name before values in braces."""

    kind: str
    # A number, bytes, a name, or the values in braces.
    value: object
    at: int
    # The name of a case.
    name: str = ""


class Parser:
    """Words of Rez, read one after the other."""

    def __init__(self, text: str, words: list[Word]) -> None:
        self.text = text
        self.words = words
        self.place = 0
        # How many parentheses are open.
        self.depth = 0
        # What each name of a #define stands for.
        self.defined: dict[str, Value] = {}

    @property
    def word(self) -> Word:
        """The word that is next."""
        return self.words[self.place]

    def fault(self, at: int, why: str) -> Fault:
        """What is wrong at this place."""
        return Fault(f"line {line_of(self.text, at)}: {why}")

    def take(self) -> Word:
        """The next word, which is gone past."""
        self.place += 1
        return self.words[self.place - 1]

    def sign(self, wanted: str) -> bool:
        """Whether the next word is this sign, which is gone past then."""
        is_there = self.word.kind == "sign" and self.word.value == wanted
        self.place += is_there
        return is_there

    def need(self, wanted: str) -> None:
        """Goes past this sign, which has to be next."""
        if not self.sign(wanted):
            raise self.fault(self.word.at, f"{shown(self.word)} stands where '{wanted}' has to be")

    def values(self, depth: int = 1) -> list[Value]:
        """The values up to a closing brace, which is gone past. A comma or a semicolon stands behind each but the last."""
        if depth > DEEPEST:
            raise self.fault(self.word.at, f"braces stand more than {DEEPEST} deep")
        found: list[Value] = []
        while not self.sign("}"):
            found.append(self.value(depth))
            if not any([self.sign(it) for it in PARTS]):
                self.need("}")
                break
        return found

    def value(self, depth: int) -> Value:
        """The next value."""
        at, kind = self.word.at, self.word.kind
        if self.sign("{"):
            return Value("list", self.values(depth + 1), at)
        if kind == "string":
            return Value("string", self.string(), at)
        if kind == "name" and self.word.value not in self.defined:
            name = str(self.take().value)
            return Value("case", self.values(depth + 1), at, name) if self.sign("{") else Value("name", name, at)
        if kind == "name" and self.defined[str(self.word.value)].kind == "string":
            return self.defined[str(self.take().value)]._replace(at=at)
        return Value("number", self.number(), at)

    def string(self) -> bytes:
        """Strings side by side, as one."""
        parts = []
        while self.word.kind == "string":
            parts.append(self.take().value)
        return b"".join(parts)

    def number(self) -> int:
        """Numbers with signs between them: a sum, a difference, or the bits of both."""
        found = self.term()
        while self.word.kind == "sign" and self.word.value in ("+", "-", "|"):
            sign = self.take().value
            term = self.term()
            found = found | term if sign == "|" else found + term if sign == "+" else found - term
        return found

    def term(self) -> int:
        """One number, perhaps below 0. Characters in single quotes are one too."""
        negative = self.sign("-")
        if self.sign("("):
            return -self.inner() if negative else self.inner()
        word = self.take() if self.word.kind != "end" else self.word
        if word.kind == "name" and word.value in self.defined and self.defined[str(word.value)].kind == "number":
            found = self.defined[str(word.value)].value
        elif word.kind == "number":
            found = word.value
        elif word.kind == "type":
            found = int.from_bytes(str(word.value).encode("latin-1"), "big")
        else:
            raise self.fault(word.at, f"{shown(word)} stands where a value has to be")
        return -found if negative else found

    def inner(self) -> int:
        """The number up to a closing parenthesis, which is gone past."""
        self.depth += 1
        if self.depth > DEEPEST:
            raise self.fault(self.word.at, f"parentheses stand more than {DEEPEST} deep")
        found = self.number()
        self.need(")")
        self.depth -= 1
        return found

    def skip_braces(self) -> None:
        """Goes past everything up to the closing brace that belongs to the opening one before."""
        depth = 1
        while depth:
            word = self.take() if self.word.kind != "end" else self.word
            if word.kind == "end":
                raise self.fault(word.at, "the text ends before a closing brace")
            depth += {"{": 1, "}": -1}.get(word.value, 0) if word.kind == "sign" else 0


def shown(word: Word) -> str:
    """A word as a sentence names it."""
    if word.kind == "end":
        return "the end of the text"
    return "a string" if word.kind == "string" else f"'{word.value}'"[:60]
