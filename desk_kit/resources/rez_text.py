"""The text of Rez and DeRez: `resource` by the templates of rez_templates, and `data` as bytes. Text that needs other files,
as `include` and `read`, is refused, and so is what the preprocessor decides."""

from __future__ import annotations

import re

from desk_kit.answers import Fault
from desk_kit.resources import binhex
from desk_kit.resources.fork import Resource, Resources, type_of
from desk_kit.resources.rez_templates import TEMPLATES, Fields
from desk_kit.resources.rez_values import Parser, Value
from desk_kit.resources.rez_words import Word, text_of, words_of

# What stands at the begin of a resource, and how far into a file a byte 0 says that it is no text.
BEGIN = re.compile(rb"\b(?:resource|data|type)[ \t\r\n]+'")
LOOKED_AT = 4096
DEFINE = re.compile(r"#[ \t]*define[ \t]+([A-Za-z_]\w*)[ \t]+(.*)")
# Lines of the preprocessor that change nothing of what is read here.
WITHOUT_EFFECT = re.compile(r"#[ \t]*(?:include|pragma|undef|define[ \t]+\w+[ \t]*$)")
OF_OTHER_FILES = ("include", "read", "change", "delete")
NO_TEMPLATE = "no template of this type is known here; DeRez writes it as data where it has none either"
LARGEST_ID, SMALLEST_ID = 32767, -32768


def is_rez(data: bytes) -> bool:
    """Whether these bytes are text of Rez."""
    return b"\0" not in data[:LOOKED_AT] and not binhex.begins_in(data) and BEGIN.search(data) is not None


def resources_of_text(data: bytes) -> Resources:
    """The resources of a text."""
    text = text_of(data)
    parser = Parser(text, words_of(text))
    found: list[Resource] = []
    while parser.word.kind != "end":
        word = parser.take()
        if word.kind == "directive":
            directive(parser, word)
        elif word.kind == "name" and word.value in ("resource", "data"):
            found.append(resource(parser, is_data=word.value == "data"))
        elif word.kind == "name" and word.value == "type":
            skip_type(parser)
        elif word.kind == "name" and word.value in OF_OTHER_FILES:
            raise parser.fault(word.at, f"'{word.value}' names another file, and none is read here")
        elif not (word.kind == "sign" and word.value == ";"):
            raise parser.fault(word.at, "here 'resource', 'data' or 'type' has to stand")
    return Resources(found)


def directive(parser: Parser, word: Word) -> None:
    """Takes a line of the preprocessor: what a name stands for, or nothing."""
    line = str(word.value).rstrip()
    found = DEFINE.match(line)
    if found:
        inner = Parser(parser.text, [*[it._replace(at=word.at) for it in words_of(found[2])]])
        inner.defined = parser.defined
        if inner.word.kind != "end":
            parser.defined[found[1]] = inner.value(1)
    elif not WITHOUT_EFFECT.match(line):
        raise parser.fault(word.at, f"'{line[:40]}' decides what is read, which is not done here")


def resource(parser: Parser, is_data: bool) -> Resource:
    """The resource behind the word 'resource' or 'data'."""
    at = parser.word.at
    kind = type_of(type_word(parser).encode("latin-1"))
    number, name = specification(parser)
    parser.need("{")
    if is_data:
        body = parser.string()
        parser.sign(";")
        parser.need("}")
        return Resource(kind, number, name, body)
    if kind not in TEMPLATES:
        parser.skip_braces()
        return Resource(kind, number, name, b"", NO_TEMPLATE)
    fields = Fields(parser.values(), f"'{kind}' {number}", parser.fault, at)
    body = TEMPLATES[kind](fields)
    fields.end()
    return Resource(kind, number, name, body)


def type_word(parser: Parser) -> str:
    """The next word, which has to be a type of four characters."""
    word = parser.take() if parser.word.kind != "end" else parser.word
    if word.kind != "type" or len(str(word.value)) != 4:
        raise parser.fault(word.at, "here a type of four characters in single quotes has to stand")
    return str(word.value)


def specification(parser: Parser) -> tuple[int, bytes]:
    """The number and the name of a resource, between parentheses. Attributes behind these change nothing here."""
    parser.need("(")
    at, number, name = parser.word.at, parser.number(), b""
    if not SMALLEST_ID <= number <= LARGEST_ID:
        raise parser.fault(at, f"the number {number} is no resource's: it lies outside {SMALLEST_ID}..{LARGEST_ID}")
    while parser.sign(","):
        value: Value = parser.value(1)
        if value.kind == "string":
            name = bytes(value.value)
            if len(name) > 255:
                raise parser.fault(value.at, f"a name of {len(name)} bytes is longer than 255")
    parser.need(")")
    return number, name


def skip_type(parser: Parser) -> None:
    """Goes past a template that the text has itself: the templates of this package are the standard ones."""
    type_word(parser)
    if parser.sign("("):
        parser.number()
        parser.need(")")
    if parser.word.kind == "name" and parser.word.value == "as":
        parser.take()
        type_word(parser)
    else:
        parser.need("{")
        parser.skip_braces()
