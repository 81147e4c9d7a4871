"""What ./desk --trace does: runs a script line by line, and shows each line with its number, its text and its answer beside it.
Of an image the size is shown, and of a line that is refused for its form, its names or its length what is wrong with it.

The status is 0 at the end of the script; 1 where a file or the program is at fault, and with --bail where a line is refused;
2 for wrong words; and else as desk_kit/ends.py has it.
"""

import sys

from desk_kit.answers import Command, is_command
from desk_kit.called import Parser
from desk_kit.driven import Driven, sides_of
from desk_kit.ends import AT_FAULT, give_up, say
from desk_kit.forms import forms_if_any
from desk_kit.lint import OF_FORM, advice, name_of

TOOL = "desk"
USAGE = "desk --trace [--bail] [--font FILE] [SCRIPT]"
# How long an answer may take: as long as the largest desk needs on a slow machine, and a pause of the user.
SECONDS = 24 * 3600.0
HEAD = b"P1\n"


def words():
    """The words of the command line."""
    parser = Parser(TOOL, USAGE, __doc__)
    parser.add_argument("--trace", action="store_true")
    parser.add_argument("--bail", action="store_true")
    parser.add_argument("--font")
    parser.add_argument("script", metavar="SCRIPT", nargs="?")
    return parser.parse_args()


def shown(line):
    """A line's text as it is shown: what is no character that prints stands there as its number."""
    text = line.decode("utf-8", "backslashreplace")
    return "".join(it if it.isprintable() else it.encode("unicode_escape").decode() for it in text)


class Trace:
    """What is shown of a script, over a desk that is driven."""

    def __init__(self, desk):
        self.desk = desk
        # the first command of the script
        self.first = None
        self.is_refused = False

    def line(self, number, line):
        """What is shown of the line of this number, bytes without a newline."""
        text = line.removesuffix(b"\r")
        beside = f"{number}  {shown(text)}"
        if not is_command(text):
            self.desk.ask(line)
            return beside.rstrip()
        command = Command(number, text)
        self.first = self.first or command
        return f"{beside}  -> {self.answer(command, self.desk.ask(line))}"

    def answer(self, command, answer):
        """What is shown of the answer to a command."""
        if answer.startswith(HEAD):
            return "image {} by {}".format(*sides_of(answer.split(b"\n", 2)[1]))
        said = answer.decode("latin-1")
        self.is_refused = said.startswith("refused ")
        if not self.is_refused or name_of(said) not in OF_FORM:
            return said
        return said + advice(command, self.first, forms_if_any()).said()


def trace(desk, script, bails):
    """Shows the lines of a script, each once it is answered, and gives the status."""
    its = Trace(desk)
    for number, line in enumerate(script, 1):
        print(its.line(number, line.removesuffix(b"\n")), flush=True)
        if bails and its.is_refused:
            say(TOOL, f"line {number} is refused, and --bail ends here.")
            return AT_FAULT
    return 0


def opened(name):
    """The script of this name, or standard input."""
    if name is None:
        return sys.stdin.buffer
    try:
        return open(name, "rb")
    except OSError as error:
        give_up(TOOL, AT_FAULT, f"{name} cannot be read: {error.strerror}.")


def main():
    chosen = words()
    sys.stdout.reconfigure(encoding="utf-8")
    font = [] if chosen.font is None else [f"--font={chosen.font}"]
    with opened(chosen.script) as script, Driven([chosen.program, *font], SECONDS) as desk:
        sys.exit(trace(desk, script, chosen.bail))
