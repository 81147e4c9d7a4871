"""How peers are counted: the instructions of many rounds less those of few, by the number of rounds between, as valgrind counts
them. So what a program does once is left out."""

import os
import subprocess
import sys

from costs_counted import COUNTED, collected

SERVER = ["-screen", "0", "{screen}", "-nolisten", "tcp", "-terminate"]


def run(words, **more):
    """What a call says that has to end well."""
    return subprocess.run(words, capture_output=True, check=True, **more)


def tell(said):
    """Tells what a peer says of itself."""
    print(said.decode().strip(), file=sys.stderr)


def of_program(words, is_told=False, **more):
    """The instructions of a program that is called with these words."""
    ran = run([*COUNTED, *words], **more)
    if is_told:
        tell(ran.stdout)
    return collected(ran.stderr)


class Server:
    """An X server of its own for as long as a block goes on, which ends with its last client's end. It is begun by these words,
    as to count it."""

    def __init__(self, *begins, screen="64x64x24"):
        reading, writing = os.pipe()
        words = [*begins, "Xvfb", "-displayfd", str(writing), *(it.format(screen=screen) for it in SERVER)]
        self.ran = subprocess.Popen(words, pass_fds=[writing], stderr=subprocess.PIPE, stdout=subprocess.DEVNULL)
        os.close(writing)
        with os.fdopen(reading) as display:
            self.environment = {**os.environ, "DISPLAY": f":{display.readline().strip()}"}

    def __enter__(self):
        return self

    def __exit__(self, *_):
        self.said = self.ran.communicate()[1]


def of_server(words, is_told=False, **more):
    """The instructions of a server whose only client is called with these words."""
    with Server(*COUNTED, **more) as server:
        ran = run(words, env=server.environment)
    if is_told:
        tell(ran.stdout)
    return collected(server.said)


def a_round(count, few, many):
    """The instructions of a round, by a count of few rounds and one of many."""
    return (count(many) - count(few)) / (many - few)
