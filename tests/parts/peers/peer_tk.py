"""peer_tk.py WORD ROUNDS: a peer of text records, for text-peers: Tk's text widget, which wraps at words, is 66 bytes of 6
columns wide and 20 lines high, and holds 2,000 bytes. It does so many rounds of what WORD names, each with the drawing, and
says what it is on standard output.

  first   a key is typed into the first line, and taken back
  last    the same in the last line that is seen
  click   the mouse button goes down and up in the middle
  set     all of the text is replaced by 32,000 bytes
"""

import sys
import tkinter
from tkinter import font

sys.dont_write_bytecode = True
WIDTH, LINES, COLUMNS = 66, 20, 6
WORDS = "a text of words that are broken into lines where they come to the right side of it, "
BYTES, MOST = 2000, 32000
FAMILIES = ("fixed", "DejaVu Sans Mono", "Liberation Mono", "Courier", "TkFixedFont")
# The milliseconds between two clicks, so that no click is a double one.
APART = 5000


def found(root):
    """A font whose bytes are as wide as they are here."""
    for family in FAMILIES:
        for size in range(6, 15):
            it = font.Font(root, family=family, size=-size)
            if it.measure("x") == it.measure("W") == COLUMNS:
                return it
    sys.exit("peer_tk: here is no font whose bytes are 6 columns wide")


def text_of(length):
    return (WORDS * (length // len(WORDS) + 1))[:length]


def typed(text, place, rounds):
    for _ in range(rounds):
        text.insert(place, "x")
        text.update()
        text.delete(place)
        text.update()


def clicked(text, rounds):
    h, v = text.winfo_width() // 2, text.winfo_height() // 2
    for count in range(rounds):
        text.event_generate("<Button-1>", x=h, y=v, time=count * APART)
        text.event_generate("<ButtonRelease-1>", x=h, y=v, time=count * APART + 1)
        text.update()


def put(text, rounds):
    more = text_of(MOST)
    for _ in range(rounds):
        text.replace("1.0", "end", more)
        text.update()


def main():
    word, rounds = sys.argv[1], int(sys.argv[2])
    root = tkinter.Tk()
    its = found(root)
    text = tkinter.Text(root, width=WIDTH, height=LINES, wrap="word", font=its, insertofftime=0, undo=False)
    text.pack()
    text.insert("1.0", text_of(BYTES))
    root.update()
    last = text.index(f"@40,{text.winfo_height() - its.metrics('linespace') // 2}")
    does = {
        "first": lambda: typed(text, "1.30", rounds),
        "last": lambda: typed(text, last, rounds),
        "click": lambda: clicked(text, rounds),
        "set": lambda: put(text, rounds),
    }
    does[word]()
    # What is behind the last round in the server has an answer too.
    root.winfo_pointerxy()
    lines = text.count("1.0", "end", "displaylines")
    height = its.metrics("linespace")
    print(f"{word}: Tk {root.tk.call('info', 'patchlevel')}, {its.actual('family')} of {height} rows, {lines[0]} lines")


main()
