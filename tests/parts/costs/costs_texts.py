"""The scripts by which calls on text records are counted. A text of 2,000 bytes stands in a record that is 400 columns wide, in 31
lines of up to 66 bytes, of which 20 are seen; it is active, and its window lies in front of all others. Another script sets a
text of 32,000 bytes in such a record, at once."""

WIDTH, LINES, LINE_HEIGHT = 400, 20, 10
# The window in front, and the record in it.
LEFT = TOP = 10
WORDS = "a text of words that are broken into lines where they come to the right side of it, "
BYTES, MOST = 2000, 32000
# How many bytes go in at a time.
PART = 250


def parts_of(length):
    """So many bytes of words, in parts that a command takes."""
    text = (WORDS * (length // len(WORDS) + 1))[:length]
    return [text[at : at + PART] for at in range(0, length, PART)]


def record(window):
    """The command that makes such a record in this window."""
    place = f"{LEFT} {TOP} {WIDTH}"
    return f"text {window} {place} {place} {LINES * LINE_HEIGHT} 0 1"


def begun(desk, window):
    """The lines of a desk, and of a window with such a record in front of all others."""
    size = f"{WIDTH + 2 * LEFT} {LINES * LINE_HEIGHT + 2 * TOP}"
    return ["version 3", *desk, f'window plain 40 60 {size} 1 0 ""', f"update {window}", record(window), f"tactive {window} 1 1"]


def edited(desk, window, at):
    """The lines up to a text of 2,000 bytes, with the point at this offset."""
    first, *others = parts_of(BYTES)
    more = [line for part in others for line in (f'setscrap "{part}"', f"tpaste {window} 1")]
    return [*begun(desk, window), f'tset {window} 1 "{first}"', *more, f"tselect {window} 1 {at} {at}"]


def grown(desk, window):
    """The lines up to a scrap of 32,000 bytes, which was doubled in a hidden record, and a shown one that is empty."""
    lines = [*begun(desk, window), record(window), f"thide {window} 2", f'tset {window} 2 "{parts_of(PART)[0]}"']
    length = PART
    while length < MOST:
        lines += [f"tselect {window} 2 0 32767", f"tcopy {window} 2", f"tselect {window} 2 32767 32767", f"tpaste {window} 2"]
        length *= 2
    return [*lines, f"tselect {window} 2 0 32767", f"tcopy {window} 2", f"tdispose {window} 2"]


def rows(desk, window):
    """What is counted on a desk whose next window is this one: what it is, the lines before it, and the command."""
    middle, last = (f"{LEFT + WIDTH // 2} {TOP + line * LINE_HEIGHT + 5}" for line in (LINES // 2, LINES - 1))
    yield "a key in the first line, by `tkey`", edited(desk, window, 30), f"tkey {window} 1 120"
    yield "in the last line that is seen", edited(desk, window, 1250), f"tkey {window} 1 120"
    yield "Backspace in the first line", edited(desk, window, 30), f"tkey {window} 1 8"
    yield "an arrow to the right", edited(desk, window, 30), f"tkey {window} 1 29"
    yield "an arrow down", edited(desk, window, 30), f"tkey {window} 1 31"
    yield "`tclick` in the middle", edited(desk, window, 30), f"tclick {window} 1 {middle} 0"
    clicked = [*edited(desk, window, 30), f"tclick {window} 1 {middle} 0"]
    yield "`tstep` to the last line that is seen", clicked, f"tstep {last}"
    yield "`tend` there", clicked, f"tend {last}"
    yield "`tscroll` by a line", edited(desk, window, 30), f"tscroll {window} 1 0 -{LINE_HEIGHT}"
    yield "`tidle` that turns the caret", edited(desk, window, 30), f"tidle {window} 1 32"
    yield "`tpaste` of 32,000 bytes, of which 20 lines show", grown(desk, window), f"tpaste {window} 1"
