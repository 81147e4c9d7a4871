"""Images for a terminal: each character has a pixel above another one. A row of an image is a text of 0 for white and 1 for
black."""

BLOCKS = {"00": " ", "10": "\u2580", "01": "\u2584", "11": "\u2588"}


def half_blocks(rows):
    """The lines of an image, two of its rows in each. Below a last row that stands alone it is white."""
    under = [*rows[1::2], "0" * len(rows[0])]
    pairs = zip(rows[::2], under)
    return ["".join(BLOCKS[above + below] for above, below in zip(*pair)) for pair in pairs]
