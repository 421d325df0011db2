"""Rows as pictures. The quiet zones are this program's own: the library's rows have none."""
import os

QUIET = 12  # cells on each side; Code 128 wants 10, and EAN-13 wants 11 on the left
PIXELS = 2  # to a cell: at one to a cell ZBar loses some rows
HEIGHT = 20
SHADES = b"\xff\0" + bytes(254)  # a space is white and a bar black


def picture(row):
    """A grey picture (PGM), the plainest format that both readers take: ZXing takes no PBM."""
    shades = (bytes(QUIET) + row + bytes(QUIET)).translate(SHADES)
    line = bytearray(PIXELS * len(shades))
    for place in range(PIXELS):
        line[place::PIXELS] = shades
    return b"P5\n%d %d\n255\n" % (len(line), HEIGHT) + line * HEIGHT


def write_all(folder, rows):
    """The paths of the pictures of these rows, in their order."""
    paths = [os.path.join(folder, f"{place:05}.pgm") for place in range(len(rows))]
    for path, row in zip(paths, rows):
        with open(path, "wb") as file:
            file.write(picture(row))
    return paths
