"""EAN-13: rows that zint draws held to the library's, and the library's read by the readers."""
from collections import Counter

from library import Refused
from zint import ask

ALL = {(place, digit) for place in range(13) for digit in b"0123456789"}


def numbers_of(random, count):
    """Random numbers without their check digit, each first digit as often as the others."""
    return [b"%d%011d" % (place % 10, random.randrange(10 ** 11)) for place in range(count)]


class Ean13:
    """What was compared, program by program."""

    def __init__(self, library, folder, readers):
        self.library, self.folder, self.readers = library, folder, readers
        self.tallies, self.faults, self.seen = {}, [], {}

    def alike(self, name, digits, theirs, ours):
        """Counts one number, or says that the two are not alike."""
        if theirs != ours:
            words = theirs.hex() if isinstance(theirs, bytes) else theirs
            self.faults.append(f"{name}, EAN-13: {digits.decode()} gives {words}")
            return False
        self.tallies.setdefault(name, Counter()).update(["labels", "alike"])
        self.seen.setdefault(name, set()).update(enumerate(digits))
        return True

    def drawn(self, numbers):
        """Zint's rows, of twelve digits, to which it adds the check digit as the library does."""
        rows = ask(self.folder, numbers, ["-b", "13"])
        for number, row in zip(numbers, rows):
            try:
                digits = self.library.ean13_read(row) if isinstance(row, bytes) else b""
            except Refused:
                digits = b""
            good = digits[:12] == number and row == self.library.ean13_write(digits)
            if not self.alike("zint", digits or number, row, row if good else None):
                return

    def read(self, reader, numbers):
        """The readers' digits: all thirteen, the check digit as the library's read gives it."""
        rows = [self.library.ean13_write(number) for number in numbers]
        for number, row, found in zip(numbers, rows, reader.all(rows, "ean13")):
            try:
                digits = self.library.ean13_read(row)
            except Refused:
                digits = number
            wanted = [(digits, frozenset())] if digits[:12] == number else None
            if not self.alike(reader.name, digits, found, wanted):
                return

    def run(self, numbers):
        """All of EAN-13."""
        self.drawn(numbers)
        for reader in self.readers:
            self.read(reader, numbers)
        for name in ("zint", *(reader.name for reader in self.readers)):
            lost = sorted(ALL - self.seen.get(name, set()))
            if lost:
                self.faults.append(f"{name}, EAN-13: never met, place and digit {lost[:5]}")
