"""The library's calls, by its C functions."""
import ctypes

CALLS = ("draw", "ean13_read", "ean13_write", "encode", "read", "scan", "spell")
ROOM = 44024  # elements: enough for the answer of every call


class Answer(ctypes.Structure):
    """Number is 0 or that of a refusal; what second is depends on it."""
    _fields_ = [("number", ctypes.c_uint32), ("second", ctypes.c_size_t)]


class Refused(Exception):
    """A call was refused: the job, the number and the second number."""


class Library:
    """The calls, each with room enough; what is planted is wrong on purpose."""

    def __init__(self, path, plant=None):
        self.library = ctypes.CDLL(path)
        self.plant = plant
        for name in CALLS:
            function = getattr(self.library, "slatmonief_" + name)
            function.argtypes = [ctypes.c_void_p, ctypes.c_size_t] * 2
            function.restype = Answer
        self.bytes = ctypes.create_string_buffer(ROOM)
        self.points = (ctypes.c_uint32 * ROOM)()

    def call(self, name, data, buffer):
        """The second number of an accepted call, which leaves its answer in the buffer."""
        function = getattr(self.library, "slatmonief_" + name)
        answer = function(data, len(data), buffer, ROOM)
        if answer.number:
            raise Refused(f"{name} refused by {answer.number}, {answer.second}")
        return answer.second

    def bytes_of(self, name, data):
        """What an accepted call writes, where second is its length."""
        count = self.call(name, data, self.bytes)
        return ctypes.string_at(self.bytes, count)

    def row_of(self, name, data):
        """The row that encode or draw writes, where second is the number of symbols."""
        count = self.call(name, data, self.bytes)
        return spoiled(ctypes.string_at(self.bytes, 11 * (count + 1) + 13), self.plant)

    def draw(self, numbers):
        """The cells of the row of a list, each a byte 0 or 1."""
        return self.row_of("draw", bytes(numbers))

    def read(self, row):
        """The symbol list of a row."""
        return tuple(self.bytes_of("read", row))

    def scan(self, numbers):
        """The bytes that a scanner sends for a list."""
        sent = self.bytes_of("scan", bytes(numbers))
        return sent.replace(b"A", b"a") if self.plant == "scan" else sent

    def spell(self, numbers):
        """The code points of a list's text."""
        count = self.call("spell", bytes(numbers), self.points)
        return self.points[:count]

    def encode(self, points):
        """The row of a text, which is given as code points."""
        return self.row_of("encode", (ctypes.c_uint32 * len(points))(*points))

    def ean13_write(self, digits):
        """The row of an EAN-13 number, whose digits are given as bytes."""
        row = self.bytes_of("ean13_write", digits)
        return row[:3] + row[10:17] + row[3:10] + row[17:] if self.plant == "ean13" else row

    def ean13_read(self, row):
        """The digits of an EAN-13 row."""
        return self.bytes_of("ean13_read", row)


def block(widths):
    """The eleven cells of a pattern, from its widths."""
    return b"".join(bytes([1 - place % 2]) * int(width) for place, width in enumerate(widths))


def spoiled(row, plant):
    """The row with what is planted: two patterns exchanged, or the check drawn one too high."""
    if plant not in ("patterns", "check"):
        return row
    blocks = [row[place:place + 11] for place in range(0, len(row) - 13, 11)]
    if plant == "patterns":  # those of 10 and 11, wherever they stand
        pair = [block("221312"), block("231212")]
        blocks = [pair[1 - pair.index(each)] if each in pair else each for each in blocks]
    elif blocks[-1] == block("121322"):  # the check 4 becomes 5
        blocks[-1] = block("131222")
    return b"".join(blocks) + row[-13:]
