"""Reads captures and EAN-13 rows by the C library: python3 capture.py [LIBRARY]

LIBRARY is the shared library, which `make install-shared` puts into PREFIX/lib. Without it that of
the environment variable SLATMONIEF_LIBRARY is taken, or else what the system finds.
include/slatmonief.h says what each call does. Threads may call at once, each with its own buffers.
"""
import ctypes.util
import os
import sys

MOST_CELLS, MOST_SYMBOLS, MOST_SCANNED = 44024, 4000, 7998  # buffers that are never too short
EAN13_CELLS, EAN13_DIGITS = 95, 13
WORDS = {  # the refusals of unpack, read, scan and the two for EAN-13, as slatmonief_words has them
    5: "the buffer is too short",
    10: "no Code 128 row or symbol list has this length",
    11: "a cell is neither 0 nor 1",
    12: "a block is none of the 106 patterns and has an even number of bar cells: print again",
    13: "a number stands where it may not",
    14: "the check is wrong",
    15: "a cell is not the stop's",
    16: "a block is none of the 106 patterns and has an odd number of bar cells, as one worn cell "
    "can leave it: photograph again",
    20: "the record has no head",
    21: "the record's version is neither 1 nor 2",
    22: "the record's count is missing, none of its version, or not that of its length",
    23: "a spare bit is set in the last byte",
    30: "no text of the symbology has this length",
    31: "a byte of the text is no ASCII digit",
    32: "the check digit is wrong",
    33: "the cells are no row of the symbology",
}


class Answer(ctypes.Structure):
    """Number is 0 or that of a refusal; what second is depends on it."""
    _fields_ = [("number", ctypes.c_uint32), ("second", ctypes.c_size_t)]


def load(path):
    """The library, its functions declared: pointer and length of the input, and of the buffer."""
    library = ctypes.CDLL(path)
    for name in ("draw", "ean13_read", "ean13_write", "encode", "pack", "read", "scan", "spell",
                 "unpack"):
        function = getattr(library, "slatmonief_" + name)
        function.argtypes = [ctypes.c_void_p, ctypes.c_size_t] * 2
        function.restype = Answer
    return library


def call(function, data, length, room):
    """What an accepted call leaves in a buffer with this room, and its second number."""
    buffer = ctypes.create_string_buffer(room)
    answer = function(data, length, buffer, room)
    if answer.number != 0:
        job = function.__name__.replace("slatmonief_", "")
        words = WORDS[answer.number]
        raise ValueError(f"{job} refused by {answer.number}, {answer.second}: {words}")
    return buffer.raw, answer.second


def read(library, capture):
    """The number of symbols of a capture, and the text that a scanner sends."""
    row, cells = call(library.slatmonief_unpack, capture, len(capture or b""), MOST_CELLS)
    symbols, n = call(library.slatmonief_read, row, cells, MOST_SYMBOLS)
    sent, count = call(library.slatmonief_scan, symbols, n, MOST_SCANNED)
    return n, sent[:count].decode("ascii")


def ean13_row(library, number):
    """The row of an EAN-13 number, which is given as bytes, with its check digit or without."""
    row, cells = call(library.slatmonief_ean13_write, number, len(number), EAN13_CELLS)
    return row[:cells]


def ean13_number(library, row):
    """The EAN-13 number of a row, with its check digit."""
    digits, count = call(library.slatmonief_ean13_read, row, len(row), EAN13_DIGITS)
    return digits[:count].decode("ascii")


def main():
    path = sys.argv[1] if sys.argv[1:] else os.environ.get("SLATMONIEF_LIBRARY")
    path = path or ctypes.util.find_library("slatmonief")
    library = load(path or sys.exit("capture.py: no library"))
    record = bytes.fromhex("0107d21463115d8bbd6722c794c758")
    worn = record[:4] + bytes([record[4] ^ 0x10]) + record[5:]
    for name, capture in [("as packed", record), ("empty", b""), ("none", None),
                          ("declares 65,535 symbols", b"\2\xFF\xFF"), ("one cell flipped", worn)]:
        try:
            n, text = read(library, capture)
            print(f'{name}: {n} symbols, a scanner sends "{text}"')
        except ValueError as refusal:
            print(f"{name}: {refusal}")
    for name, number in [("a good", b"400638133393"), ("two digits exchanged", b"4006381333391")]:
        try:
            row = ean13_row(library, number)
            print(f"{name}: {len(row)} cells, read as {ean13_number(library, row)}")
        except ValueError as refusal:
            print(f"{name}: {refusal}")


if __name__ == "__main__":
    main()
