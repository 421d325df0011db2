"""The two readers, each run on many pictures at once. What one says of a picture is a list of what
it found there, each as its bytes and its marks; nothing found is an empty list."""
import base64
import os
import re
import subprocess

import pictures

MOST_PICTURES = 400  # to a run of a program
MOST_CELLS = 1000000  # in the pictures of one run, so that they take no more than some megabytes
LONG = 4000  # cells: ZXing looks at fewer lines of a longer row, or it would take most of the time


class Reader:
    """A reader, and the folder in which its pictures are made."""

    def __init__(self, folder):
        self.folder = folder

    def all(self, rows, kind):
        """What it finds in the picture of each row; kind is code128 or ean13."""
        found, batch, cells = [], [], 0
        for row in rows:
            change = batch and (len(row) > LONG) != (len(batch[0]) > LONG)
            if change or len(batch) == MOST_PICTURES or cells > MOST_CELLS:
                found += self.some(batch, kind)
                batch, cells = [], 0
            batch.append(row)
            cells += len(row)
        return found + (self.some(batch, kind) if batch else [])

    def some(self, rows, kind):
        """The same for one run of the program. A picture that it does not speak of is an error."""
        paths = pictures.write_all(self.folder, rows)
        done = subprocess.run(self.command(kind, len(rows[0]) > LONG) + paths, check=False,
                              stdout=subprocess.PIPE, stderr=subprocess.PIPE)
        said = self.parse(done.stdout, paths)
        missing = [path for path in paths if path not in said]
        if missing:
            words = done.stderr.decode("latin-1").strip()
            raise RuntimeError(f"{self.name} says nothing of {missing[0]}: {words}")
        for path in paths:
            os.remove(path)
        return [said[path] for path in paths]


class ZXing(Reader):
    """ZXingReader, which prints the bytes in hex."""
    name, program = "ZXing", "ZXingReader"

    def command(self, kind, long):
        """Its words before the pictures. -escape keeps a text on one line."""
        form = {"code128": "Code128", "ean13": "EAN-13"}[kind]
        fewer = ["-ispure"] if long else ["-norotate", "-noscale"]
        return [self.program, *fewer, "-escape", "-format", form]

    def parse(self, output, paths):
        """It names the file only where it was given more than one."""
        if len(paths) == 1:
            output = b"File:       " + paths[0].encode() + b"\n" + output
        said = {}
        for part in re.split(rb"^File: +", output, flags=re.M)[1:]:
            path, _, rest = part.partition(b"\n")
            found = said.setdefault(path.decode(), [])
            if re.search(rb"^Bytes:", rest, re.M):
                found.append(self.one(rest.decode("ascii").split("\n")))
            elif b"No barcode found" not in rest:
                raise RuntimeError(f"ZXing says {rest!r}")
        return said

    def one(self, lines):
        """Bytes and marks of one finding."""
        fields = dict(line.split(":", 1) for line in lines if ":" in line)
        marks = {"]C1": {"GS1"}, "]C2": {"AIM"}}.get(fields["Identifier"].strip(), set())
        if "Reader Initialisation/Programming" in lines:
            marks = marks | {"initialise"}
        return bytes.fromhex(fields["Bytes"]), frozenset(marks)


class ZBar(Reader):
    """zbarimg, whose XML has the bytes as they are, or in base64."""
    name, program = "ZBar", "zbarimg"

    def command(self, kind, _):
        """Its words before the pictures. Without --nodbus it looks for a bus and complains."""
        return [self.program, "--nodbus", "--quiet", "--xml", "-Sdisable", f"-S{kind}.enable"]

    def parse(self, output, _):
        """It is no XML for a parser: the bytes of a label are as they are."""
        said = {}
        for part in output.split(b"<source href='")[1:]:
            path, _, rest = part.partition(b"'>\n")
            said[path.decode()] = [self.one(*each) for each in re.findall(
                rb"<symbol ([^>]*)><data([^>]*)><!\[CDATA\[(.*?)\]\]></data></symbol>", rest, re.S)]
        return said

    def one(self, head, form, data):
        """Bytes and marks of one finding."""
        marks = re.search(rb"modifiers='([^']*)'", head)
        if b"base64" in form:
            data = base64.b64decode(data)
        return data, frozenset(marks.group(1).decode().split() if marks else ())
