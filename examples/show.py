#!/usr/bin/env python3
"""Shows the records of a path, an order file or a refusal on standard input: the bytes in hex, and beside them what they mean.

Where the bytes are none of these, the last line says from which byte on and why, with the number of document 01's table 'Turned down', and
the exit status is 1. What an order file says of its order (9 to 12) is shown and not judged.
"""
import signal
import struct
import sys

KINDS = {1: "path head", 2: "stop", 3: "end", 4: "order head", 5: "total with stops", 6: "forks exchanged", 7: "refusal"}

# the fields of a stop by version, and the range of each
STOPS = {4: "<iiiH", 5: "<iiiHH", 6: "<iiiHHH"}
FIELDS = {"x": (-20000, 20000), "y": (-20000, 20000), "z": (-20000, 20000), "speed": (1, 2000), "blend": (0, 500), "dwell": (0, 5000)}

REFUSALS = {
    1: "fewer than 4 bytes left for a record, or fewer than its length claims",
    2: "length is not that of the kind and version",
    3: "not the kind due here",
    4: "version not 4, 5 or 6, or above the highest known; highest known not 4, 5 or 6",
    5: "k above 10, or an order file's k not the path's",
    6: "a stop's field out of range",
    7: "bytes after the end record",
    8: "a lent buffer too short, a table not n² long, or k above 6 in the controller's calls or the program",
    9: "a stop number n or more in an order",
    10: "an order not allowed",
    11: "an order file's total is not its order's, or a group's sum is not",
    12: "a fork bit outside 1 to n−1 set, or bits not the order's",
    13: "a field not 0 that the version to be written lacks",
    14: "a fork that is not 1 to n−1",
    15: "a name that is not 1 to 8",
    16: "nothing kept under a name that is to be come back to",
}


def words(number):
    return "%d, %s" % (number, REFUSALS.get(number, "which is no number of a refusal"))


class TurnedDown(Exception):
    """The record or the field that begins at a byte is turned down by a number."""

    def __init__(self, number, at):
        self.number, self.at = number, at


class File:
    """Bytes that are read one record after another."""

    def __init__(self, data):
        self.data, self.at = data, 0

    def need(self, test, number):
        if not test:
            raise TurnedDown(number, self.at)

    def take(self, kind, length):
        """The next record. Its tests stand in document 01's sequence: 4 bytes present, kind, length, bytes present."""
        rest = self.data[self.at:self.at + 2 + length]
        self.need(len(rest) >= 4, 1)
        said = struct.unpack("<HH", rest[:4])
        self.need(said[1] == kind, 3)
        self.need(said[0] == length, 2)
        self.need(len(rest) == 2 + length, 1)
        self.at += len(rest)
        return rest

    def finish(self):
        self.need(self.at == len(self.data), 7)


def count(k, at):
    """The number of stops, for the k that stands in a place."""
    if k > 10:
        raise TurnedDown(5, at)
    return 1 << k


def path(file):
    """Each record of a path with its meaning."""
    head = file.take(1, 6)
    version, k = struct.unpack("<HH", head[4:])
    yield head, "version %d, k %d" % (version, k)
    if version not in STOPS:
        raise TurnedDown(4, 4)
    for _ in range(count(k, 6)):
        start = file.at
        stop = file.take(2, 2 + struct.calcsize(STOPS[version]))
        fields = dict.fromkeys(FIELDS, 0)
        fields.update(zip(FIELDS, struct.unpack(STOPS[version], stop[4:])))
        yield stop, ", ".join("%s %d" % field for field in fields.items())
        if any(not low <= fields[name] <= high for name, (low, high) in FIELDS.items()):
            raise TurnedDown(6, start)
    yield file.take(3, 2), ""
    file.finish()


def order_file(file):
    """Each record of an order file with its meaning."""
    head = file.take(4, 4)
    k, = struct.unpack("<H", head[4:])
    yield head, "k %d" % k
    n = count(k, 4)
    stops = file.take(5, 10 + 2 * n)
    total, *order = struct.unpack("<Q%dH" % n, stops[4:])
    yield stops, "%d ms: %s" % (total, ", ".join(map(str, order)))
    forks = file.take(6, 2 + (n + 7) // 8)
    bits = int.from_bytes(forks[4:], "little")
    yield forks, ", ".join(str(v) for v in range(bits.bit_length()) if bits >> v & 1) or "none"
    yield file.take(3, 2), ""
    file.finish()


def refusal(file):
    """The record of a refusal with its meaning."""
    record = file.take(7, 4)
    yield record, "number " + words(*struct.unpack("<H", record[4:]))
    file.finish()


def records(data):
    """Each record with its meaning. The first one's kind tells what the file is; a file of no such kind is read as a path."""
    kind = int.from_bytes(data[2:4], "little")
    return {4: order_file, 7: refusal}.get(kind, path)(File(data))


def line(data, text):
    """Bytes, 20 to a line, and the text beside the first of them."""
    rows = [data[at:at + 20].hex(" ") for at in range(0, len(data), 20)] or [""]
    return "".join(("  %-59s  %s" % row).rstrip() + "\n" for row in zip(rows, [text] + [""] * len(rows)))


def show(data):
    """What is shown, and the exit status."""
    shown, seen = [], 0
    try:
        for record, meaning in records(data):
            shown.append(line(record, KINDS[record[2]] + (": " + meaning if meaning else "")))
            seen += len(record)
    except TurnedDown as down:
        # a field has been shown already, a record that cannot be read has not
        rest = data[down.at:down.at + 20] if down.at >= seen else b""
        shown.append(line(rest, "byte %d: turned down by %s" % (down.at, words(down.number))))
        return "".join(shown), 1
    return "".join(shown), 0


def main():
    for gone in (signal.SIGPIPE, signal.SIGINT):
        signal.signal(gone, signal.SIG_DFL)
    try:
        with open(0, "rb") as given:
            text, status = show(given.read())
        with open(1, "wb") as out:
            out.write(text.encode())
    except OSError as error:
        sys.exit("show.py: %s" % error.strerror)
    sys.exit(status)


if __name__ == "__main__":
    main()
