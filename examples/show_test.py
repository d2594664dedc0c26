#!/usr/bin/env python3
"""Tries show.py on every sample, on every cut of each, on bytes damaged and on bytes at random. Each is answered, and where it is turned down
the last line says so and the status is 1."""
import os
import random
import sys

sys.dont_write_bytecode = True
import show

HERE = os.path.join(os.path.dirname(os.path.abspath(__file__)), "paths")
DOWN = "turned down by "


def status(data):
    """The exit status, which the lines must fit."""
    text, status = show.show(data)
    lines = text.splitlines()
    assert lines and [DOWN in line for line in lines] == [False] * (len(lines) - 1) + [status == 1], data
    return status


def samples():
    """The name and the bytes of each sample."""
    for name in sorted(os.listdir(HERE)):
        with open(os.path.join(HERE, name), "rb") as given:
            yield name, given.read()


def due(name):
    """The number by which a sample is turned down here, or none: the program's own limit (8) and an order file are no faults."""
    if name.startswith("good-") or name.endswith(".answer") or name in ("refused-3-order-file.path", "refused-8-k-7.path"):
        return None
    return {"refused-8-k-10-head.path": 1}.get(name) or int(name.split("-")[1])


def damaged(data, numbers):
    """A byte changed, put in or taken out."""
    at = numbers.randrange(len(data) + 1)
    return data[:at] + numbers.choice([b"", numbers.randbytes(1)]) + data[at + numbers.randrange(2):]


def main():
    numbers = random.Random(1)
    tried = 0
    for name, data in samples():
        whole = due(name) is None
        assert status(data) == (0 if whole else 1), name
        assert whole or DOWN + "%d," % due(name) in show.show(data)[0], name
        cuts = [status(data[:length]) for length in range(len(data))]
        assert all(cuts) or not whole, name
        others = [damaged(data, numbers) for _ in range(500)] + [numbers.randbytes(numbers.randrange(60)) for _ in range(500)]
        tried += 1 + len(cuts) + len(list(map(status, others)))
    print("show.py answers %d files, whole, cut and damaged" % tried)


if __name__ == "__main__":
    main()
