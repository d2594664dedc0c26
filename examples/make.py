#!/usr/bin/env python3
"""Makes the sample paths of examples/paths: NAME.path is read, and NAME.answer is what the program must write. And the samples of examples/files:
NAME.order is an order file to be checked against NAME.path by a controller that knows versions up to NAME.highest, and NAME.result is what the check
gives. And the samples of examples/orders: NAME.path is read, and NAME.text is what the program all_orders must print.

The answers of good paths are found by trying every set of forks, which is feasible up to k = 3, or are known for another reason that
stands beside them. Run it anywhere; it writes beside itself.
"""
import os
import struct
from fractions import Fraction

HERE = os.path.dirname(os.path.abspath(__file__))


def record(kind, content):
    return struct.pack("<HH", len(content) + 2, kind) + content


def head(version, k):
    return record(1, struct.pack("<HH", version, k))


def stop(version, x, y=0, z=0, speed=100, blend=0, dwell=0):
    fields = struct.pack("<iiiH", x, y, z, speed)
    if version >= 5:
        fields += struct.pack("<H", blend)
    if version >= 6:
        fields += struct.pack("<H", dwell)
    return record(2, fields)


END = record(3, b"")


def path(version, k, stops):
    return head(version, k) + b"".join(stop(version, *s) for s in stops) + END


def refused(number):
    return record(7, struct.pack("<H", number))


def time(a, b, stops):
    far = max(abs(stops[b][i] - stops[a][i]) for i in range(3))
    far -= min(stops[b][4], far // 2)
    # to the nearest whole millisecond, an exact half to the even one: so Python rounds fractions; then the dwell of the stop where the move arrives
    return round(Fraction(100 * far, stops[b][3])) + stops[b][5]


def order_of(k, forks):
    """The stop in each place under a set of exchanged forks."""
    n = 1 << k
    order = [0] * n
    for i in range(n):
        place = 0
        for h in range(k):
            fork = (1 << h) + (i >> (k - h))
            bit = i >> (k - 1 - h) & 1
            place |= (bit ^ (forks >> fork & 1)) << (k - 1 - h)
        order[place] = i
    return order


def total(order, stops):
    return sum(time(a, b, stops) for a, b in zip(order, order[1:]))


def order_file(k, stops, forks, said=None):
    """The file of an order, with another total where one is said."""
    n = 1 << k
    order = order_of(k, forks)
    said = total(order, stops) if said is None else said
    return (
        record(4, struct.pack("<H", k))
        + record(5, struct.pack("<Q", said) + struct.pack(f"<{n}H", *order))
        + record(6, forks.to_bytes((n + 7) // 8, "little"))
        + END
    )


def wanted(k, stops):
    """The wanted set of forks: the least total, then the smaller stop at the first difference from the last place back."""
    sets = range(0, 1 << (1 << k), 2)
    return min(sets, key=lambda forks: (total(order_of(k, forks), stops), order_of(k, forks)[::-1]))


def full(stops):
    """Each stop with y, z, speed, blend and dwell."""
    default = (0, 0, 0, 100, 0, 0)
    return [tuple(s) + default[len(s):] for s in stops]


FIFTY = full([(0,), (30,), (10,), (20,)])
ONE = full([(7, 8, 9, 10, 0)])
EIGHT = full([(i * i * 37 % 101, i * 53 % 89, -i, 20 + i) for i in range(8)])
BLENDED = full([(-20000, 0, 0, 1, 500), (20000, 0, 0, 2000, 1)])
# Four pockets in a row, at 0, 10, 30 and 40 tenths of a millimetre, and a blend of 20 at the last. Straight along the row, either way, takes 40 ms. But on the way from
# the second pocket to the last the arm cuts the corner by half of its 30, so 0, 1, 3 and then one back to 2 takes 10 + 15 + 10 = 35 ms.
CORNER = full([(0,), (10,), (30,), (40, 0, 0, 100, 20)])
ALIKE = full([(5, 5, 5, 1)] * 64)


def dwelling(stops, dwells):
    return [s[:5] + (dwell,) for s, dwell in zip(stops, dwells)]


# a dwell at the stop where the wanted order begins changes nothing, since no move arrives there; one where it ends makes another order the wanted one
RESTING = {"first": dwelling(FIFTY, (0, 0, 20, 0)), "last": dwelling(FIFTY, (20, 0, 0, 0))}
# a slower gripper rests 20 ms longer at every stop: the same order, and each of its three moves takes 20 more
SLOWER = dwelling(FIFTY, (20, 20, 20, 20))
SOFT = dwelling(EIGHT, [i * 1733 % 5001 for i in range(8)])


def paths():
    """The name of each sample, its bytes and the answer to it."""
    for name, k, stops in [("one", 0, ONE), ("fifty", 2, FIFTY), ("eight", 3, EIGHT)]:
        answer = order_file(k, stops, wanted(k, stops))
        yield f"good-{name}-4", path(4, k, stops), answer
        yield f"good-{name}-5", path(5, k, stops), answer
        yield f"good-{name}-6", path(6, k, stops), answer
    for name, stops in RESTING.items():
        yield f"good-dwell-{name}-6", path(6, 2, stops), order_file(2, stops, wanted(2, stops))
    # beside good-fifty-6, whose dwells are 0 and whose total is 50
    assert wanted(2, SLOWER) == wanted(2, FIFTY)
    yield "good-slower-gripper-6", path(6, 2, SLOWER), order_file(2, SLOWER, wanted(2, FIFTY), said=50 + 3 * 20)
    yield "good-dwells-6", path(6, 3, SOFT), order_file(3, SOFT, wanted(3, SOFT))
    yield "good-blended-5", path(5, 1, BLENDED), order_file(1, BLENDED, wanted(1, BLENDED))
    unblended = full(stop[:4] for stop in CORNER)
    assert order_of(2, wanted(2, CORNER)) == [0, 1, 3, 2] and order_of(2, wanted(2, unblended)) == [3, 2, 1, 0]
    yield "good-corner-5", path(5, 2, CORNER), order_file(2, CORNER, wanted(2, CORNER))
    yield "good-no-corner-5", path(5, 2, unblended), order_file(2, unblended, wanted(2, unblended))
    # all totals are 0, so the smallest stop is in the last place, and so on back: every fork is exchanged
    yield "good-alike-4", path(4, 6, ALIKE), order_file(6, ALIKE, (1 << 64) - 2)
    yield "good-alike-5", path(5, 6, ALIKE), order_file(6, ALIKE, (1 << 64) - 2)
    yield "good-alike-6", path(6, 6, ALIKE), order_file(6, ALIKE, (1 << 64) - 2)

    fifty = path(4, 2, FIFTY)
    longest = path(6, 6, ALIKE)
    yield "refused-1-empty", b"", refused(1)
    yield "refused-1-three-bytes", fifty[:3], refused(1)
    yield "refused-1-cut-head", fifty[:7], refused(1)
    yield "refused-1-cut-stop", fifty[:-5], refused(1)
    yield "refused-1-no-end", fifty[:-4], refused(1)
    yield "refused-2-stop-of-5", head(4, 0) + stop(5, 1) + END, refused(2)
    yield "refused-2-stop-of-5-in-6", head(6, 0) + stop(5, 1) + END, refused(2)
    yield "refused-2-stop-of-6", head(5, 0) + stop(6, 1) + END, refused(2)
    yield "refused-2-head", b"\x08\x00" + fifty[2:], refused(2)
    yield "refused-2-end", fifty[:-4] + b"\x03\x00\x03\x00\x00", refused(2)
    yield "refused-3-kind-9", b"\x06\x00\x09\x00" + fifty[4:], refused(3)
    yield "refused-3-order-file", order_file(2, FIFTY, 6), refused(3)
    yield "refused-3-end-early", head(4, 1) + stop(4, 1) + END, refused(3)
    yield "refused-4-version-9", head(9, 0), refused(4)
    yield "refused-4-version-3", path(3, 0, ONE), refused(4)
    yield "refused-4-version-7", path(7, 0, ONE), refused(4)
    yield "refused-5-k-11", head(4, 11), refused(5)
    yield "refused-5-k-65535", head(5, 65535), refused(5)
    yield "refused-6-speed-0", path(4, 0, [(0, 0, 0, 0, 0)]), refused(6)
    yield "refused-6-x-20001", path(4, 0, [(20001, 0, 0, 1, 0)]), refused(6)
    yield "refused-6-blend-501", path(5, 0, [(0, 0, 0, 1, 501)]), refused(6)
    yield "refused-6-dwell-5001", path(6, 0, [(0, 0, 0, 1, 0, 5001)]), refused(6)
    yield "refused-7-one-byte", fifty + b"\x00", refused(7)
    yield "refused-7-after-longest", longest + b"\x00", refused(7)
    yield "refused-7-long", longest + bytes(5000), refused(7)
    yield "refused-8-k-7", path(4, 7, full([(0,)] * 128)), refused(8)
    yield "refused-8-k-10-head", head(5, 10), refused(8)


def files():
    """The name of each sample, its path, its order file, the highest version known and what the check gives."""
    eight = path(4, 3, EIGHT)
    forks = wanted(3, EIGHT)
    yield "good-eight", eight, order_file(3, EIGHT, forks), 6, 0
    yield "good-unturned", eight, order_file(3, EIGHT, 0), 6, 0
    # when times were rounded up, three stops a tenth of a millimetre apart at 200 mm/s took 1 ms each: now they take 0
    near = full([(0, 0, 0, 200), (1, 0, 0, 200), (2, 0, 0, 200), (3, 0, 0, 200)])
    yield "good-near", path(5, 2, near), order_file(2, near, 0), 6, 0
    yield "refused-11-rounded-up", path(5, 2, near), order_file(2, near, 0, said=3), 6, -11
    # one path in each version, for controllers that know versions up to 4, 5 and 6: a newer path is turned down at its head
    for version in (4, 5, 6):
        for highest in (4, 5, 6):
            name = f"good-{version}-for-{highest}" if version <= highest else f"refused-4-{version}-for-{highest}"
            yield name, path(version, 2, FIFTY), order_file(2, FIFTY, 6), highest, 0 if version <= highest else -4
    # the dwell of the stop where the order ends counts, that of the stop where it begins does not
    yield "good-dwell-first", path(6, 2, RESTING["first"]), order_file(2, FIFTY, 6), 6, 0
    yield "refused-11-dwell-left-out", path(6, 2, RESTING["last"]), order_file(2, FIFTY, 6), 6, -11


def line(k, stops, forks):
    """The total, then the stops by place."""
    order = order_of(k, forks)
    return b"%d" % total(order, stops) + b"".join(b" %d" % stop for stop in order) + b"\n"


def orders():
    """The name of each sample, its bytes and the text of all its orders, or the line of its refusal."""
    pair = full([(0, 0, 0, 300), (21, 0, 0, 700)])
    assert b"".join(line(1, pair, forks) for forks in (0, 2)) == b"3 0 1\n7 1 0\n"
    # the longest lines: stops at the two ends in turn, 4,000,000 ms from each to the other
    far = full([(20000 if i % 2 else -20000, 0, 0, 1) for i in range(8)])
    good = [("one", 0, ONE), ("pair", 1, pair), ("fifty", 2, FIFTY), ("eight", 3, EIGHT)]
    samples = [(f"good-{name}-{version}", version, k, stops) for name, k, stops in good for version in (4, 5, 6)]
    samples += [("good-blended-5", 5, 1, BLENDED), ("good-corner-5", 5, 2, CORNER), ("good-dwells-6", 6, 3, SOFT), ("good-far-4", 4, 3, far)]
    samples += [("good-alike-6", 6, 3, ALIKE[:8])]
    for name, version, k, stops in samples:
        # the sets are the even numbers below 2^n: bit v is fork v, and bit 0 is no fork
        yield name, path(version, k, stops), b"".join(line(k, stops, forks) for forks in range(0, 1 << (1 << k), 2))
    # what the other program refuses this one refuses by the same number, except that k from 4 on is 5 here and k from 7 on 8 there
    for name, given, answer in paths():
        if name.startswith("refused-") and not name.startswith(("refused-7-", "refused-8-")):
            yield name, given, b"%d\n" % answer[4]
    longest = path(6, 3, SOFT)
    yield "refused-7-one-byte", path(4, 2, FIFTY) + b"\x00", b"7\n"
    yield "refused-7-after-longest", longest + b"\x00", b"7\n"
    yield "refused-7-long", longest + bytes(5000), b"7\n"
    yield "refused-5-k-4", path(4, 4, full([(0,)] * 16)), b"5\n"
    yield "refused-5-k-4-before-its-stops", head(6, 4), b"5\n"
    yield "refused-5-k-6", path(6, 6, ALIKE), b"5\n"
    yield "refused-5-k-7-before-8", path(4, 7, full([(0,)] * 128)), b"5\n"
    yield "refused-5-k-10", head(5, 10), b"5\n"


def main():
    made = {"paths": (".path", ".answer"), "files": (".path", ".order", ".highest", ".result"), "orders": (".path", ".text")}
    for folder, suffixes in made.items():
        os.makedirs(os.path.join(HERE, folder), exist_ok=True)
        for name in os.listdir(os.path.join(HERE, folder)):
            if name.endswith(suffixes):
                os.remove(os.path.join(HERE, folder, name))
    samples = [("paths", name, contents) for name, *contents in paths()]
    samples += [("files", name, (given, order, b"%d\n" % highest, b"%d\n" % result)) for name, given, order, highest, result in files()]
    samples += [("orders", name, contents) for name, *contents in orders()]
    for folder, name, contents in samples:
        for suffix, content in zip(made[folder], contents):
            with open(os.path.join(HERE, folder, name + suffix), "wb") as out:
                out.write(content)


if __name__ == "__main__":
    main()
