#!/usr/bin/env python3
"""Writes what test_rows must print, worked out from document 01's table of kinds alone.

    python3 crates/test_rows/expected.py > crates/test_rows/stdout
"""
CHOICES, SLOTS, CHOOSERS = 64, 24, 200

# 01, 'Constraint rows': left, right, extra of each kind
TABLE = {
    1: "choice slot", 2: "choice slot",
    3: "choice choice", 4: "choice choice", 10: "choice choice",
    5: "choice choice offset",
    6: "slot limit op",
    7: "slot choice", 8: "slot choice",
    9: "slot slot",
    11: "chooser choice", 12: "chooser choice",
    13: "chooser chooser",
    14: "choice chooser", 15: "choice chooser",
}
OPS = {1, 2, 3, -1, -2, -3}
TAKES = {"all": range(1, 16), "scheduling": range(1, 7), "assignment": range(10, 14)}
NUMBERS = [0, 1, 23, 24, 25, 63, 64, 65, 199, 200, 201, 65534, 65535]
EXTRAS = [-32768, -32767, -4, -3, -2, -1, 0, 1, 2, 3, 4, 32766, 32767]


def holds(name, value, counts):
    if name in ("choice", "slot", "chooser"):
        return value < counts[("choice", "slot", "chooser").index(name)]
    return {"limit": 0 <= value <= 65535, "offset": -32767 <= value <= 32767, "op": value in OPS, "zero": value == 0}[name]


def keeps(takes, row, counts):
    kind = row[0]
    if kind not in TAKES[takes]:
        return False
    names = (TABLE[kind].split() + ["zero"])[:3]
    return all(holds(n, v, counts) for n, v in zip(names, row[1:]))


def good(takes):
    return (10 if takes == "assignment" else 1, 0, 0, 0)


def check(takes, counts, rows):
    most = 128 if takes == "all" else 1024
    if counts[0] > 64 or counts[1] > 24 or counts[2] > 200 or counts[3] > most:
        return "1"
    if len(rows) != counts[3]:
        return "2"
    for i, row in enumerate(rows):
        if not keeps(takes, row, counts):
            return "5 row %d" % i
    return "good"


def main():
    for takes in TAKES:
        for kind in range(18):
            for column, name in enumerate(("left", "right", "extra")):
                cells = []
                for value in EXTRAS if column == 2 else NUMBERS:
                    row = [kind, 0, 0, 1 if kind == 6 else 0]
                    row[column + 1] = value
                    cells.append("%d=%s" % (value, check(takes, (CHOICES, SLOTS, CHOOSERS, 2), [good(takes), tuple(row)])))
                print(takes, "kind", kind, name, *cells)
    for takes in TAKES:
        most = 128 if takes == "all" else 1024
        full = (CHOICES, SLOTS, CHOOSERS)
        for counts, lent in [(full + (2,), 2), ((65, 24, 200, 2), 2), ((64, 25, 200, 2), 2), ((64, 24, 201, 2), 2), (full + (most,), most),
                             (full + (most + 1,), most + 1), (full + (2,), 1), (full + (2,), 3), ((65, 24, 200, 2), 3),
                             ((0, 0, 0, 2), 3), ((0, 0, 0, 2), 2), ((0, 0, 0, 0), 0)]:
            print("%s choices %d slots %d choosers %d rows %d lent %d =%s" % ((takes,) + counts + (lent, check(takes, counts, [good(takes)] * lent))))


main()
