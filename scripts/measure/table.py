"""Prints what scripts/bench measured, with how many times as long each implementation took as bson_wire.

usage: table.py FILE    of lines DOCUMENT|IMPLEMENTATION|WORK NANOS BYTES
"""
import sys


def main():
    rows = []
    for line in open(sys.argv[1]):
        document, who, rest = line.rstrip("\n").split("|", 2)
        work, nanos, size = rest.replace("|", " ").split()
        rows.append((document, work, who, int(nanos), int(size)))
    ours = {(d, w): n for d, w, who, n, _ in rows if who == "bson_wire"}
    print(f"{'document':8} {'work':7} {'implementation':32} {'ns':>10} {'MB/s':>8} {'times bson_wire':>16}")
    for document, work, who, nanos, size in sorted(rows, key=lambda r: (r[0], r[1])):
        rate = size * 1000 / max(nanos, 1)
        times = nanos / max(ours[document, work], 1)
        print(f"{document:8} {work:7} {who:32} {nanos:10} {rate:8.1f} {times:16.2f}")


if __name__ == "__main__":
    main()
