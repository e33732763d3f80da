"""Measures Python's bson (of PyMongo) on one document, as `core_bench documents` measures bson_wire.

usage: python_bench.py FILE ROUNDS
"""
import sys
import time

import bson
from bson.codec_options import CodecOptions
from bson.son import SON

BATCHES = 5


def quickest(rounds, once):
    best = None
    for _ in range(BATCHES):
        start = time.perf_counter_ns()
        for _ in range(rounds):
            once()
        took = (time.perf_counter_ns() - start) // rounds
        best = took if best is None else min(best, took)
    return best


def main():
    raw = open(sys.argv[1], "rb").read()
    rounds = int(sys.argv[2])
    options = CodecOptions(document_class=SON)
    kept = bson.BSON(raw).decode(options)
    assert len(bson.BSON.encode(kept)) == len(raw)
    print("decode", quickest(rounds, lambda: bson.BSON(raw).decode(options)), len(raw))
    print("encode", quickest(rounds, lambda: bson.BSON.encode(kept)), len(raw))


if __name__ == "__main__":
    main()
