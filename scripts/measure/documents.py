"""Writes the three documents that scripts/bench measures, as files of BSON (bsonspec.org, version 1.1).

usage: documents.py FOLDER    writes hello.bson, flat.bson and nested.bson there

The bytes are put together here by the standard's table, by none of the implementations that are measured.
"""
import os
import struct
import sys


def int32(n):
    return struct.pack("<i", n)


def element(byte, name, payload):
    return bytes([byte]) + name.encode() + b"\0" + payload


def string(text):
    raw = text.encode()
    return int32(len(raw) + 1) + raw + b"\0"


def document(*elements):
    body = b"".join(elements)
    return int32(len(body) + 5) + body + b"\0"


def double(name, x):
    return element(0x01, name, struct.pack("<d", x))


def text(name, x):
    return element(0x02, name, string(x))


def inner(name, *elements):
    return element(0x03, name, document(*elements))


def array(name, payloads):
    """An array of (type byte, payload) under the names 0, 1 and so on."""
    return element(0x04, name, document(*(element(b, str(i), p) for i, (b, p) in enumerate(payloads))))


def binary(name, subtype, raw):
    return element(0x05, name, int32(len(raw)) + bytes([subtype]) + raw)


def oid(name, raw):
    return element(0x07, name, raw)


def truth(name, x):
    return element(0x08, name, b"\1" if x else b"\0")


def date(name, millis):
    return element(0x09, name, struct.pack("<q", millis))


def int32_of(name, n):
    return element(0x10, name, int32(n))


def stamp(name, seconds, increment):
    return element(0x11, name, struct.pack("<II", increment, seconds))


def int64(name, n):
    return element(0x12, name, struct.pack("<q", n))


def hello():
    """A primary's hello reply, with the fields that a server of a replica set of three sends."""
    process = bytes(range(12))
    cluster = inner(
        "$clusterTime",
        stamp("clusterTime", 1700000000, 1),
        inner("signature", binary("hash", 0, bytes(20)), int64("keyId", 0)),
    )
    hosts = [(0x02, string(f"db{i}.example:27017")) for i in (1, 2, 3)]
    return document(
        inner("topologyVersion", oid("processId", process), int64("counter", 6)),
        array("hosts", hosts),
        text("setName", "rs0"),
        int32_of("setVersion", 1),
        truth("isWritablePrimary", True),
        truth("secondary", False),
        text("primary", "db1.example:27017"),
        text("me", "db1.example:27017"),
        oid("electionId", b"\x7f\xff\xff\xff" + bytes(7) + b"\1"),
        inner(
            "lastWrite",
            inner("opTime", stamp("ts", 1700000000, 1), int64("t", 1)),
            date("lastWriteDate", 1700000000000),
        ),
        int32_of("maxBsonObjectSize", 16777216),
        int32_of("maxMessageSizeBytes", 48000000),
        int32_of("maxWriteBatchSize", 100000),
        date("localTime", 1700000000500),
        int32_of("logicalSessionTimeoutMinutes", 30),
        int32_of("connectionId", 9),
        int32_of("minWireVersion", 0),
        int32_of("maxWireVersion", 21),
        truth("readOnly", False),
        double("ok", 1.0),
        cluster,
        stamp("operationTime", 1700000000, 1),
    )


def flat():
    """A hundred short fields: numbers, texts, doubles and truth values in turn."""
    fields = []
    for i in range(0, 100, 4):
        fields.append(int32_of(f"count{i:02}", i * 7919))
        fields.append(text(f"label{i:02}", f"value {i}"))
        fields.append(double(f"ratio{i:02}", i / 8))
        fields.append(truth(f"found{i:02}", i % 8 == 0))
    return document(*fields)


def nested():
    """About 1 MB: an array of orders, each with a customer and an array of lines."""

    def order(i):
        lines = [
            (
                0x03,
                document(
                    text("article", f"article-{i * 31 + k}"),
                    int32_of("count", k + 1),
                    double("price", 0.25 * k),
                    array("sizes", [(0x10, int32(s)) for s in range(4)]),
                ),
            )
            for k in range(6)
        ]
        return document(
            oid("_id", struct.pack(">III", 1, 2, i)),
            inner("customer", text("name", f"customer {i}"), text("town", "Mülheim"), truth("known", i % 3 == 0)),
            int64("placed", 1700000000000 + i),
            array("lines", lines),
        )

    return document(array("orders", [(0x03, order(i)) for i in range(1450)]))


def main():
    folder = sys.argv[1]
    for name, made in (("hello", hello()), ("flat", flat()), ("nested", nested())):
        with open(os.path.join(folder, name + ".bson"), "wb") as out:
            out.write(made)
        print(name, len(made), "bytes")


if __name__ == "__main__":
    main()
