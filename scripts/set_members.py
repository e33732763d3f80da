"""A replica set of three members on loopback, for trying mdc without a database: what they answer is written from MongoDB's
public documentation (hello, insert, find, error labels, retryable writes).

`Replicas(version)` listens on three ports. `on_write` decides, by the number of a write that reaches the primary, what
happens to it: "fail over" (the primary closes its streams and another member is elected; the write is not done), "cut off" (the
same, and the member is not reached again), "lose the answer" (it is done, and the stream closed without an answer), "step down"
(the primary answers that it is primary no more, and another is elected), or None. A write that comes again by its session and transaction number is answered as before and not
done again.
"""

import socket
import struct
import threading
import time

# The greatest wire version of each server's version.
WIRE = {"4.4": 9, "5.0": 13, "6.0": 17, "7.0": 21, "8.0": 25}

ELECTION_SECONDS = 0.15


# ---- BSON 1.1

class Oid(bytes):
    """Twelve bytes."""


class Stamp(int):
    """A timestamp of 64 bits."""


class Date(int):
    """Milliseconds since 1970."""


class Long(int):
    """A number that is written as an int64."""


class Binary(bytes):
    """Bytes of subtype 0."""


def element(name, value):
    key = name.encode() + b"\0"
    if isinstance(value, bool):
        return b"\x08" + key + bytes([value])
    if isinstance(value, float):
        return b"\x01" + key + struct.pack("<d", value)
    if isinstance(value, str):
        text = value.encode() + b"\0"
        return b"\x02" + key + struct.pack("<i", len(text)) + text
    if isinstance(value, dict):
        return b"\x03" + key + encode(value)
    if isinstance(value, list):
        return b"\x04" + key + encode({str(place): item for place, item in enumerate(value)})
    if isinstance(value, Binary):
        return b"\x05" + key + struct.pack("<i", len(value)) + b"\0" + value
    if isinstance(value, Oid):
        return b"\x07" + key + value
    if isinstance(value, Date):
        return b"\x09" + key + struct.pack("<q", value)
    if isinstance(value, Stamp):
        return b"\x11" + key + struct.pack("<Q", value)
    if isinstance(value, Long):
        return b"\x12" + key + struct.pack("<q", value)
    if isinstance(value, int):
        return b"\x10" + key + struct.pack("<i", value)
    raise TypeError(f"no BSON for {value!r}")


def encode(document):
    body = b"".join(element(name, value) for name, value in document.items())
    return struct.pack("<i", len(body) + 5) + body + b"\0"


def decode(data, at=0):
    """The document at a place, and the place behind it."""
    end = at + struct.unpack_from("<i", data, at)[0]
    at += 4
    document = {}
    while data[at] != 0:
        kind = data[at]
        stop = data.index(0, at + 1)
        name = data[at + 1:stop].decode()
        document[name], at = decode_value(kind, data, stop + 1)
    return document, end


def decode_value(kind, data, at):
    if kind == 0x01:
        return struct.unpack_from("<d", data, at)[0], at + 8
    if kind == 0x02:
        size = struct.unpack_from("<i", data, at)[0]
        return data[at + 4:at + 3 + size].decode(), at + 4 + size
    if kind == 0x03:
        return decode(data, at)
    if kind == 0x04:
        items, end = decode(data, at)
        return list(items.values()), end
    if kind == 0x05:
        size = struct.unpack_from("<i", data, at)[0]
        return Binary(data[at + 5:at + 5 + size]), at + 5 + size
    if kind == 0x08:
        return data[at] != 0, at + 1
    if kind == 0x10:
        return struct.unpack_from("<i", data, at)[0], at + 4
    if kind == 0x11:
        return Stamp(struct.unpack_from("<Q", data, at)[0]), at + 8
    if kind == 0x12:
        return Long(struct.unpack_from("<q", data, at)[0]), at + 8
    raise ValueError(f"kind {kind} is not read here")


# ---- OP_MSG

def take(connection, count):
    held = b""
    while len(held) < count:
        piece = connection.recv(count - len(held))
        if not piece:
            return None
        held += piece
    return held


def take_message(connection):
    """The id and the document of the next message; None at the stream's end."""
    header = take(connection, 16)
    if header is None:
        return None
    length, identity, _, _ = struct.unpack("<iiii", header)
    rest = take(connection, length - 16)
    if rest is None:
        return None
    return identity, decode(rest, 5)[0]


def send_reply(connection, identity, document):
    body = struct.pack("<I", 0) + b"\0" + encode(document)
    connection.sendall(struct.pack("<iiii", 16 + len(body), 7, identity, 2013) + body)


# ---- The members

def end(stream):
    """Ends a stream, or has a listener take no more of them."""
    try:
        stream.shutdown(socket.SHUT_RDWR)
    except OSError:
        pass


class Replicas:
    """Three members, of which at most one is primary."""

    def __init__(self, version, on_write=lambda number: None, name="rs0"):
        self.version, self.on_write, self.name = version, on_write, name
        self.lock = threading.Lock()
        self.term, self.primary, self.counter, self.clock = 1, 0, 6, 1
        self.writes, self.tries, self.done, self.results, self.documents = 0, 0, [], {}, {}
        self.elections = 0
        self.listeners = [socket.create_server(("127.0.0.1", 0)) for _ in range(3)]
        self.hosts = [f"127.0.0.1:{listener.getsockname()[1]}" for listener in self.listeners]
        self.streams = [set(), set(), set()]
        for member in range(3):
            threading.Thread(target=self.listen, args=(member,), daemon=True).start()

    def listen(self, member):
        while True:
            try:
                connection, _ = self.listeners[member].accept()
            except OSError:
                return
            connection.setsockopt(socket.IPPROTO_TCP, socket.TCP_NODELAY, 1)
            with self.lock:
                self.streams[member].add(connection)
            threading.Thread(target=self.serve, args=(member, connection), daemon=True).start()

    def close(self):
        for listener in self.listeners:
            listener.close()

    def serve(self, member, connection):
        try:
            while True:
                message = take_message(connection)
                if message is None:
                    break
                reply = self.answer(member, message[1])
                if reply is None:
                    break
                send_reply(connection, message[0], reply)
        except OSError:
            pass
        with self.lock:
            self.streams[member].discard(connection)
        end(connection)
        connection.close()

    def answer(self, member, command):
        """The reply; None where the stream is to end."""
        verb = next(iter(command))
        with self.lock:
            self.clock += 1
            if verb in ("hello", "isMaster", "ismaster"):
                return self.hello(member)
            if verb == "endSessions":
                return self.with_times({"ok": 1.0})
            if verb == "find":
                return self.find(member, command)
            return self.write(member, command)

    def with_times(self, reply):
        stamp = Stamp((1_700_000_000 << 32) + self.clock)
        reply["$clusterTime"] = {
            "clusterTime": stamp,
            "signature": {"hash": Binary(bytes(20)), "keyId": Long(0)},
        }
        reply["operationTime"] = stamp
        return reply

    def topology_version(self):
        return {"processId": Oid(bytes.fromhex("64a0b1c2d3e4f5a6b7c8d9e0")), "counter": Long(self.counter)}

    def op_time(self):
        return {"ts": Stamp((1_700_000_000 << 32) + self.clock), "t": Long(self.term)}

    def election_id(self):
        return Oid(bytes.fromhex("7fffffff") + self.term.to_bytes(8, "big"))

    def hello(self, member):
        is_primary = member == self.primary
        reply = {
            "topologyVersion": self.topology_version(),
            "hosts": list(self.hosts),
            "setName": self.name,
            "setVersion": 1,
            "isWritablePrimary": is_primary,
            "secondary": not is_primary,
        }
        if self.primary is not None:
            reply["primary"] = self.hosts[self.primary]
        reply["me"] = self.hosts[member]
        if is_primary:
            reply["electionId"] = self.election_id()
        now = Date(int(time.time() * 1000))
        reply["lastWrite"] = {
            "opTime": self.op_time(), "lastWriteDate": now, "majorityOpTime": self.op_time(), "majorityWriteDate": now,
        }
        reply.update({
            "maxBsonObjectSize": 16777216, "maxMessageSizeBytes": 48000000, "maxWriteBatchSize": 100000, "localTime": now,
            "logicalSessionTimeoutMinutes": 30, "connectionId": 42, "minWireVersion": 0,
            "maxWireVersion": WIRE[self.version], "readOnly": False, "ok": 1.0,
        })
        return self.with_times(reply)

    def refusal(self):
        return self.with_times({
            "topologyVersion": self.topology_version(), "ok": 0.0, "errmsg": "not primary", "code": 10107,
            "codeName": "NotWritablePrimary", "errorLabels": ["RetryableWriteError"],
        })

    def find(self, member, command):
        if member != self.primary:
            return self.with_times({"ok": 0.0, "errmsg": "not primary and secondaryOk=false", "code": 13435,
                                    "codeName": "NotPrimaryNoSecondaryOk", "topologyVersion": self.topology_version()})
        found = self.documents.get(command["filter"].get("_id"))
        batch = [] if found is None else [found]
        return self.with_times({
            "cursor": {"firstBatch": batch, "id": Long(0), "ns": f"{command['$db']}.{command['find']}"}, "ok": 1.0,
        })

    def write(self, member, command):
        if member != self.primary:
            return self.refusal()
        self.tries += 1
        key = (bytes(command["lsid"]["id"]), command["txnNumber"]) if "txnNumber" in command else None
        if key is not None and key in self.results:
            return self.with_times(dict(self.results[key]))
        self.writes += 1
        fate = self.on_write(self.writes)
        if fate == "step down":
            self.elect()
            return self.refusal()
        if fate in ("fail over", "cut off"):
            self.elect()
            if fate == "cut off":
                end(self.listeners[member])
            for stream in list(self.streams[member]):
                end(stream)
            return None
        reply = self.done_write(command)
        if key is not None:
            self.results[key] = dict(reply)
        return None if fate == "lose the answer" else self.with_times(reply)

    def done_write(self, command):
        reply = {"n": 1, "electionId": self.election_id(), "opTime": self.op_time(), "ok": 1.0}
        if "insert" in command:
            for document in command["documents"]:
                self.documents[document.get("_id")] = document
                self.done.append(document.get("_id"))
        return reply

    def elect(self):
        """No member is primary; a moment later the next one is."""
        old = self.primary
        self.primary = None
        self.counter += 1
        self.elections += 1

        def won():
            with self.lock:
                self.term += 1
                self.counter += 1
                self.primary = (old + 1) % 3

        threading.Timer(ELECTION_SECONDS, won).start()
