"""The cases of scripts/smoke on member_prog: what it answers over real sockets, to this file's own clients, to mdc and to
other people's drivers, and how it ends."""

import os
import resource
import shutil
import socket
import struct
import subprocess
import sys
import tempfile
import threading
import time
from pathlib import Path

HERE = Path(__file__).parent
WAIT_SECONDS = 60

# The clients that are connected at once.
CROWD = 1000

# So many open files are enough for them in each of the two programs.
OPEN_FILES = 2 * CROWD + 200

SET = "rs0"

# The usage line, and how the program ends.
USAGE = (2, "", "mdc member: usage\n")


# ---- BSON and OP_MSG, as far as these cases need them (bsonspec 1.1; MongoDB wire protocol)

def element(name, value):
    """The element of that name; truth values, int32, texts, documents and bytes (a binary of subtype 4)."""
    name = name.encode() + b"\0"
    if isinstance(value, bool):
        return b"\x08" + name + bytes([value])
    if isinstance(value, int):
        return b"\x10" + name + struct.pack("<i", value)
    if isinstance(value, Int64):
        return b"\x12" + name + struct.pack("<q", value.number)
    if isinstance(value, str):
        return b"\x02" + name + struct.pack("<i", len(value.encode()) + 1) + value.encode() + b"\0"
    if isinstance(value, bytes):
        return b"\x05" + name + struct.pack("<i", len(value)) + b"\x04" + value
    if isinstance(value, list):
        return b"\x04" + name + document({str(k): it for k, it in enumerate(value)})
    return b"\x03" + name + document(value)


class Int64:
    def __init__(self, number):
        self.number = number


def document(fields):
    inside = b"".join(element(name, value) for name, value in fields.items())
    return struct.pack("<i", len(inside) + 5) + inside + b"\0"


def message(id, fields):
    body = b"\0\0\0\0" + b"\0" + document(fields)
    return struct.pack("<iiii", 16 + len(body), id, 0, 2013) + body


def fields_of(data):
    """A document's fields; a double is its number, an ObjectId and a binary their bytes."""
    fields, at = {}, 4
    while data[at] != 0:
        kind, end = data[at], data.index(0, at + 1)
        name, at = data[at + 1:end].decode(), end + 1
        size = {1: 8, 7: 12, 8: 1, 9: 8, 16: 4, 17: 8, 18: 8, 10: 0}.get(kind)
        if size is None:
            long = int.from_bytes(data[at:at + 4], "little")
            size = {2: 4 + long, 3: long, 4: long, 5: 5 + long}[kind]
        value, at = data[at:at + size], at + size
        fields[name] = {
            1: lambda: struct.unpack("<d", value)[0],
            2: lambda: value[4:-1].decode(),
            3: lambda: fields_of(value),
            4: lambda: list(fields_of(value).values()),
            5: lambda: value[5:],
            8: lambda: value == b"\1",
            16: lambda: int.from_bytes(value, "little", signed=True),
            18: lambda: int.from_bytes(value, "little", signed=True),
        }.get(kind, lambda: value)()
    return fields


def body_of(data):
    """The fields of a message's body; documents may stand ahead of it in sequences of their own."""
    at = 20
    while data[at] == 1:
        at += 1 + int.from_bytes(data[at + 1:at + 5], "little")
    return fields_of(data[at + 1:])


def take(connection):
    """The next message; empty where the stream ended."""
    held = b""
    while len(held) < 4 or len(held) < int.from_bytes(held[:4], "little"):
        more = (int.from_bytes(held[:4], "little") if len(held) >= 4 else 16) - len(held)
        piece = connection.recv(more)
        if not piece:
            return b""
        held += piece
    return held


def insert(id, extra=None):
    return message(id, {"insert": "a", "documents": [{"_id": 7}], "ordered": True, "writeConcern": {"w": "majority"},
                        "apiVersion": "1", "$db": "test", **(extra or {})})


def hello(id):
    return message(id, {"hello": 1, "apiVersion": "1", "$db": "admin"})


# ---- The member

def free_port():
    with socket.create_server(("127.0.0.1", 0)) as server:
        return server.getsockname()[1]


class Member:
    """A member that listens, and ends behind so many turns in which nothing comes."""

    def __init__(self, program, turns=50, limit=None):
        self.port = free_port()
        self.process = subprocess.Popen([program, str(self.port), SET, str(turns)], stdout=subprocess.PIPE, stderr=subprocess.PIPE,
                                        text=True, preexec_fn=limit)
        self.host = f"127.0.0.1:{self.port}"
        for _ in range(500):
            try:
                self.connect().close()
                return
            except ConnectionRefusedError:
                time.sleep(0.02)
        raise RuntimeError("the member does not listen")

    def connect(self, room=None):
        """A connection; with so many bytes of room for what comes, where that is given."""
        connection = socket.socket()
        connection.settimeout(WAIT_SECONDS)
        connection.setsockopt(socket.IPPROTO_TCP, socket.TCP_NODELAY, 1)
        if room:
            connection.setsockopt(socket.SOL_SOCKET, socket.SO_RCVBUF, room)
        try:
            connection.connect(("127.0.0.1", self.port))
        except OSError:
            connection.close()
            raise
        return connection

    def ask(self, request):
        """The answer on a connection of its own; empty where the member closed that, which resets one that has bytes unread."""
        with self.connect() as connection:
            try:
                connection.sendall(request)
                return take(connection)
            except ConnectionError:
                return b""

    def leave(self):
        """Ends it now."""
        self.process.kill()
        self.process.communicate()

    def end(self):
        """How it ended by itself."""
        out, err = self.process.communicate(timeout=WAIT_SECONDS)
        return self.process.returncode, out, err


def called(program, words):
    done = subprocess.run([program, *words], capture_output=True, text=True, timeout=WAIT_SECONDS)
    return done.returncode, done.stdout, done.stderr


# ---- How it begins and ends

def word_cases(program, compare):
    refused = [[], ["27117"], ["27117", "rs0"], ["27117", "rs0", "1", "1"], ["0", "rs0", "1"], ["65536", "rs0", "1"],
               ["+27117", "rs0", "1"], ["-1", "rs0", "1"], ["027117", "rs0", "1"], ["27117 ", "rs0", "1"], ["", "rs0", "1"],
               ["27117", "", "1"], ["27117", "rs0", "0"], ["27117", "rs0", "1000001"], ["27117", "rs0", "1.0"],
               ["27117", "rs0", "٣"], ["18446744073709551617", "rs0", "1"], ["--help"]]
    for words in refused:
        compare(f"the member's words {words}", called(program, words), USAGE)
    compare("a word that is not UTF-8", called(program, ["27117", b"\xff", "1"]), USAGE)
    compare("a set's name of 100,000 bytes", called(program, [str(free_port()), "s" * 100_000, "1"]), (0, "", ""))
    compare("the member's stored words", called(program, [str(free_port()), SET, "1"]), (0, "", ""))
    with socket.create_server(("127.0.0.1", 0)) as taken:
        words = [str(taken.getsockname()[1]), SET, "1"]
        compare("a port that is taken", called(program, words), (1, "", ""))


# ---- What it answers

def answer_cases(program, compare):
    member = Member(program)
    # {n: 1, ok: 1.0} to the request with id 1: the id of a connection's first answer is 0.
    plain = "2d000000 00000000 01000000 dd070000 00000000 00 18000000 10 6e00 01000000 01 6f6b00 000000000000f03f 00"
    compare("the bytes of an answer", member.ask(insert(1)).hex(), plain.replace(" ", ""))
    said = body_of(member.ask(hello(5)))
    wanted = {"isWritablePrimary": True, "secondary": False, "setName": SET, "setVersion": 1, "hosts": [member.host],
              "me": member.host, "primary": member.host, "minWireVersion": 0, "maxWireVersion": 21,
              "logicalSessionTimeoutMinutes": 30, "ok": 1.0}
    compare("a hello", {name: said.get(name) for name in wanted}, wanted)
    with member.connect() as connection:
        for byte in insert(3):
            connection.sendall(bytes([byte]))
        compare("a request byte by byte", take(connection)[8:12], b"\3\0\0\0")
        connection.sendall(insert(4) + hello(5) + insert(6)[:20])
        compare("two requests and a half at once", [take(connection)[8:12] for _ in range(2)], [b"\4\0\0\0", b"\5\0\0\0"])
        connection.sendall(insert(6)[20:])
        compare("the other half", take(connection)[8:12], b"\6\0\0\0")
    number = {"lsid": {"id": bytes(range(16))}, "txnNumber": Int64(1)}
    compare("a write that comes again", [body_of(member.ask(insert(k, number))) for k in (1, 2)], [{"n": 1, "ok": 1.0}] * 2)
    flaws = [("a length of 25", struct.pack("<iiii", 25, 1, 0, 2013)), ("a length of 48,000,001", struct.pack("<iiii", 48_000_001, 1, 0, 2013)),
             ("an opcode of 2004", struct.pack("<iiii", 58, 1, 0, 2004)), ("flag bit 2", insert(1)[:16] + b"\4" + insert(1)[17:])]
    with member.connect() as other:
        for name, data in flaws:
            compare(f"{name} ends the stream", member.ask(data), b"")
        other.sendall(hello(1))
        compare("another client behind those", take(other)[8:12], b"\1\0\0\0")
    compare("it ended", member.end(), (0, "", ""))


def send_all_it_takes(connection):
    """Sends requests and reads no answer, until nothing was taken for a second; how many bytes that were."""
    connection.settimeout(1)
    sent, many = 0, hello(1) * 1000
    try:
        while sent < 100_000_000:
            sent += connection.send(many)
    except TimeoutError:
        pass
    return sent


def busy_cases(program, compare):
    """A client that sends half a message and stays silent, and one that never reads its answers, while another is served."""
    member = Member(program, turns=10)
    with member.connect() as silent, member.connect(room=4096) as deaf:
        silent.sendall(insert(1)[:40])
        sent = send_all_it_takes(deaf)
        served = [body_of(member.ask(insert(k)))["n"] for k in range(20)]
        compare("others while one is silent and one reads nothing", served, [1] * 20)
        began = time.monotonic()
        ended = member.end()
        took = time.monotonic() - began
    compare("it ended though both stayed", ended, (0, "", ""))
    print(f"it ended {took:.2f} seconds behind them; the client that reads nothing could send {sent} bytes")
    compare("the client that reads nothing was read no further", sent < 100_000_000, True)


def crowd_cases(program, compare):
    """A thousand clients at once, each served twice."""
    most = resource.getrlimit(resource.RLIMIT_NOFILE)[1]
    if most != resource.RLIM_INFINITY and most < OPEN_FILES:
        print(f"skipped: a thousand connections at once need {OPEN_FILES} open files, and the limit is {most} (ulimit -Hn)")
        return
    before = resource.getrlimit(resource.RLIMIT_NOFILE)
    resource.setrlimit(resource.RLIMIT_NOFILE, (max(OPEN_FILES, before[0]), most))
    member = Member(program)
    began = time.monotonic()
    crowd = [member.connect() for _ in range(CROWD)]
    got = []
    for k in range(2):
        for connection in crowd:
            connection.sendall(insert(k))
        got += [body_of(take(connection)) for connection in reversed(crowd)]
    took = time.monotonic() - began
    for connection in crowd:
        connection.close()
    compare(f"{CROWD} connections at once", got == [{"n": 1, "ok": 1.0}] * (2 * CROWD), True)
    print(f"{CROWD} connections with two inserts each took {took:.2f} seconds")
    compare("it ended behind them", member.end(), (0, "", ""))
    resource.setrlimit(resource.RLIMIT_NOFILE, before)


def file_cases(program, compare):
    """Where the member may open no more files, clients wait until others leave."""
    member = Member(program, limit=lambda: resource.setrlimit(resource.RLIMIT_NOFILE, (16, 16)))
    crowd = [member.connect() for _ in range(30)]
    for connection in crowd:
        connection.sendall(insert(1))
    served = []
    for connection in crowd:
        served.append(body_of(take(connection))["n"])
        connection.close()
    compare("30 clients where 16 files may be open", served, [1] * 30)
    compare("it ended behind those", member.end(), (0, "", ""))


def mdc_cases(program, mdc, compare):
    """mdc against the member: each command, and what the member says to it."""
    member = Member(program)
    script = "".join(line + "\n" for line in [
        '{"lane":1,"op":"insert","coll":"a","doc":{"_id":7}}',
        '{"lane":1,"op":"update","coll":"a","filter":{"_id":7},"change":{"$set":{"x":1}}}',
        '{"lane":1,"op":"findAndModify","coll":"a","filter":{"_id":7},"remove":true}',
        '{"lane":1,"op":"find","coll":"a","filter":{"_id":7}}',
        '{"lane":1,"op":"delete","coll":"a","filter":{"_id":7}}',
    ])
    lines = ["n=1 modified=0", "n=1 modified=1", "n=1 modified=0", "n=0 modified=0", "n=1 modified=0"]
    wanted = "".join(f"{k}: ok {line} attempts=1\n" for k, line in enumerate(lines, 1)) + "done 5 ok 5\n"
    done = subprocess.run([mdc, "run", f"mongodb://{member.host}"], input=script, capture_output=True, text=True, timeout=WAIT_SECONDS)
    compare("mdc against the member", (done.returncode, done.stdout, done.stderr), (0, wanted, ""))
    compare("the member of that", member.end(), (0, "", ""))


# ---- Other people's drivers

class Relay:
    """Stands between a driver and the member, and notes each request. The answer to the first insert is lost where asked."""

    def __init__(self, member, loses):
        self.member, self.loses, self.requests, self.lock = member, loses, [], threading.Lock()
        self.server = socket.create_server(("127.0.0.1", 0))
        self.uri = f"mongodb://127.0.0.1:{self.server.getsockname()[1]}/?directConnection=true&serverSelectionTimeoutMS=8000&retryWrites=true"
        threading.Thread(target=self.accept, daemon=True).start()

    def accept(self):
        while True:
            try:
                client, _ = self.server.accept()
            except OSError:
                return
            threading.Thread(target=self.relay, args=[client], daemon=True).start()

    def relay(self, client):
        try:
            with client, self.member.connect() as member:
                while request := take(client):
                    is_lost = self.note(request)
                    member.sendall(request)
                    answer = take(member)
                    if is_lost or not answer:
                        return
                    client.sendall(answer)
        except OSError:
            pass  # the driver went away

    def note(self, request):
        """Notes a request, and says whether its answer is to be lost."""
        with self.lock:
            self.requests.append(request)
            is_first = self.loses and is_message(request) and "insert" in body_of(request)
            self.loses = self.loses and not is_first
            return is_first

    def close(self):
        self.server.close()


def is_message(request):
    """Whether it is an OP_MSG message."""
    return request[12:16] == struct.pack("<i", 2013)


def pymongo_words(_folder):
    """How to run pymongo: by this Python or by the system's."""
    for python in [sys.executable, "/usr/bin/python3"]:
        words = [python, str(HERE / "drivers" / "with_pymongo.py")]
        if Path(python).exists() and subprocess.run(words, capture_output=True).returncode == 2:
            return words
    return None


def libmongoc_words(folder):
    flags = subprocess.run(["pkg-config", "--cflags", "--libs", "libmongoc-1.0"], capture_output=True, text=True) if shutil.which("pkg-config") else None
    if flags is None or flags.returncode or not shutil.which("cc"):
        return None
    program = str(folder / "with_libmongoc")
    subprocess.run(["cc", "-o", program, str(HERE / "drivers" / "with_libmongoc.c"), *flags.stdout.split()], check=True)
    return [program]


def go_words(folder):
    if not shutil.which("go"):
        return None
    program = str(folder / "with_go")
    path = os.environ.get("GOPATH", "/usr/share/gocode")
    built = subprocess.run(["go", "build", "-o", program, "."], cwd=HERE / "drivers" / "with_go", capture_output=True,
                           env={**os.environ, "GO111MODULE": "off", "GOPATH": path, "GOFLAGS": ""})
    return [program] if built.returncode == 0 else None


# (the driver, how to run it, what to install)
DRIVERS = [
    ("pymongo", pymongo_words, "pymongo 3.12 or later, for this Python or the system's"),
    ("libmongoc", libmongoc_words, "libmongoc-dev, pkg-config and a C compiler"),
    ("the Go driver", go_words, "golang-go and golang-mongodb-mongo-driver-dev, or a GOPATH that has the driver"),
]

# What each prints: one document inserted, updated, not found, since the member keeps none, and deleted.
PRINTED = {"pymongo": "insert 7\nupdate 1 1\nfind 0\ndelete 1\n", "libmongoc": "insert 1\nupdate 1 1\nfind 0\ndelete 1\n",
           "the Go driver": "insert 7\nupdate 1 1\nfind 0\ndelete 1\n"}


def why_not(requests):
    """Why a driver cannot be served by this member, if it cannot."""
    if not all(is_message(request) for request in requests):
        return "this version greets by OP_QUERY also under the Stable API, which the member does not read; a later one is needed"
    return None


def driver_cases(program, compare):
    with tempfile.TemporaryDirectory() as folder:
        for name, find_words, needs in DRIVERS:
            words = find_words(Path(folder))
            if words is None:
                print(f"skipped: {name} is not installed here; it needs {needs}")
                continue
            for loses in [False, True]:
                if not driver_case(program, name, words, loses, compare):
                    break


def driver_case(program, name, words, loses, compare):
    """One run of a driver; whether it can be served."""
    member = Member(program, turns=200)
    relay = Relay(member, loses)
    try:
        done = subprocess.run([*words, relay.uri], capture_output=True, text=True, timeout=WAIT_SECONDS)
        got = done.returncode, done.stdout, done.stderr
    except subprocess.TimeoutExpired:
        got = "it did not end", "", ""
    relay.close()
    member.leave()
    reason = why_not(relay.requests)
    if reason:
        print(f"skipped: {name}: {reason}")
        return False
    compare(f"{name}, whose first insert's answer is lost" if loses else name, got, (0, PRINTED[name], ""))
    bodies = [body_of(request) for request in relay.requests]
    inserts = [(body.get("lsid"), body.get("txnNumber")) for body in bodies if "insert" in body]
    is_same = len(inserts) == 1 + loses and len({str(pair) for pair in inserts}) == 1 and None not in inserts[0]
    compare(f"{name} sent the insert {1 + loses} times, as one numbered write", is_same, True)
    compare(f"{name} says apiVersion 1 each time", {body.get("apiVersion") for body in bodies}, {"1"})
    return True


def member_cases(program, mdc, counted):
    """All of them; `counted` compares what came with what was wanted, under a name."""
    word_cases(program, counted)
    answer_cases(program, counted)
    busy_cases(program, counted)
    crowd_cases(program, counted)
    file_cases(program, counted)
    mdc_cases(program, mdc, counted)
    driver_cases(program, counted)
