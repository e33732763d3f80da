"""The cases of scripts/smoke: what a peer answers over a real socket, and what mdc must print, end with and have sent; and
those of member_prog (smoke_member.py). Those of a set are in smoke_set.py."""

import os
import re
import socket
import subprocess
import sys
import threading
import time

from responder import Peer
from smoke_member import member_cases

WAIT_SECONDS = 300

# The inserts of a long script, and of one whose replies come late.
COUNT = 1000
LATE_COUNT = 100

# Nothing listens there.
NOBODY = "127.0.0.1:1"

# The script of one insert.
SCRIPT = '{"lane":1,"op":"insert","coll":"a","doc":{"_id":7}}\n'

# Its request: the insert of {_id: 7} into collection `a` of database `test`, with id 3, by the OP_MSG and BSON standards.
REQUEST = (
    "96000000 03000000 00000000 dd070000 00000000 00 81000000"
    " 02 696e7365727400 02000000 6100"
    " 04 646f63756d656e747300 16000000 03 3000 0e000000 10 5f696400 07000000 00 00"
    " 08 6f72646572656400 01"
    " 03 7772697465436f6e6365726e00 15000000 02 7700 09000000 6d616a6f7269747900 00"
    " 02 61706956657273696f6e00 02000000 3100"
    " 02 24646200 05000000 7465737400 00"
).replace(" ", "")

# Its request in the database `other`.
OTHER_REQUEST = (
    "97000000 03000000 00000000 dd070000 00000000 00 82000000"
    " 02 696e7365727400 02000000 6100"
    " 04 646f63756d656e747300 16000000 03 3000 0e000000 10 5f696400 07000000 00 00"
    " 08 6f72646572656400 01"
    " 03 7772697465436f6e6365726e00 15000000 02 7700 09000000 6d616a6f7269747900 00"
    " 02 61706956657273696f6e00 02000000 3100"
    " 02 24646200 06000000 6f7468657200 00"
).replace(" ", "")

# {n: 1, ok: 1.0} in answer to it.
REPLY = (
    "2d000000 07000000 03000000 dd070000 00000000 00"
    " 18000000 10 6e00 01000000 01 6f6b00 000000000000f03f 00"
).replace(" ", "")

# {ok: 1.0} in answer to it.
REPLY_WITHOUT_N = (
    "26000000 07000000 03000000 dd070000 00000000 00 11000000 01 6f6b00 000000000000f03f 00"
).replace(" ", "")

# The first hello on a stream, with id 1: {hello: 1, client: {driver: {name: "mdc", version: "1"}, os: {type: "Linux"}},
# apiVersion: "1", $db: "admin"}.
HELLO = (
    "96000000 01000000 00000000 dd070000 00000000 00 81000000"
    " 10 68656c6c6f00 01000000"
    " 03 636c69656e7400 48000000 03 64726976657200 22000000 02 6e616d6500 04000000 6d646300"
    " 02 76657273696f6e00 02000000 3100 00 03 6f7300 15000000 02 7479706500 06000000 4c696e757800 00 00"
    " 02 61706956657273696f6e00 02000000 3100"
    " 02 24646200 06000000 61646d696e00 00"
).replace(" ", "")

# How its document begins.
HELLO_NAME = "1068656c6c6f00"

# A later hello on a stream, with id 1: {hello: 1, apiVersion: "1", $db: "admin"}.
HELLO_AGAIN = (
    "46000000 01000000 00000000 dd070000 00000000 00 31000000"
    " 10 68656c6c6f00 01000000"
    " 02 61706956657273696f6e00 02000000 3100"
    " 02 24646200 06000000 61646d696e00 00"
).replace(" ", "")

# What a standalone server answers to a hello with id 1: {ok: 1.0, minWireVersion: 0, maxWireVersion: 21}.
STANDALONE = (
    "4e000000 07000000 01000000 dd070000 00000000 00 39000000 01 6f6b00 000000000000f03f"
    " 10 6d696e5769726556657273696f6e00 00000000 10 6d61785769726556657273696f6e00 15000000 00"
).replace(" ", "")

# What a mongos answers, which has sessions: {ok: 1.0, msg: "isdbgrid", minWireVersion: 0, maxWireVersion: 21,
# logicalSessionTimeoutMinutes: 30}.
MONGOS = (
    "82000000 07000000 01000000 dd070000 00000000 00 6d000000 01 6f6b00 000000000000f03f"
    " 02 6d736700 09000000 6973646267726964 00"
    " 10 6d696e5769726556657273696f6e00 00000000 10 6d61785769726556657273696f6e00 15000000"
    " 10 6c6f676963616c53657373696f6e54696d656f75744d696e7574657300 1e000000 00"
).replace(" ", "")

# {ok: 1.0} in answer to the request with id 1.
ACCEPTED = REPLY_WITHOUT_N[:16] + "01000000" + REPLY_WITHOUT_N[24:]


def with_bytes(reply, place, digits):
    """The reply with other bytes at a place."""
    at = 2 * place
    return reply[:at] + digits + reply[at + len(digits):]


def number(n):
    """A number of four bytes, the lowest first."""
    return n.to_bytes(4, "little").hex()


def request(id, sent=REQUEST):
    """The request with another id, which stands at place 4."""
    return with_bytes(sent, 4, number(id))


def reply_to(id, reply=REPLY):
    """The reply to the request of that id; responseTo stands at place 8."""
    return with_bytes(reply, 8, number(id))


def whole(id, reply=REPLY):
    return "whole", reply_to(id, reply)


OK = "1: ok n=1 modified=0 attempts=1"
NETWORK = "1: network attempts=1"

# (what the case shows, how the peer answers the insert, the command's line, status). Ahead of it the peer answers the hello of
# the check, which has id 1 and a stream of its own, and that of the connection, which has id 2.
CASES = [
    ("a reply at once", ("whole", REPLY), OK, 0),
    ("a reply byte by byte", ("bytes", REPLY), OK, 0),
    ("a reply without n", ("whole", REPLY_WITHOUT_N), "1: ok n=0 modified=0 attempts=1", 0),
    ("two replies at once", ("whole", REPLY + REPLY), OK, 0),
    ("a reply cut behind 15 bytes", ("cut", REPLY[:30]), NETWORK, 1),
    ("a reply cut behind 40 bytes", ("cut", REPLY[:80]), NETWORK, 1),
    ("the end in place of a reply", ("cut", ""), NETWORK, 1),
    ("the answer to another request", ("whole", with_bytes(REPLY, 8, "02000000")), "1: bad-reply 8 attempts=1", 1),
    ("a length of 25", ("whole", with_bytes(REPLY, 0, "19000000")), "1: bad-reply 0 attempts=1", 1),
    ("a length below zero", ("whole", with_bytes(REPLY, 0, "ffffffff")), "1: bad-reply 0 attempts=1", 1),
    ("an opcode of 1", ("whole", with_bytes(REPLY, 12, "01000000")), "1: bad-reply 12 attempts=1", 1),
    ("flag bit 2", ("whole", with_bytes(REPLY, 16, "04000000")), "1: bad-reply 16 attempts=1", 1),
    ("flag bit 17", ("whole", with_bytes(REPLY, 16, "00000200")), OK, 0),
    ("a section of kind 9", ("whole", with_bytes(REPLY, 20, "09")), "1: bad-reply 20 attempts=1", 1),
    ("a document that is too long", ("whole", with_bytes(REPLY, 21, "19000000")), "1: bad-reply 21 attempts=1", 1),
    ("ok is zero, with a code", ("whole", "30000000 07000000 03000000 dd070000 00000000 00 1b000000 01 6f6b00 0000000000000000 10 636f646500 10270000 00".replace(" ", "")), "1: error 10000 attempts=1", 1),
]

# Each command of a script, and each thing that a reply may say: (the script's line, its request and the reply, both without
# their ids and by the OP_MSG and BSON standards, what the report says)
COMMANDS = [
    (
        '{"lane":1,"op":"insert","coll":"a","doc":{"_id":7}}',
        "96000000 00000000 00000000 dd070000 00000000 00 81000000 02 696e73657274 00 02000000 61 00 04 "
        "646f63756d656e7473 00 16000000 03 30 00 0e000000 10 5f6964 00 07000000 00 00 08 6f726465726564 00 01 03 "
        "7772697465436f6e6365726e 00 15000000 02 77 00 09000000 6d616a6f72697479 00 00 02 61706956657273696f6e 00 "
        "02000000 31 00 02 246462 00 05000000 74657374 00 00 ",
        "2d000000 07000000 00000000 dd070000 00000000 00 18000000 10 6e 00 01000000 01 6f6b 00 000000000000f03f 00 ",
        "ok n=1 modified=0",
    ),
    (
        '{"lane":1,"op":"insert","coll":"a","doc":{"_id":7}}',
        "96000000 00000000 00000000 dd070000 00000000 00 81000000 02 696e73657274 00 02000000 61 00 04 "
        "646f63756d656e7473 00 16000000 03 30 00 0e000000 10 5f6964 00 07000000 00 00 08 6f726465726564 00 01 03 "
        "7772697465436f6e6365726e 00 15000000 02 77 00 09000000 6d616a6f72697479 00 00 02 61706956657273696f6e 00 "
        "02000000 31 00 02 246462 00 05000000 74657374 00 00 ",
        "79000000 07000000 00000000 dd070000 00000000 00 64000000 10 6e 00 00000000 04 77726974654572726f7273 00 "
        "3f000000 03 30 00 1a000000 10 696e646578 00 00000000 10 636f6465 00 f82a0000 00 03 31 00 1a000000 10 "
        "696e646578 00 01000000 10 636f6465 00 07000000 00 00 01 6f6b 00 000000000000f03f 00 ",
        "write-errors 2 first=11000",
    ),
    (
        '{"lane":1,"op":"update","coll":"a","filter":{"_id":7},"change":{"$set":{"x":1}}}',
        "c7000000 00000000 00000000 dd070000 00000000 00 b2000000 02 757064617465 00 02000000 61 00 04 75706461746573 "
        "00 49000000 03 30 00 41000000 03 71 00 0e000000 10 5f6964 00 07000000 00 03 75 00 17000000 03 24736574 00 "
        "0c000000 10 78 00 01000000 00 00 08 6d756c7469 00 00 08 757073657274 00 00 00 00 08 6f726465726564 00 01 03 "
        "7772697465436f6e6365726e 00 15000000 02 77 00 09000000 6d616a6f72697479 00 00 02 61706956657273696f6e 00 "
        "02000000 31 00 02 246462 00 05000000 74657374 00 00 ",
        "3c000000 07000000 00000000 dd070000 00000000 00 27000000 10 6e 00 01000000 10 6e4d6f646966696564 00 01000000 "
        "01 6f6b 00 000000000000f03f 00 ",
        "ok n=1 modified=1",
    ),
    (
        '{"lane":1,"op":"update","coll":"a","filter":{"_id":7},"change":{"$set":{"x":1}},"multi":true,"upsert":true}',
        "c7000000 00000000 00000000 dd070000 00000000 00 b2000000 02 757064617465 00 02000000 61 00 04 75706461746573 "
        "00 49000000 03 30 00 41000000 03 71 00 0e000000 10 5f6964 00 07000000 00 03 75 00 17000000 03 24736574 00 "
        "0c000000 10 78 00 01000000 00 00 08 6d756c7469 00 01 08 757073657274 00 01 00 00 08 6f726465726564 00 01 03 "
        "7772697465436f6e6365726e 00 15000000 02 77 00 09000000 6d616a6f72697479 00 00 02 61706956657273696f6e 00 "
        "02000000 31 00 02 246462 00 05000000 74657374 00 00 ",
        "2d000000 07000000 00000000 dd070000 00000000 00 18000000 10 6e 00 01000000 01 6f6b 00 000000000000f03f 00 ",
        "ok n=1 modified=0",
    ),
    (
        '{"lane":1,"op":"delete","coll":"a","filter":{"_id":7}}',
        "a7000000 00000000 00000000 dd070000 00000000 00 92000000 02 64656c657465 00 02000000 61 00 04 64656c65746573 "
        "00 29000000 03 30 00 21000000 03 71 00 0e000000 10 5f6964 00 07000000 00 10 6c696d6974 00 01000000 00 00 08 "
        "6f726465726564 00 01 03 7772697465436f6e6365726e 00 15000000 02 77 00 09000000 6d616a6f72697479 00 00 02 "
        "61706956657273696f6e 00 02000000 31 00 02 246462 00 05000000 74657374 00 00 ",
        "4f000000 07000000 00000000 dd070000 00000000 00 3a000000 10 6e 00 01000000 03 "
        "7772697465436f6e6365726e4572726f72 00 0f000000 10 636f6465 00 40000000 00 01 6f6b 00 000000000000f03f 00 ",
        "concern 64",
    ),
    (
        '{"lane":1,"op":"delete","coll":"a","db":"other","filter":{},"limit":0}',
        "9f000000 00000000 00000000 dd070000 00000000 00 8a000000 02 64656c657465 00 02000000 61 00 04 64656c65746573 "
        "00 20000000 03 30 00 18000000 03 71 00 05000000 00 10 6c696d6974 00 00000000 00 00 08 6f726465726564 00 01 "
        "03 7772697465436f6e6365726e 00 15000000 02 77 00 09000000 6d616a6f72697479 00 00 02 61706956657273696f6e 00 "
        "02000000 31 00 02 246462 00 06000000 6f74686572 00 00 ",
        "29000000 07000000 00000000 dd070000 00000000 00 14000000 10 6e 00 03000000 10 6f6b 00 01000000 00 ",
        "ok n=3 modified=0",
    ),
    (
        '{"lane":1,"op":"findAndModify","coll":"a","filter":{"_id":7},"change":{"x":1}}',
        "9b000000 00000000 00000000 dd070000 00000000 00 86000000 02 66696e64416e644d6f64696679 00 02000000 61 00 03 "
        "7175657279 00 0e000000 10 5f6964 00 07000000 00 03 757064617465 00 0c000000 10 78 00 01000000 00 03 "
        "7772697465436f6e6365726e 00 15000000 02 77 00 09000000 6d616a6f72697479 00 00 02 61706956657273696f6e 00 "
        "02000000 31 00 02 246462 00 05000000 74657374 00 00 ",
        "58000000 07000000 00000000 dd070000 00000000 00 43000000 03 6c6173744572726f724f626a656374 00 0c000000 10 6e "
        "00 01000000 00 03 76616c7565 00 0e000000 10 5f6964 00 07000000 00 01 6f6b 00 000000000000f03f 00 ",
        "ok n=1 modified=0",
    ),
    (
        '{"lane":1,"op":"findAndModify","coll":"a","filter":{"_id":7},"remove":true}',
        "90000000 00000000 00000000 dd070000 00000000 00 7b000000 02 66696e64416e644d6f64696679 00 02000000 61 00 03 "
        "7175657279 00 0e000000 10 5f6964 00 07000000 00 08 72656d6f7665 00 01 03 7772697465436f6e6365726e 00 "
        "15000000 02 77 00 09000000 6d616a6f72697479 00 00 02 61706956657273696f6e 00 02000000 31 00 02 246462 00 "
        "05000000 74657374 00 00 ",
        "5d000000 07000000 00000000 dd070000 00000000 00 48000000 01 6f6b 00 0000000000000000 10 636f6465 00 7b270000 "
        "04 6572726f724c6162656c73 00 20000000 02 30 00 14000000 526574727961626c6557726974654572726f72 00 00 00 ",
        "error 10107",
    ),
    (
        '{"lane":1,"op":"find","coll":"a","filter":{"_id":7}}',
        "75000000 00000000 00000000 dd070000 00000000 00 60000000 02 66696e64 00 02000000 61 00 03 66696c746572 00 "
        "0e000000 10 5f6964 00 07000000 00 10 6c696d6974 00 01000000 08 73696e676c654261746368 00 01 02 "
        "61706956657273696f6e 00 02000000 31 00 02 246462 00 05000000 74657374 00 00 ",
        "81000000 07000000 00000000 dd070000 00000000 00 6c000000 03 637572736f72 00 53000000 04 66697273744261746368 "
        "00 27000000 03 30 00 0e000000 10 5f6964 00 07000000 00 03 31 00 0e000000 10 5f6964 00 08000000 00 00 12 6964 "
        "00 0000000000000000 02 6e73 00 07000000 746573742e61 00 00 01 6f6b 00 000000000000f03f 00 ",
        "ok n=2 modified=0",
    ),
]


# Words that are refused: neither `run URI` nor `soak SEED N`; a word that begins with a dash; a connection string at fault.
REFUSED = [
    [],
    ["run"],
    ["soak", "1"],
    ["help"],
    [""],
    ["insert", "mongodb://h"],
    ["run", "mongodb://h", "test"],
    ["soak", "1", "5", "5"],
    ["soak", "1", "0"],
    ["soak", "1", "100001"],
    ["soak", "18446744073709551616", "5"],
    ["soak", "+1", "5"],
    ["soak", "", "5"],
    ["soak", "1", "5.0"],
    ["--help"],
    ["run", "-x"],
    ["run", "127.0.0.1:1", "-", "test"],
    ["soak", "-1", "5"],
    ["soak", "1", "-5"],
    ["run", ""],
    ["run", "127.0.0.1:1"],
    ["run", "http://h"],
    ["run", "mongodb+srv://h"],
    ["run", "mongodb://u:p@h"],
    ["run", "mongodb://h%2"],
    ["run", "mongodb://"],
    ["run", "mongodb://h:1,"],
    ["run", "mongodb://h:1,,i:1"],
    ["run", "mongodb://h:70000"],
    ["run", "mongodb://h:1,h:70000/?replicaSet=rs0"],
    ["run", "mongodb://h/?tls=true"],
    ["run", "mongodb://h/?w=1"],
    ["run", "mongodb://h,i/?directConnection=true"],
    ["run", "mongodb://h/?readPreferenceTags=dc:x"],
    ["run", b"mongodb://h\xff"],
    [b"\xff", "1", "5"],
]

# (what the case shows, the words, the script, the status, what is printed, what is complained), where nothing is dialled
UNDIALLED = [
    ("an empty script", ["run", f"mongodb://{NOBODY}"], "", 0, "done 0 ok 0\n", ""),
    ("several hosts, one of them twice, and a set's name", ["run", f"mongodb://{NOBODY},i,{NOBODY}/?replicaSet=rs0"], "", 0, "done 0 ok 0\n", ""),
    ("options that are ignored", ["run", f"mongodb://{NOBODY}/?appName=x&retryWrites=maybe"], "", 0,
     "ignored appname\nignored retrywrites\ndone 0 ok 0\n", ""),
    ("a lane of 0 in the second line", ["run", f"mongodb://{NOBODY}"], SCRIPT + SCRIPT.replace('"lane":1', '"lane":0'), 3, "", "mdc: script line 2\n"),
]

# What a soak prints a line of each.
NAMES = ["commands", "ok", "attempts", "elections", "writes", "effects", "most"]


def run(mdc, words, script=SCRIPT):
    done = subprocess.run([mdc, *words], input=script, capture_output=True, text=True, timeout=WAIT_SECONDS)
    return done.returncode, done.stdout, done.stderr


def words_of(peer):
    return ["run", f"mongodb://{peer.host}"]


def run_at(mdc, peer, script=SCRIPT):
    return run(mdc, words_of(peer), script)


def compare(name, got, wanted, counts):
    if got == wanted:
        counts[0] += 1
        print(f"ok: {name}")
    else:
        counts[1] += 1
        print(f"FAILED: {name}\n  wanted {wanted!r}\n  got    {got!r}")


def ok_lines(count):
    return "".join(f"{k}: ok n=1 modified=0 attempts=1\n" for k in range(1, count + 1)) + f"done {count} ok {count}\n"


def peer_cases(mdc, counts):
    sent = []
    for name, given, line, status in CASES:
        peer = Peer([[whole(1, STANDALONE)], [whole(2, STANDALONE), given]])
        wanted = (status, f"{line}\ndone 1 ok {1 if status == 0 else 0}\n", "")
        compare(name, run_at(mdc, peer), wanted, counts)
        sent.append(peer.end())
    compare("what was sent", sent, [[[HELLO], [request(2, HELLO), REQUEST]]] * len(CASES), counts)


def script_cases(mdc, counts):
    """A wrong id and a cut change their own lines alone. Behind the wrong id, in answer to the fifth request, the connection is closed,
    and the next command dials another; behind the cut, in answer to the eighth request, the server is checked again and a third
    connection dialled."""
    peer = Peer([
        [whole(1, STANDALONE), whole(9, STANDALONE)],
        [whole(2, STANDALONE), whole(3), whole(4), ("whole", reply_to(9))],
        [whole(6, STANDALONE), whole(7), ("cut", reply_to(8)[:80])],
        [whole(10, STANDALONE), whole(11)],
    ])
    lines = [f"{k}: ok n=1 modified=0 attempts=1" for k in range(1, 7)]
    lines[2], lines[4] = "3: bad-reply 8 attempts=1", "5: network attempts=1"
    wanted = (1, "\n".join(lines) + "\ndone 6 ok 4\n", "")
    compare("a wrong id and a cut", run_at(mdc, peer, SCRIPT * 6), wanted, counts)
    sent = [
        [HELLO, request(9, HELLO_AGAIN)],
        [request(2, HELLO), *[request(id) for id in (3, 4, 5)]],
        [request(6, HELLO), request(7), request(8)],
        [request(10, HELLO), request(11)],
    ]
    compare("what those sent", peer.end(), sent, counts)


def command_cases(mdc, counts):
    """A script of all commands; the ids count from 3, the request's at place 4 and the reply's responseTo at place 8. Behind the
    last but one, which says that the server is no primary, the server is checked again, by the eleventh request."""
    script = "".join(line + "\n" for line, _, _, _ in COMMANDS)
    ids = [*range(3, 11), 12]
    sent = [request(id, request_of.replace(" ", "")) for id, (_, request_of, _, _) in zip(ids, COMMANDS)]
    replies = [whole(id, reply.replace(" ", "")) for id, (_, _, reply, _) in zip(ids, COMMANDS)]
    lines = "".join(f"{k}: {says} attempts=1\n" for k, (_, _, _, says) in enumerate(COMMANDS, 1))
    count = sum(says.startswith("ok ") for _, _, _, says in COMMANDS)
    peer = Peer([[whole(1, STANDALONE), whole(11, STANDALONE)], [whole(2, STANDALONE), *replies]])
    wanted = (1, f"{lines}done {len(COMMANDS)} ok {count}\n", "")
    compare("every command, and what replies say", run_at(mdc, peer, script), wanted, counts)
    compare("what those sent", peer.end(), [[HELLO, request(11, HELLO_AGAIN)], [request(2, HELLO), *sent]], counts)


# The fields of a session's id and of a transaction number, with the id's sixteen bytes and the number's eight.
SESSION = re.compile("036c736964001e000000056964001000000004([0-9a-f]{32})00")
NUMBER = re.compile("1274786e4e756d62657200([0-9a-f]{16})")


# How an insert's document begins, and the name of the command that ends sessions.
INSERT_NAME = "02696e7365727400"
END_NAME = "656e6453657373696f6e7300"


def is_insert(sent):
    return sent[50:66] == INSERT_NAME


def written_as(sent):
    """The session's id and the transaction number in what was sent."""
    return [found.group(1) if (found := field.search(sent)) else None for field in (SESSION, NUMBER)]


def session_cases(mdc, counts):
    """Where the server has sessions a write goes out under one, with a number; one whose answer is lost goes out again as it was,
    but for the request's id; a session that is good at the end is ended."""
    peer = Peer([[whole(1, MONGOS)], [whole(2, MONGOS), whole(3), whole(4), whole(5, ACCEPTED)]])
    compare("two inserts under a session", run_at(mdc, peer, SCRIPT * 2), (0, ok_lines(2), ""), counts)
    sent = sum(peer.end(), [])
    session = written_as("".join(sent))[0] or "none"
    numbers = [written_as(one) for one in sent if is_insert(one)]
    compare("their session and numbers", numbers, [[session, "0100000000000000"], [session, "0200000000000000"]], counts)
    compare("the end of the session", [END_NAME in one and session in one for one in sent[4:]], [True], counts)
    peer = Peer([[whole(1, MONGOS), whole(5, MONGOS)], [whole(2, MONGOS), whole(3), ("cut", "")], [whole(6, MONGOS), whole(7)]])
    wanted = (0, ok_lines(2).replace("2: ok n=1 modified=0 attempts=1", "2: ok n=1 modified=0 attempts=2"), "")
    compare("an insert whose answer is lost", run_at(mdc, peer, SCRIPT * 2), wanted, counts)
    received = peer.end()
    inserts = [one for one in sum(received, []) if is_insert(one)]
    number_sent = [written_as(one)[1] for one in inserts]
    compare("its numbers", number_sent, ["0100000000000000", "0200000000000000", "0200000000000000"], counts)
    compare("it went out again as it was", inserts[2:], [request(7, one) for one in inserts[1:2]], counts)
    compare("the check between", received[:1], [[HELLO, request(5, HELLO_AGAIN)]], counts)


def answered(sent, how="whole"):
    """What a standalone server answers to a hello or an insert, by the request's own id: where a script takes longer than the
    ten seconds between checks, the check has an id among those of the commands."""
    id = int.from_bytes(bytes.fromhex(sent[8:16]), "little")
    return how, reply_to(id, STANDALONE if sent[50:64] == HELLO_NAME else REPLY)


def many_cases(mdc, counts):
    """So many inserts, over one connection."""
    peer = Peer([answered, answered])
    compare(f"a script of {COUNT} inserts", run_at(mdc, peer, SCRIPT * COUNT), (0, ok_lines(COUNT), ""), counts)
    inserts = [one for one in sum(peer.end()[1:], []) if is_insert(one)]
    compare("what those sent", [request(0, insert) for insert in inserts], [request(0)] * COUNT, counts)


def plain_inserts(peer):
    """How long so many inserts take by a client of this file, over one connection, waiting in each read."""
    name, port = peer.host.split(":")
    began = time.monotonic()
    with socket.create_connection((name, int(port))) as connection:
        connection.setsockopt(socket.IPPROTO_TCP, socket.TCP_NODELAY, 1)
        for id in range(LATE_COUNT):
            connection.sendall(bytes.fromhex(request(id)))
            connection.recv(65536)
    return time.monotonic() - began


def timed_run(mdc, how):
    """How so many inserts ended, each of which is answered so, and how long they took."""
    peer = Peer([answered, lambda sent: answered(sent, how(sent))])
    began = time.monotonic()
    got = run_at(mdc, peer, SCRIPT * LATE_COUNT)
    took = time.monotonic() - began
    peer.end()
    return got, took


def late_by(sent):
    """Behind 20 to 39 milliseconds, by the request's id."""
    return f"late {20 + int(sent[8:10], 16) % 20}"


def rest_cases(mdc, counts):
    """That a rest ends when the reply comes: where replies come late mdc takes about as long as where they come at once, and a
    plain client for its late ones. Of its rests in a wait all behind the tenth last ten milliseconds at most, so that it takes
    some five more an insert where each lasts its time. Other work on the machine can blur that, so it is tried again before
    it counts as failed."""
    for attempt in range(5):
        got, took = timed_run(mdc, late_by)
        if attempt == 0:
            compare(f"{LATE_COUNT} replies that come late", got, (0, ok_lines(LATE_COUNT), ""), counts)
        _, quick = timed_run(mdc, lambda sent: "whole")
        peer = Peer([lambda sent: answered(sent, late_by(sent))])
        plain = plain_inserts(peer)
        peer.end()
        print(f"{LATE_COUNT} inserts took {took:.2f} seconds with late replies, {quick:.2f} with others, and a plain client {plain:.2f}")
        ends = took < quick + plain + LATE_COUNT * 0.002
        if ends:
            break
    compare("a rest ends when the reply comes", ends, True, counts)


def word_cases(mdc, counts):
    for words in REFUSED:
        compare(f"the words {words}", run(mdc, words), (2, "", "mdc: usage\n"), counts)
    for name, words, script, *wanted in UNDIALLED:
        compare(name, run(mdc, words, script), tuple(wanted), counts)
    folder = os.open("/", os.O_RDONLY)
    unread = subprocess.run([mdc, "run", f"mongodb://{NOBODY}"], stdin=folder, capture_output=True, text=True, timeout=WAIT_SECONDS)
    os.close(folder)
    compare("a script that cannot be read", (unread.returncode, unread.stdout, unread.stderr), (4, "", "mdc: read fault\n"), counts)


def option_cases(mdc, counts):
    """A connection string's database and options: the insert goes to that database, what is ignored is told first, and a server is
    looked for no longer than the string says."""
    peer = Peer([[whole(1, STANDALONE)], [whole(2, STANDALONE), whole(3)]])
    words = ["run", f"mongodb://{peer.host}/other?directConnection=true&appName=smoke&maxPoolSize=many"]
    compare("a string with a database and options", run(mdc, words), (0, "ignored appname\nignored maxpoolsize\n" + ok_lines(1), ""), counts)
    compare("its insert", [one for one in sum(peer.end(), []) if is_insert(one)], [OTHER_REQUEST], counts)
    began = time.monotonic()
    got = run(mdc, ["run", f"mongodb://{NOBODY}/?serverSelectionTimeoutMS=200"])
    took = time.monotonic() - began
    compare("a short serverSelectionTimeoutMS", got, (1, "1: no-server attempts=0\ndone 1 ok 0\n", ""), counts)
    compare("it came back before the default's 30 seconds", took < 15, True, counts)


def soak_cases(mdc, counts):
    """A soak prints seven lines, the same each time; no command took effect twice, and where all were carried out each write did once."""
    compare("a soak of five commands", run(mdc, ["soak", "1", "5"], ""), (0, soak_lines(5, 5, 5, 0, 4, 4, 1), ""), counts)
    status, out, err = run(mdc, ["soak", "1", "400"], "")
    compare("a soak of 400 commands, once more", run(mdc, ["soak", "1", "400"]), (status, out, err), counts)
    told = {name: int(number) for name, number in re.findall(r"^(\w+) (\d+)$", out, re.MULTILINE)}
    compare("its lines", out, soak_lines(*told.values()), counts)
    wanted = {"commands": 400, "writes": 300, "most": 1}
    compare("its commands, its writes and the most effects", {name: told.get(name) for name in wanted}, wanted, counts)
    all_ok = told.get("ok") == 400
    compare("its status is the verdict", (status, err), (0 if all_ok else 1, ""), counts)
    compare("where all were carried out each write took effect", not all_ok or told.get("effects") == 300, True, counts)
    compare("some commands took two attempts, and there were elections", told.get("attempts", 0) > 400 and told.get("elections", 0) > 0, True, counts)
    status, out, _ = run(mdc, ["soak", "19", "100"], "")
    wanted = ["commands 100", "ok 100", "writes 75", "effects 75", "most 1"]
    got = [line for line in out.splitlines() if line.split(" ")[0] in ("commands", "ok", "writes", "effects", "most")]
    compare("a soak at which all are carried out", (status, got), (0, wanted), counts)
    with open("/dev/full", "w") as output:
        full = subprocess.run([mdc, "soak", "1", "5"], stdin=subprocess.DEVNULL, stdout=output, stderr=subprocess.PIPE, text=True, timeout=WAIT_SECONDS)
    compare("a soak's output that is full", (full.returncode, full.stderr), (5, "mdc: write fault\n"), counts)


def soak_lines(*numbers):
    return "".join(f"{name} {number}\n" for name, number in zip(NAMES, numbers))


def text_cases(mdc, counts):
    """How a script's lines may stand, and a report that cannot be written."""
    plans = [[whole(1, STANDALONE)], [whole(2, STANDALONE), whole(3), whole(4)]]
    peer = Peer(plans)
    script = "  \r\n" + SCRIPT.replace("\n", "\r\n") + SCRIPT[:-1]
    compare("lines of spaces, CR, no LF at the end", run_at(mdc, peer, script), (0, ok_lines(2), ""), counts)
    peer.end()
    peer = Peer(plans)
    with open("/dev/full", "w") as output:
        full = subprocess.run([mdc, *words_of(peer)], input=SCRIPT, stdout=output, stderr=subprocess.PIPE, text=True, timeout=WAIT_SECONDS)
    compare("an output that is full", (full.returncode, full.stderr), (5, "mdc: write fault\n"), counts)
    compare("its insert went out", [one for one in sum(peer.end(), []) if is_insert(one)], [REQUEST], counts)


class SilentCase:
    """A run at which an answer never comes: it comes back when its time is up, and sleeps until then. It runs beside the other
    cases; `plans` are its peer's, and None where nothing listens."""

    def __init__(self, mdc, name, plans, line):
        self.name, self.line = name, line
        self.peer = None if plans is None else Peer(plans)
        self.began = time.monotonic()
        self.call = subprocess.Popen(
            [mdc, *(["run", f"mongodb://{NOBODY}"] if plans is None else words_of(self.peer))],
            stdin=subprocess.PIPE, stdout=subprocess.PIPE, stderr=subprocess.PIPE, text=True,
        )
        self.call.stdin.write(SCRIPT)
        self.call.stdin.close()
        self.watching = threading.Thread(target=self.watch)
        self.watching.start()

    def watch(self):
        self.out, self.err = self.call.stdout.read(), self.call.stderr.read()
        _, status, used = os.wait4(self.call.pid, 0)
        self.took = time.monotonic() - self.began
        self.call.returncode = os.waitstatus_to_exitcode(status)
        self.spent = used.ru_utime + used.ru_stime

    def end(self, counts):
        self.watching.join(WAIT_SECONDS)
        if self.watching.is_alive():
            self.call.kill()
            self.watching.join()
        wanted = (1, f"{self.line}\ndone 1 ok 0\n", "")
        compare(self.name, (self.call.returncode, self.out, self.err), wanted, counts)
        print(f"it came back after {self.took:.2f} seconds, of which it kept a processor busy for {self.spent:.2f}")
        compare("it came back after 30 to 35 seconds", 30 <= self.took < 35, True, counts)
        compare("it slept most of them", self.spent < 3, True, counts)
        if self.peer:
            self.peer.end()


def silent_cases(mdc):
    """A reply of which nothing comes, or a front; a peer that never answers a hello; and one that refuses connections."""
    checks, greeting = [whole(id, STANDALONE) for id in (1, 4, 5, 6)], whole(2, STANDALONE)
    return [
        SilentCase(mdc, "a peer that never answers the insert", [checks, [greeting]], "1: late attempts=1"),
        SilentCase(mdc, "a reply that stops in the middle", [checks, [greeting, ("whole", REPLY[:80])]], "1: late attempts=1"),
        SilentCase(mdc, "a peer that never answers", [[]] * 99, "1: no-server attempts=0"),
        SilentCase(mdc, "a peer that refuses connections", None, "1: no-server attempts=0"),
    ]


def main():
    mdc, member = sys.argv[1:]
    counts = [0, 0]
    silent = silent_cases(mdc)
    peer_cases(mdc, counts)
    script_cases(mdc, counts)
    command_cases(mdc, counts)
    session_cases(mdc, counts)
    many_cases(mdc, counts)
    rest_cases(mdc, counts)
    word_cases(mdc, counts)
    option_cases(mdc, counts)
    soak_cases(mdc, counts)
    text_cases(mdc, counts)
    member_cases(member, mdc, lambda name, got, wanted: compare(name, got, wanted, counts))
    for case in silent:
        case.end(counts)
    print(f"{counts[0]} passed, {counts[1]} failed")
    return 1 if counts[1] else 0


if __name__ == "__main__":
    sys.exit(main())
