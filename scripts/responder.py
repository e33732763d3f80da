"""A loopback peer for mdc: answers each request with bytes that were written by hand.

`Peer(plans)` takes connections; the k-th one has the k-th plan, a list of answers `(how, digits)` with one a request, in order,
or a function that gives the answer to a request in hexadecimal. How it answers:
  whole    the bytes at once
  bytes    one byte at a time
  late N   the bytes at once, behind N milliseconds
  cut      the bytes, then the end of the stream
A request behind the plan's last answer is noted and not answered. A connection for which there is no plan is ended at once.
"""

import socket
import threading
import time

WAIT_SECONDS = 60


def take_request(connection):
    """One message, by its messageLength; what there is of it where the stream ends."""
    held = b""
    while len(held) < 4 or len(held) < int.from_bytes(held[:4], "little"):
        wanted = 4 if len(held) < 4 else int.from_bytes(held[:4], "little")
        piece = connection.recv(wanted - len(held))
        if not piece:
            break
        held += piece
    return held


def answer(connection, how, digits):
    reply = bytes.fromhex(digits)
    if how == "bytes":
        for byte in reply:
            connection.sendall(bytes([byte]))
            time.sleep(0.002)
    else:
        if how.startswith("late "):
            time.sleep(int(how[5:]) / 1000)
        connection.sendall(reply)
    if how == "cut":
        connection.shutdown(socket.SHUT_WR)


class Peer:
    def __init__(self, plans):
        self.plans, self.received, self.threads = list(plans), [], []
        self.listener = socket.create_server(("127.0.0.1", 0))
        self.host = f"127.0.0.1:{self.listener.getsockname()[1]}"
        threading.Thread(target=self.accept, daemon=True).start()

    def accept(self):
        while True:
            try:
                connection, _ = self.listener.accept()
            except OSError:
                return
            connection.setsockopt(socket.IPPROTO_TCP, socket.TCP_NODELAY, 1)
            place = len(self.received)
            self.received.append([])
            thread = threading.Thread(target=self.serve, args=(connection, place), daemon=True)
            self.threads.append(thread)
            thread.start()

    def serve(self, connection, place):
        plan = self.plans[place] if place < len(self.plans) else None
        given = 0
        with connection:
            connection.settimeout(WAIT_SECONDS)
            try:
                while plan is not None and (request := take_request(connection)):
                    self.received[place].append(request.hex())
                    if callable(plan):
                        answer(connection, *plan(request.hex()))
                    elif given < len(plan):
                        answer(connection, *plan[given])
                    given += 1
            except OSError:
                pass  # the other side went away, or sends no more

    def end(self):
        """What it received: a list of requests for each connection, in the order in which they were taken."""
        for thread in self.threads:
            thread.join(WAIT_SECONDS)
        # (a shutdown wakes the thread that waits in accept)
        self.listener.shutdown(socket.SHUT_RDWR)
        self.listener.close()
        return self.received
