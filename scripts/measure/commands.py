"""Measures commands over loopback. Each program sends COUNT inserts or finds to the peer, in all, from so many LANES at once,
ROUNDS times in turn; prints of each the quickest and the middle run: from the first command's arrival at the peer to the last
answer, without what a program does ahead of it and behind it, and from the program's start to its end. Beside these, the least
that a run took of a processor, and the most memory that one held.

usage: commands.py PEER THREADS MDC insert|find COUNT LANES ROUNDS [NAME PROGRAM]..    with an odd number of rounds; the peer has so
many threads; a PROGRAM is given PORT COUNT insert|find LANES
"""

import os
import subprocess
import sys
import tempfile
import time
from pathlib import Path

LINES = {
    "insert": '{"lane":%d,"op":"insert","coll":"a","doc":{"_id":7}}\n',
    "find": '{"lane":%d,"op":"find","coll":"a","filter":{"_id":7}}\n',
}


class Run:
    """A run of a program: how long it took and how long of a processor, in seconds, and its memory at the most, in bytes."""

    def __init__(self, words, folder, script=""):
        files = [Path(folder, name) for name in ("script", "out", "complaints")]
        files[0].write_text(script)
        with open(files[0]) as read, open(files[1], "w") as out, open(files[2], "w") as complaints:
            began = time.perf_counter()
            child = subprocess.Popen(words, stdin=read, stdout=out, stderr=complaints)
            _, status, used = os.wait4(child.pid, 0)
            self.seconds = time.perf_counter() - began
        child.returncode = os.waitstatus_to_exitcode(status)
        if child.returncode != 0:
            sys.exit(f"{words[0]} ended with status {child.returncode}: {files[2].read_text()[-500:]}")
        self.processor = used.ru_utime + used.ru_stime
        self.memory = used.ru_maxrss * 1024
        self.out = files[1].read_text()


def run_mdc(mdc, port, kind, count, lanes, folder):
    script = "".join(LINES[kind] % (place % lanes + 1) for place in range(count))
    run = Run([mdc, "run", f"mongodb://127.0.0.1:{port}"], folder, script)
    if not run.out.endswith(f"\ndone {count} ok {count}\n"):
        sys.exit(f"mdc did not carry out all: {run.out[-200:]}")
    return run


def served(serving):
    """How long the commands of the last run took by the peer's clock, in seconds."""
    serving.stdin.write(".")
    serving.stdin.flush()
    seconds = float(serving.stdout.readline()) / 1e6
    if seconds <= 0:
        sys.exit("the peer saw no command")
    return seconds


def port_of(path):
    for _ in range(200):
        if path.exists() and path.read_text():
            return path.read_text()
        time.sleep(0.02)
    sys.exit("the peer did not start")


def main():
    peer, threads, mdc, kind, count, lanes, rounds, *others = sys.argv[1:]
    count, lanes, rounds = int(count), int(lanes), int(rounds)
    with tempfile.TemporaryDirectory() as folder:
        programs = {"mdc": lambda port: run_mdc(mdc, port, kind, count, lanes, folder)}
        for name, program in zip(others[::2], others[1::2]):
            programs[name] = lambda port, program=program: Run([program, port, str(count), kind, str(lanes)], folder)
        port_file = Path(folder, "port")
        with subprocess.Popen([peer, port_file, threads], stdin=subprocess.PIPE, stdout=subprocess.PIPE, text=True) as serving:
            port = port_of(port_file)
            runs = {name: [] for name in programs}
            for _ in range(rounds):
                for name, program in programs.items():
                    run = program(port)
                    run.served = served(serving)
                    runs[name].append(run)
            serving.stdin.close()
    print(f"{kind + 's, ' + str(count) + ', lanes: ' + str(lanes):46} {'us, served':>11} {'middle':>7} {'a second':>9}"
          f" {'us, whole':>10} {'middle':>7} {'us, processor':>14} {'MB':>6}")
    for name, done in runs.items():
        times = sorted(run.seconds for run in done)
        served_times = sorted(run.served for run in done)
        processor = min(run.processor for run in done)
        memory = max(run.memory for run in done)
        print(f"{name:46} {served_times[0] * 1e6 / count:11.1f} {served_times[rounds // 2] * 1e6 / count:7.1f} {count / served_times[0]:9.0f}"
              f" {times[0] * 1e6 / count:10.1f} {times[rounds // 2] * 1e6 / count:7.1f} {processor * 1e6 / count:14.1f} {memory / 1e6:6.1f}")


main()
