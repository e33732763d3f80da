"""Soaks many seeds and looks whether what mdc prints goes together; then measures long soaks.

usage: soak.py [--seeds N] [--lengths N,..] MDC...    MDC.. is a program, perhaps with words ahead of its own

Of each seed it complains where a line is missing, where a command took effect twice, where an effect is missing of a write that
was carried out, where the status is not the verdict, or where there were more elections than the seed plans. Of the long soaks
it complains where a command costs much more among ten times as many. The status is 1 where there was a complaint.
"""

import os
import re
import signal
import subprocess
import sys
import tempfile
import threading
import time

NAMES = ["commands", "ok", "attempts", "elections", "writes", "effects", "most"]
COMMANDS = 400

# How long a soak may take.
LIMIT_SECONDS = 600

# How much more a command may cost among ten times as many.
GROWTH = 5

complaints = []


def complain(what):
    complaints.append(what)
    print(f"COMPLAINT: {what}", flush=True)


def soaked(program, seed, count):
    """The status, the text, the seconds and the most bytes in memory."""
    with tempfile.TemporaryFile("w+") as out:
        began = time.monotonic()
        call = subprocess.Popen([*program, "soak", str(seed), str(count)], stdin=subprocess.DEVNULL, stdout=out)
        limit = threading.Timer(LIMIT_SECONDS, lambda: os.kill(call.pid, signal.SIGKILL))
        limit.start()
        _, status, used = os.wait4(call.pid, 0)
        took = time.monotonic() - began
        limit.cancel()
        call.returncode = os.waitstatus_to_exitcode(status)
        out.seek(0)
        return call.returncode, out.read(), took, used.ru_maxrss * 1024


def planned_elections(seed, count):
    """How many of the acts of a seed are elections: each act takes two draws, and the second one's kind is 4."""
    def drawn(x):
        return (x * 6364136223846793005 + 1442695040888963407) % 2**64

    elections = 0
    for _ in range(count // 10):
        kind = drawn(drawn(seed)) // 2**33 % 5
        seed = drawn(drawn(seed))
        elections += kind == 4
    return elections


def numbers_of(seed, count, status, text):
    """The seven numbers, where they go together; else None, with a complaint."""
    where = f"seed {seed}, {count} commands"
    told = re.fullmatch("".join(rf"{name} (\d+)\n" for name in NAMES), text)
    if not told:
        return complain(f"{where}: printed {text!r}, status {status}")
    told = dict(zip(NAMES, map(int, told.groups())))
    finds = count // 4
    wrong = [name for name, holds in [
        ("how many commands", told["commands"] == count),
        ("how many writes", told["writes"] == count - finds),
        ("how many attempts", told["ok"] <= count and told["ok"] <= told["attempts"] <= 2 * count),
        ("how many elections", told["elections"] <= planned_elections(seed, count)),
        ("the most effects", told["most"] == 1),
        ("the effects of those carried out", told["ok"] - finds <= told["effects"] <= told["writes"]),
        ("the effects where all were carried out", told["ok"] < count or told["effects"] == told["writes"]),
        ("the status", status == (0 if told["ok"] == count else 1)),
    ] if not holds]
    if wrong:
        return complain(f"{where}: {', '.join(wrong)}: {told}, status {status}")
    return told


def try_seeds(program, seeds):
    runs = [numbers_of(seed, COMMANDS, *soaked(program, seed, COMMANDS)[:2]) for seed in range(seeds)]
    good = [told for told in runs if told]
    print(f"{len(good)} of {seeds} seeds, of {COMMANDS} commands each: all carried out in {sum(told['ok'] == COMMANDS for told in good)}")
    for name, value in [
        ("not carried out", sum(COMMANDS - told["ok"] for told in good)),
        ("attempts beyond the first", sum(told["attempts"] - COMMANDS for told in good)),
        ("elections", sum(told["elections"] for told in good)),
        ("writes without an effect", sum(told["writes"] - told["effects"] for told in good)),
        ("the most effects of a command", max((told["most"] for told in good), default=0)),
    ]:
        print(f"  {name}: {value}")


def try_lengths(program, lengths):
    before = None
    for count in lengths:
        status, text, took, most = soaked(program, 1, count)
        if status == -signal.SIGKILL:
            return complain(f"{count} commands did not end in {LIMIT_SECONDS} seconds")
        numbers_of(1, count, status, text)
        print(f"{count} commands: {took * 1e6 / count:.1f} microseconds and {most / count:.0f} bytes of the most in memory a command", flush=True)
        if before:
            times, old, old_took, old_most = count / before[0], *before
            if took / count > GROWTH * old_took / old:
                complain(f"a command took {took * old / count / old_took:.1f} times as long among {times:.0f} times as many")
            if most / count > GROWTH * old_most / old:
                complain(f"a command took {most * old / count / old_most:.1f} times the memory among {times:.0f} times as many")
        before = count, took, most


def main():
    words, seeds, lengths = sys.argv[1:], 100, [1000, 10000, 100000]
    while words and words[0] in ("--seeds", "--lengths"):
        if words[0] == "--seeds":
            seeds = int(words[1])
        else:
            lengths = [int(word) for word in words[1].split(",") if word]
        words = words[2:]
    try_seeds(words, seeds)
    try_lengths(words, lengths)
    print(f"{len(complaints)} complaints")
    sys.exit(1 if complaints else 0)


if __name__ == "__main__":
    main()
