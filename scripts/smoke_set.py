#!/usr/bin/env python3
"""Cases of scripts/smoke over a replica set of three members on loopback (scripts/set_members.py): what mdc must print and
end with where the set fails over in the middle of a script, where an answer is lost, where the primary steps down, and where
the connection string has options.

usage: smoke_set.py [--only WORD] MDC...    MDC.. is a program, perhaps with words ahead of its own

Its last line is 'N passed, N failed'.
"""

import subprocess
import sys
from pathlib import Path

sys.path.insert(0, str(Path(__file__).parent))
from set_members import Replicas, WIRE  # noqa: E402

SECONDS = 120

# How many commands the long script has, and at which writes, counted at the primary, an election comes.
LONG = 1000
ELECTIONS = {101: "fail over", 303: "step down"}

# How many lanes run at once, how many commands each has, and at which write the primary is cut off.
LANES, EACH, CUT = 8, 200, 801

# How many commands each lane has where all share one connection.
SHARING = 50


def insert(place, lane=1):
    return f'{{"lane":{lane},"op":"insert","coll":"a","doc":{{"_id":{place}}}}}'


def find(place):
    return f'{{"lane":1,"op":"find","coll":"a","filter":{{"_id":{place}}}}}'


def ok(number, attempts=1):
    return f"{number}: ok n=1 modified=0 attempts={attempts}"


def fate_at(fates):
    """What happens to the writes with these numbers. A write that was not done comes again under the next number."""
    return lambda number: fates.get(number)


def three_inserts(fates, attempts):
    """A script of three inserts; what happens to writes; and the attempts of each command."""
    script = [insert(place) for place in (1, 2, 3)]
    lines = [ok(place, attempts[place - 1]) for place in (1, 2, 3)] + ["done 3 ok 3"]
    return fates, script, lines, 0


def long_script():
    """Inserts and finds by turns, and two elections in the middle: each time one insert takes two attempts."""
    script, lines, write = [], [], 0
    for number in range(1, LONG + 1):
        if number % 2 == 1:
            write += 1
            script.append(insert(number))
            again = write in ELECTIONS
            lines.append(ok(number, 2 if again else 1))
            write += 1 if again else 0
        else:
            script.append(find(number - 1))
            lines.append(ok(number))
    return ELECTIONS, script, lines + [f"done {LONG} ok {LONG}"], 0


CASES = [
    ("a set of three is found from one seed", "7.0", three_inserts({}, (1, 1, 1))),
    ("a failover in the middle of a script", "7.0", three_inserts({2: "fail over"}, (1, 2, 1))),
    ("an answer that is lost", "7.0", three_inserts({2: "lose the answer"}, (1, 2, 1))),
    ("a primary that steps down", "7.0", three_inserts({2: "step down"}, (1, 2, 1))),
] + [
    (f"replies of MongoDB {version}", version, three_inserts({2: "step down"}, (1, 2, 1)))
    for version in WIRE if version != "4.4"
] + [
    ("a thousand writes and finds with two elections", "8.0", long_script()),
]


def run(program, hosts, script, options="?replicaSet=rs0"):
    ended = subprocess.run(
        [*program, "run", f"mongodb://{hosts}/{options}"], input="\n".join(script) + "\n", capture_output=True, text=True, timeout=SECONDS,
    )
    return ended.stdout.splitlines(), ended.returncode


def differs(told, wanted):
    """The first line that differs, for a complaint."""
    for place in range(max(len(told), len(wanted))):
        a = told[place] if place < len(told) else "nothing"
        b = wanted[place] if place < len(wanted) else "nothing"
        if a != b:
            return f"`{a}`, wanted `{b}`"
    return None


def case_of_set(program, version, fates, script, lines, status):
    """None where the run is as it must be; else a complaint. Each insert was done exactly once."""
    replicas = Replicas(version, fate_at(fates))
    try:
        told, ended = run(program, replicas.hosts[0], script)
    except subprocess.TimeoutExpired:
        return "did not end"
    finally:
        replicas.close()
    complaint = differs(told, lines)
    if complaint:
        return complaint
    if ended != status:
        return f"status {ended}, wanted {status}"
    if len(replicas.done) != len(set(replicas.done)):
        return "an insert was done twice"
    if len(replicas.done) != sum('"insert"' in line for line in script):
        return f"{len(replicas.done)} inserts were done"
    wanted = sum(fate in ("fail over", "step down") for fate in fates.values())
    return None if replicas.elections == wanted else f"{replicas.elections} elections, wanted {wanted}"


def case_of_lanes(program):
    """Eight lanes insert at once, and in the middle the primary is cut off: each insert is done once, and told in its line."""
    count = LANES * EACH
    replicas = Replicas("8.0", fate_at({CUT: "cut off"}))
    try:
        told, ended = run(program, replicas.hosts[0], [insert(place, (place - 1) % LANES + 1) for place in range(1, count + 1)])
    except subprocess.TimeoutExpired:
        return "did not end"
    finally:
        replicas.close()
    again = [place for place in range(1, count + 1) if told[place - 1:place] == [ok(place, 2)]]
    complaint = differs(told, [ok(place, 2 if place in again else 1) for place in range(1, count + 1)] + [f"done {count} ok {count}"])
    if complaint or ended != 0:
        return complaint or f"status {ended}, wanted 0"
    if not again:
        return "no insert was sent again"
    if sorted(replicas.done) != list(range(1, count + 1)):
        return f"{len(replicas.done)} inserts were done, {len(set(replicas.done))} of them once or more"
    return None if replicas.elections == 1 else f"{replicas.elections} elections, wanted 1"


def case_of_one_connection(program):
    """Eight lanes share the one connection that the pool may have: each waits for it in turn, and each insert is done once."""
    count = LANES * SHARING
    replicas = Replicas("8.0")
    try:
        script = [insert(place, (place - 1) % LANES + 1) for place in range(1, count + 1)]
        told, ended = run(program, replicas.hosts[0], script, "?replicaSet=rs0&maxPoolSize=1")
    except subprocess.TimeoutExpired:
        return "did not end"
    finally:
        replicas.close()
    complaint = differs(told, [ok(place) for place in range(1, count + 1)] + [f"done {count} ok {count}"])
    if complaint or ended != 0:
        return complaint or f"status {ended}, wanted 0"
    return None if sorted(replicas.done) == list(range(1, count + 1)) else f"{len(replicas.done)} inserts were done"


def case_of_old(program):
    """MongoDB 4.4 speaks no wire version of this client."""
    replicas = Replicas("4.4")
    try:
        told, ended = run(program, replicas.hosts[0], [insert(1)])
    finally:
        replicas.close()
    complaint = differs(told, [f"1: incompatible {replicas.hosts[0]} 0 9 attempts=0", "done 1 ok 0"])
    return complaint or (None if ended == 1 else f"status {ended}, wanted 1")


def case_of_options(program):
    """From all seeds, with options: one is ignored, and of a write that is not to be sent again the lost answer is told."""
    replicas = Replicas("8.0", fate_at({2: "lose the answer"}))
    options = "other?replicaSet=rs0&retryWrites=false&readPreference=primary&appName=smoke"
    try:
        told, ended = run(program, ",".join(replicas.hosts), [insert(place) for place in (1, 2, 3)], options)
    finally:
        replicas.close()
    complaint = differs(told, ["ignored appname", ok(1), "2: network attempts=1", ok(3), "done 3 ok 2"])
    complaint = complaint or (None if ended == 1 else f"status {ended}, wanted 1")
    return complaint or (None if replicas.done == [1, 2, 3] else f"the inserts {replicas.done} were done")


def case_of_another_name(program):
    """A set of another name has no server for this client."""
    replicas = Replicas("8.0")
    try:
        told, ended = run(program, replicas.hosts[0], [insert(1)], "?replicaSet=rs1&serverSelectionTimeoutMS=600")
    finally:
        replicas.close()
    complaint = differs(told, ["1: no-server attempts=0", "done 1 ok 0"])
    return complaint or (None if ended == 1 and not replicas.done else f"status {ended}, {len(replicas.done)} inserts were done")


def main():
    program = sys.argv[1:]
    only = ""
    if program[:1] == ["--only"]:
        only, program = program[1], program[2:]
    cases = [(name, lambda c=case, v=version: case_of_set(program, v, *c)) for name, version, case in CASES]
    cases.append(("replies of MongoDB 4.4, which is too old", lambda: case_of_old(program)))
    cases.append(("eight lanes of two hundred inserts, and the primary is cut off", lambda: case_of_lanes(program)))
    cases.append(("eight lanes over one connection", lambda: case_of_one_connection(program)))
    cases.append(("options of the connection string", lambda: case_of_options(program)))
    cases.append(("a set's name that is another", lambda: case_of_another_name(program)))
    passed = failed = 0
    for name, case in cases:
        if only not in name:
            continue
        complaint = case()
        passed, failed = (passed, failed + 1) if complaint else (passed + 1, failed)
        print(f"{'FAILED' if complaint else 'passed'}  {name}" + (f": {complaint}" if complaint else ""), flush=True)
    print(f"{passed} passed, {failed} failed")
    sys.exit(1 if failed else 0)


if __name__ == "__main__":
    main()
