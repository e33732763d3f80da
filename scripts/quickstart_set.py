#!/usr/bin/env python3
"""The part of ./quickstart set: three loopback members (scripts/set_members.py), a script of three inserts, and an election at
the second write.

usage: quickstart_set.py PROGRAM WORD...    the program and the words ahead of its own
"""

import subprocess
import sys
from pathlib import Path

sys.path.insert(0, str(Path(__file__).parent))
from set_members import Replicas  # noqa: E402

SCRIPT = "".join(f'{{"lane":1,"op":"insert","coll":"a","doc":{{"_id":{place}}}}}\n' for place in (1, 2, 3))


def main():
    replicas = Replicas("8.0", lambda number: "fail over" if number == 2 else None)
    hosts = ",".join(replicas.hosts)
    print(f"three members of the set rs0: {hosts}")
    print(f"the script; at the second write the primary ends its streams, and another is elected:\n{SCRIPT}", end="")
    uri = f"mongodb://{hosts}/?replicaSet=rs0"
    print(f"$ mdc run '{uri}'", flush=True)
    ended = subprocess.run([*sys.argv[1:], "run", uri], input=SCRIPT, text=True, check=False)
    print(f"status {ended.returncode}")
    print(f"the members did the inserts of _id {', '.join(str(key) for key in replicas.done)}; elections: {replicas.elections}")
    sys.exit(ended.returncode)


if __name__ == "__main__":
    main()
