#!/usr/bin/env python3
"""Four commands by pymongo under Stable API version 1, against the server of a connection string.

usage: with_pymongo.py URI

Prints a line for each, and ends with 0 where all went well; with 77 where pymongo is missing or has no Stable API (3.12 is
the first that has)."""

import sys

try:
    import pymongo
    from pymongo.server_api import ServerApi
except ImportError:
    sys.exit(77)


def main():
    if len(sys.argv) != 2:
        return 2
    with pymongo.MongoClient(sys.argv[1], server_api=ServerApi("1")) as client:
        people = client.test.people
        seven = {"_id": 7}
        print("insert", people.insert_one({"_id": 7, "name": "Ada"}).inserted_id)
        updated = people.update_one(seven, {"$set": {"name": "Eve"}})
        print("update", updated.matched_count, updated.modified_count)
        print("find", len(list(people.find(seven))))
        print("delete", people.delete_one(seven).deleted_count)
    return 0


sys.exit(main())
