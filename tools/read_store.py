#!/usr/bin/env python3
"""Reads a store, beside the program and without its code.

    python3 tools/read_store.py FILE [--area A|B]      prints the records as lines, and where they end or are broken
    python3 tools/read_store.py FILE --snapshot OUT    writes what the store stands for as a store of its own
    python3 tools/read_store.py --count FILE           prints how many keys live, at once also where they are many

A line is a JSON object: the place of the record's gate, the kind's name and the fields, bytes as hex; where the need
of a record is not met, "needs" is false and the later records are not judged. The last line has where the records end,
how many bytes they have and their snapshot would have, whether the store is written anew before the next change, and
what they stand for; "area" is the one that is selected, and a journal of the first format has none. Both areas may be
read, also the one that does not count. What `--snapshot` writes has no older state in it and no other area. The exit
status is 0 where the bytes stand for a lasting part, and 7 where they stand for none."""
import json
import sys

from keystore.harness import parser_of
from keystore.store import (
    AREA_KINDS,
    AREAS,
    COUNTED,
    HEADER,
    SLACK,
    Lasting,
    area_of,
    areas_of,
    lasting_in,
    live_keys,
    read_area,
    read_store,
)
from keystore.store_bytes import StoreBytes


def line_of(at, kind, values):
    name, fields = AREA_KINDS[kind]
    return {
        "at": at,
        "kind": name,
        **{field: value.hex() if form == COUNTED else value for (field, form), value in zip(fields, values)},
    }


def print_store(store, area):
    records, end, broken = read_store(store) if area is None else read_area(store, area)
    lasting, unmet = Lasting(), None
    for record in records:
        line = line_of(*record)
        if unmet is None and not lasting.apply(*record[1:]):
            unmet, line["needs"] = record[0], False
        print(json.dumps(line))
    if broken is not None or unmet is not None:
        print(json.dumps({"corrupted": unmet if broken is None else broken}))
        return 7
    area = area or area_of(store)
    count, snapshot = end - (AREAS[area] if area else len(HEADER)), len(lasting.snapshot())
    told = {"area": area, "end": end, "bytes": count, "snapshot": snapshot, "is_due": count > SLACK + 2 * snapshot}
    print(
        json.dumps(
            {
                **told,
                "keys": len(lasting.keys),
                "grants": len(lasting.grants),
                "next_key": lasting.next_key,
                "next_grant": lasting.next_grant,
            }
        )
    )
    return 0


def write_snapshot(store, out):
    lasting, wrong = lasting_in(store)
    if wrong is not None:
        print(json.dumps({"corrupted": wrong}))
        return 7
    areas_of(lasting.snapshot()).write(out)
    return 0


def print_count(store):
    count = live_keys(store)
    print("no store" if count is None else count)
    return 7 if count is None else 0


def main():
    parser = parser_of(__doc__)
    parser.add_argument("file", metavar="FILE", help="a store")
    ways = parser.add_mutually_exclusive_group()
    ways.add_argument("--area", choices=sorted(AREAS), help="print the records of this area, whichever is selected")
    ways.add_argument("--snapshot", metavar="OUT", help="write what it stands for as a store of its own")
    ways.add_argument("--count", action="store_true", help="print how many keys live")
    given = parser.parse_args()
    store = StoreBytes.read(given.file)
    if given.count:
        return print_count(store)
    return print_store(store, given.area) if given.snapshot is None else write_snapshot(store, given.snapshot)


if __name__ == "__main__":
    sys.exit(main())
