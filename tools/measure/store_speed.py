"""Measures the key database at 64 and at 65,536 keys: `store_speed.py [FOLDER]` prints the nanoseconds of a round of
each part, and their ratio.

The look-ups, a use, a rebinding and an opening go over a disk in memory that keeps no write, and count the least time
of a round. `open_walk` is the part of an opening that reads the records, and `open_ordered` an opening of keys whose
aliases come in their order; `open_older` brings an older store to areas. `open_KiB` is an opening of 64 keys in 5,193 bytes and in 1,024 times as many, for each
KiB. `use_synced` and `rebind_synced` are changes with their disk, over two files in FOLDER (else where temporary files
stand), by turns; they count the middle time.

The program (tools/measure/store_speed/main.rt.in) is proved and built in a folder for the time of the run, over
copies of the crates with what earlier checks kept of them."""
import statistics
import sys
import tempfile

from keystore.harness import folder_at, parser_of
from measure.own_program import run_over

USED = ["ks_outside", "disk_calls", "file_disk", "tags", "grants", "journal_records", "journal_compact", "lasting_table", "key_database"]
FILES = {"src/main.rt": "main.rt.in", "specs/Lib.antt": None, "proofs/Lib.antt": None}
PARTS = (
    "by_name",
    "by_id",
    "next_name",
    "count",
    "use",
    "rebind",
    "open",
    "open_walk",
    "open_ordered",
    "open_older",
    "open_KiB",
    "use_synced",
    "rebind_synced",
)


def main():
    parser = parser_of(__doc__)
    parser.add_argument(
        "folder", nargs="?", type=folder_at, metavar="FOLDER", help="where the files of the synced parts stand"
    )
    folder = parser.parse_args().folder
    with tempfile.TemporaryDirectory(prefix="store-speed-", dir=folder) as place:
        _, said = run_over(USED, __file__, FILES, place)
        rows = [line.split() for line in said.stdout.splitlines()]
    times = {}
    for row in rows:
        if len(row) == 4 and row[0] in ("64", "65536"):
            times.setdefault((row[1], row[0]), []).append(int(row[2]))
    if not times:
        sys.exit("store_speed.py: the program was not built")
    for part in PARTS:
        few, many = (statistics.median(times[part, keys]) for keys in ("64", "65536"))
        print(f"{part:<14} {few:9.0f} {many:9.0f} {many / few:6.2f}")
