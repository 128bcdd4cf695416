"""Writes sample files, or compares what is there with what would be written."""

import argparse
import pathlib
import sys


def write(what, folder, wanted):
    """`wanted` has the bytes of each file by its name; `what` they are, in the plural. The exit status."""
    default = pathlib.Path(__file__).resolve().parent.parent / "examples" / folder
    parser = argparse.ArgumentParser(description=f"Write the sample {what}.")
    parser.add_argument("folder", nargs="?", type=pathlib.Path, default=default)
    parser.add_argument("--check", action="store_true", help="compare, and write nothing")
    args = parser.parse_args()
    if args.check:
        return check(folder, args.folder, wanted)
    args.folder.mkdir(parents=True, exist_ok=True)
    for name, data in wanted.items():
        (args.folder / name).write_bytes(data)
        print(f"{name}: {len(data)} bytes")
    return 0


def check(what, folder, wanted):
    wrong = [name for name, data in wanted.items()
             if not (folder / name).is_file() or (folder / name).read_bytes() != data]
    for name in wrong:
        print(f"{name} differs from what the script makes", file=sys.stderr)
    print(f"{len(wanted) - len(wrong)} of {len(wanted)} {what} are as made")
    return 1 if wrong else 0
