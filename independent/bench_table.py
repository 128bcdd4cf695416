#!/usr/bin/env python3
"""The tables of docs/BENCHMARKS.md, from what the programs printed.

    bench_table.py RUN...              several runs of `make -s bench`
    bench_table.py --instructions RUN  one run of `make -s instructions`
"""

import re
import statistics
import sys

ROW = re.compile(r"(.*?) +(\d+) +(\d+)  (check|route|fill) +(\d+) +(\d+) +([\d.]+)$")
GROWTH = re.compile(r"(.*?) +(check|route)  library ([\d.]+) times, model ([\d.]+) times$")


def matches(pattern, texts):
    """Of each line that matches, its first fields and what every run says of it."""
    found = {}
    for text in texts:
        for match in filter(None, map(pattern.match, text.splitlines())):
            *key, call, library, model = match.groups()[:6]
            found.setdefault((*key, call), []).append((float(library), float(model)))
    return found


def table(header, rows):
    print("| " + " | ".join(header) + " |")
    print("|---" * len(header) + "|")
    for row in rows:
        print("| " + " | ".join(row) + " |")


def times(texts):
    for (name, records, hops, call), runs in matches(ROW, texts).items():
        library, model = (statistics.median(side) for side in zip(*runs))
        ratios = sorted(library / model for library, model in runs)
        yield [name, records, hops, call, f"{library / 1000:.2f}", f"{model / 1000:.2f}"] + [
            f"{ratio:.2f}" for ratio in (statistics.median(ratios), ratios[0], ratios[-1])
        ]


def growth(texts):
    for (name, call), runs in matches(GROWTH, texts).items():
        library, model = (statistics.median(side) for side in zip(*runs))
        yield [name, call, f"{library:.1f} times", f"{model:.1f} times"]


def instructions(texts):
    for (name, records, hops, call), [(library, model)] in matches(ROW, texts).items():
        yield [name, records, hops, call, f"{library:,.0f}", f"{model:,.0f}", f"{library / model:.2f}"]


def main(names):
    counted = names[:1] == ["--instructions"]
    texts = [open(name, encoding="utf-8").read() for name in names[counted:]]
    if counted:
        table("fabric,records,hops,call,library,independent,ratio".split(","), instructions(texts))
        return
    print(f"{len(texts)} runs\n")
    table(
        "fabric,records,hops,call,library us,independent us,ratio,lowest,highest".split(","),
        times(texts),
    )
    print()
    table("fabric,call,library,independent".split(","), growth(texts))


if __name__ == "__main__":
    main(sys.argv[1:])
