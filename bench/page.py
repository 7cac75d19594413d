#!/usr/bin/env python3
"""Puts what bench wrote with --csv into the tables of a page.

    page.py RESULTS.csv PAGE.md

A table stands between a line <!-- NAME --> and the next <!-- end -->, with NAME one of night, season, equal, update,
longest, short and samples; what stands there before is replaced, and the day after "Measured on" with today's.
"""
import datetime
import re
import sys

from plot import COLOURS, OURS, TWIN, duration, read, works


def pieces(rows, table, wanted=lambda row: True):
    """The works of a table of the results, each with the time of every contestant, in the order of the file."""
    return works([row for row in rows if row["table"] == table and wanted(row)])


def lines(found):
    head = ["", "list", "samples", "keys", "theirs + ours", *COLOURS, "to the fastest peer", "to the twin"]
    yield "| " + " | ".join(head) + " |"
    yield "|---|---|" + "---:|" * (len(head) - 2)
    for (operation, shape, samples, keys, theirs, ours), times in found.items():
        to_peer = times[OURS] / min(time for contestant, time in times.items() if contestant not in (OURS, TWIN))
        difference = f"{theirs} + {ours}" if operation == "reconcile" else ""
        all_times = [duration(times[contestant]) for contestant in COLOURS]
        ratios = [f"{to_peer:.2f}", f"{times[OURS] / times[TWIN]:.2f}"]
        cells = [operation, shape, str(samples), f"{keys:,}", difference, *all_times, *ratios]
        yield "| " + " | ".join(cells) + " |"


def main():
    if len(sys.argv) != 3:
        sys.exit(__doc__)
    rows = read(sys.argv[1])
    tables = {"night": pieces(rows, "night"), "season": pieces(rows, "season"), "equal": pieces(rows, "equal"),
              "update": pieces(rows, "update"), "longest": pieces(rows, "cases"),
              "short": pieces(rows, "keys", lambda row: row["keys"] in (0, 1, 10, 100, 1000)),
              "samples": pieces(rows, "samples", lambda row: row["samples"] in (1, 4, 16, 32, 64))}
    with open(sys.argv[2], encoding="utf-8") as file:
        page = file.read()
    for name, found in tables.items():
        table = "\n".join([f"<!-- {name} -->", *lines(found), "<!-- end -->"])
        page = re.sub(f"<!-- {name} -->.*?<!-- end -->", lambda _: table, page, flags=re.DOTALL)
    today = datetime.date.today()
    page = re.sub(r"Measured on \d+ \w+ \d+", f"Measured on {today.day} {today:%B %Y}", page)
    with open(sys.argv[2], "w", encoding="utf-8") as file:
        file.write(page)


if __name__ == "__main__":
    main()
