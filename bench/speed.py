#!/usr/bin/env python3
"""speed.py TABLES PAGE [MARK]: puts the benchmark's tables, with today's date, between the two marks of the page (`measured`, or MARK)."""
import datetime
import sys


def main():
    tables, page, *marks = sys.argv[1:]
    mark = marks[0] if marks else "measured"
    begin, end = f"<!-- {mark} -->", f"<!-- end of {mark} -->"
    with open(tables) as file:
        text = file.read().strip()
    with open(page) as file:
        before, rest = file.read().split(begin)
        after = rest.split(end)[1]
    date = datetime.date.today().isoformat()
    with open(page, "w") as file:
        file.write(f"{before}{begin}\n\nMeasured on {date}. {text}\n\n{end}{after}")


main()
