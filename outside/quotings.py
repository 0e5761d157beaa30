#!/usr/bin/env python3
"""Writes a register with every quoting that Python's csv module has, for `desk import`.

    quotings.py REGISTER DIRECTORY

REGISTER is what `desk export` wrote. The module reads it, and writes it once for each quoting, with the numbers as
numbers, so that QUOTE_NONNUMERIC has something to leave unquoted; with the last line end and without it. The files go
to DIRECTORY, named by their quoting. Each must import to the sheet that REGISTER does.
"""
import csv
import io
import pathlib
import sys

QUOTINGS = [name for name in dir(csv) if name.startswith("QUOTE_")]


def value(field):
    """A field as a spreadsheet holds it."""
    return int(field) if field.isdigit() else field


def written(rows, quoting):
    text = io.StringIO()
    writer = csv.writer(text, quoting=quoting, lineterminator="\r\n")
    writer.writerows(rows)
    return text.getvalue()


def main():
    register, directory = pathlib.Path(sys.argv[1]), pathlib.Path(sys.argv[2])
    with register.open(newline="", encoding="ascii") as file:
        rows = [[value(field) for field in row] for row in csv.reader(file, strict=True)]
    directory.mkdir(parents=True, exist_ok=True)
    for name in QUOTINGS:
        text = written(rows, getattr(csv, name))
        for end, ended in (("", text), ("-no-end", text.removesuffix("\r\n"))):
            (directory / f"{name}{end}.csv").write_bytes(ended.encode("ascii"))
    print(len(QUOTINGS), "quotings:", " ".join(QUOTINGS))


if __name__ == "__main__":
    main()
