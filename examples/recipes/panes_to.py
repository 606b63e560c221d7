#!/usr/bin/env python3
"""Turns what beam_run prints into JSON lines or a table: panes_to.py json|tsv|csv [FILE]

Reads FILE, or standard input, line by line. The page docs/using/RECIPES.md says what each line becomes.
A line that is no line of such a text is named on standard error, and the status is then 1. So is a last line without
its end, since the text was cut there. A table holds panes alone: other lines are counted on standard error, with status 1.
"""
import csv
import datetime
import functools
import json
import os
import re
import sys

TOKEN = re.compile(rb'"((?:[ !#-\[\]-~]|\\(?:["\\nrt]|x[0-9a-f]{2}))*)"|(-?[0-9]+)|(null)|([(),[\]])')
ESCAPE = re.compile(rb'\\(?:(["\\nrt])|x(..))')
PLAIN = {b"n": b"\n", b"r": b"\r", b"t": b"\t", b'"': b'"', b"\\": b"\\"}
TIMINGS = (b"EARLY", b"ON_TIME", b"LATE", b"UNKNOWN")
EPOCH = datetime.datetime(1970, 1, 1)


def text_of(escaped):
    """The text between two quotes. A byte that is no UTF-8 stays as \\x and two digits."""
    if b"\\" in escaped:
        escaped = ESCAPE.sub(lambda m: PLAIN[m[1]] if m[1] else bytes([int(m[2], 16)]), escaped)
    return escaped.decode("utf-8", "backslashreplace")


class Reader:
    """Reads one value from the left."""

    def __init__(self, text):
        self.text, self.at = text, 0

    def token(self):
        found = TOKEN.match(self.text, self.at)
        if not found:
            raise ValueError("no value")
        self.at = found.end()
        return found

    def mark(self, marks):
        sign = self.token()[4]
        if sign is None or sign not in marks:
            raise ValueError("no value")
        return sign

    def value(self):
        text, number, null, sign = self.token().groups()
        if text is not None:
            return text_of(text)
        if number is not None:
            return int(number)
        if null is not None:
            return None
        if sign == b"(":
            key = self.value()
            self.mark(b",")
            pair = {"key": key, "value": self.value()}
            self.mark(b")")
            return pair
        if sign != b"[":
            raise ValueError("no value")
        return self.items()

    def items(self):
        if self.text[self.at : self.at + 1] == b"]":
            self.at += 1
            return []
        items = [self.value()]
        while self.mark(b",]") == b",":
            items.append(self.value())
        return items


def value_of(text):
    reader = Reader(text)
    value = reader.value()
    if reader.at != len(text):
        raise ValueError("more behind the value")
    return value


def label_of(text):
    label = value_of(text)
    if not isinstance(label, str):
        raise ValueError("no label")
    return label


def number_of(text):
    if not re.fullmatch(rb"-?[0-9]+", text):
        raise ValueError("no number")
    return int(text)


@functools.lru_cache(1024)
def date_of(time):
    """A time in RFC 3339, or None where its year has no four digits."""
    try:
        date = EPOCH + datetime.timedelta(milliseconds=time)
    except OverflowError:
        return None
    return date.isoformat(timespec="milliseconds" if time % 1000 else "seconds") + "Z"


def window_of(start, end):
    start, end = number_of(start), number_of(end)
    return {"start": start, "end": end, "from": date_of(start), "to": date_of(end)}


def pane_of(fields, label):
    start, end, timing, index, text = fields
    if timing not in TIMINGS:
        raise ValueError("no timing")
    pane = {} if label is None else {"label": label}
    pane.update(window_of(start, end), timing=timing.decode(), index=number_of(index))
    value = value_of(text)
    pane.update(value if isinstance(value, dict) else {"value": value})
    return pane


def call_of(node, start, end, key, call, name_or_time, last):
    """A line of the log of a function with state."""
    known = {"line": call.decode(), "node": number_of(node), **window_of(start, end), "key": value_of(key)}
    if call == b"element":
        return {**known, "time": number_of(name_or_time), "value": value_of(last)}
    if call == b"timer":
        return {**known, "name": number_of(name_or_time), "time": number_of(last)}
    raise ValueError("no call")


def record_of(line, label):
    fields = line.split(b"\t")
    if fields[0] == b"log" and len(fields) == 8:
        return call_of(*fields[1:])
    if fields[0] == b"dead" and len(fields) == 5:
        return {"line": "dead", **dict(zip(("node", "item", "position", "at"), map(number_of, fields[1:])))}
    if len(fields) != 5:
        raise ValueError("not the fields of a pane")
    return pane_of(fields, label)


class Records:
    """The records of a text, in order, and how many lines were none."""

    def __init__(self, file, name):
        self.file, self.name, self.faults = file, name, 0

    def __iter__(self):
        label = None
        for number, line in enumerate(self.file, 1):
            try:
                if not line.endswith(b"\n"):
                    raise ValueError("the text was cut")
                if line.startswith(b"# "):
                    label = label_of(line[2:-1])
                    continue
                yield record_of(line[:-1], label)
            except (ValueError, RecursionError) as fault:
                self.faults += 1
                shown = line[:200].decode("ascii", "backslashreplace").rstrip("\n")
                print(f"{self.name}:{number}: {fault}: {shown}", file=sys.stderr)


def cell_of(value):
    if value is None:
        return ""
    return value if isinstance(value, str) else json.dumps(value, ensure_ascii=False, separators=(",", ":"))


def tsv_cell(text):
    return text.replace("\\", "\\\\").replace("\t", "\\t").replace("\r", "\\r").replace("\n", "\\n")


def write_json(records, out):
    for record in records:
        out.write(json.dumps(record, ensure_ascii=False, separators=(",", ":")) + "\n")
    return 0


def write_table(records, write_row):
    """Writes a header and a row for each pane. Returns how many other lines there were."""
    columns, others = None, 0
    for record in records:
        if "line" in record:
            others += 1
            continue
        if columns is None:
            columns = ["label"] * ("label" in record) + ["start", "end", "from", "to", "timing", "index", "key", "value"]
            write_row(columns)
        write_row([cell_of(record.get(column)) for column in columns])
    return others


def main():
    words = sys.argv[1:]
    if not 1 <= len(words) <= 2 or words[0] not in ("json", "tsv", "csv"):
        sys.exit(__doc__)
    out = open(sys.stdout.fileno(), "w", encoding="utf-8", newline="\n", closefd=False)
    with open(words[1], "rb") if len(words) == 2 else sys.stdin.buffer as file:
        records = Records(file, words[1] if len(words) == 2 else "standard input")
        if words[0] == "json":
            others = write_json(records, out)
        elif words[0] == "csv":
            others = write_table(records, csv.writer(out, lineterminator="\n").writerow)
        else:
            others = write_table(records, lambda row: out.write("\t".join(map(tsv_cell, row)) + "\n"))
    out.flush()
    if others:
        print(f"{others} lines of logs and dead positions are not in the table: json has them", file=sys.stderr)
    return 1 if records.faults or others else 0


if __name__ == "__main__":
    try:
        sys.exit(main())
    except BrokenPipeError:
        os._exit(141)
    except OSError as fault:
        sys.exit(str(fault))
