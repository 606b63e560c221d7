"""Turns a CSV file into timed lines: csv_to_timed.py FILE TIME KEY PART [DELIMITER]

TIME, KEY and PART are names of columns, as the first line has them; DELIMITER is a comma where it is absent. A time is
a text in RFC 3339 with a zone, or a number: of seconds below 100000000000, else of milliseconds. Where TIME is - all rows
have the time 0. KEY and PART may each name several columns, with commas between: a key has | between them then, and a
part a TAB. A row that has no such time, more or fewer fields than the first, or a quote that isn't closed or has text
behind it, is named on standard error and counted, and the status is then 1.
"""
import csv
import datetime
import decimal
import math
import re
import signal
import sys

if not 5 <= len(sys.argv) <= 6:
    sys.exit(__doc__)
name, *columns = sys.argv[1:5]
delimiter = sys.argv[5] if len(sys.argv) == 6 else ","
STAMP = re.compile(r"([0-9]{4}-[0-9]{2}-[0-9]{2})[Tt ]([0-9]{2}:[0-9]{2}:[0-9]{2})(?:[.]([0-9]+))?(?:[Zz]|([-+][0-9]{2}:[0-9]{2}))")
EPOCH = datetime.datetime(1970, 1, 1, tzinfo=datetime.timezone.utc)
BLANKS = str.maketrans("\t\r\n", "   ")


def milliseconds(time):
    if re.fullmatch(r"-?[0-9]+([.][0-9]+)?", time):
        number = decimal.Decimal(time)
        return math.floor(number * (1000 if abs(number) < 10**11 else 1))
    found = STAMP.fullmatch(time)
    if not found:
        raise ValueError(f"no time with a zone: {time!r}")
    day, clock, fraction, zone = found.groups()
    at = datetime.datetime.fromisoformat(f"{day}T{clock}{zone or '+00:00'}")
    return (at - EPOCH) // datetime.timedelta(seconds=1) * 1000 + int(((fraction or "") + "000")[:3])


signal.signal(signal.SIGPIPE, signal.SIG_DFL)  # as other commands, it ends where its reader did
sys.stdout.reconfigure(encoding="utf-8", errors="surrogateescape")
bad = 0
try:
    file = open(name, newline="", encoding="utf-8-sig", errors="surrogateescape")
except OSError as fault:
    sys.exit(str(fault))
with file:
    csv.field_size_limit(sys.maxsize)
    rows = csv.DictReader(file, delimiter=delimiter, strict=True)
    timeless = columns[0] == "-"
    names = rows.fieldnames or []
    columns[1:] = [[column] if column in names else column.split(",") for column in columns[1:]]
    missing = [column for column in [columns[0]] * (not timeless) + columns[1] + columns[2] if column not in names]
    if missing:
        sys.exit(f"{name}: no column {missing}, but {rows.fieldnames}")
    while True:
        begin = rows.reader.line_num + 1
        try:
            row = next(rows, None)
            if row is None:
                break
            if None in row or None in row.values():
                raise ValueError("not as many fields as the first line has")
            key, part = ([row[column].translate(BLANKS) for column in several] for several in columns[1:])
            print(0 if timeless else milliseconds(row[columns[0]].translate(BLANKS)), "|".join(key), *part, sep="\t")
        except ValueError as fault:
            print(f"{name}:{rows.line_num}: {fault}", file=sys.stderr)
            bad += 1
        except csv.Error as fault:
            print(f"{name}:{begin}: a row up to line {rows.reader.line_num}: {fault}", file=sys.stderr)
            bad += 1
if bad:
    sys.exit(f"{name}: {bad} row{'s' * (bad > 1)} left out")
