"""Turns JSON lines into timed lines: json_to_timed.py FILE TIME KEY PART

TIME, KEY and PART are keys of the records; one as user.id is that key, or else the key id in the record user. A time is
a text in RFC 3339 with a zone, or a number: of seconds below 100000000000, else of milliseconds. KEY and PART may each
name several, with commas between: a key has | between them then, and a part a TAB. A line that is no such record is named
on standard error and counted, and the status is then 1.
"""
import datetime
import decimal
import functools
import json
import math
import re
import signal
import sys

STAMP = re.compile(r"([0-9]{4}-[0-9]{2}-[0-9]{2})[Tt ]([0-9]{2}:[0-9]{2}:[0-9]{2})(?:[.]([0-9]+))?(?:[Zz]|([-+][0-9]{2}:[0-9]{2}))")
EPOCH = datetime.datetime(1970, 1, 1, tzinfo=datetime.timezone.utc)
BLANKS = str.maketrans("\t\r\n", "   ")


def milliseconds(time):
    if isinstance(time, str):
        found = STAMP.fullmatch(time)
        if not found:
            raise ValueError("no time with a zone")
        day, clock, fraction, zone = found.groups()
        at = datetime.datetime.fromisoformat(f"{day}T{clock}{zone or '+00:00'}")
        return (at - EPOCH) // datetime.timedelta(seconds=1) * 1000 + int(((fraction or "") + "000")[:3])
    if isinstance(time, bool) or not isinstance(time, (int, float)):
        raise ValueError("no time")
    return math.floor(decimal.Decimal(str(time)) * (1000 if abs(time) < 10**11 else 1))


def text(value):
    if value is None:
        raise ValueError("null where there is to be a text")
    return (value if isinstance(value, str) else json.dumps(value, ensure_ascii=False)).translate(BLANKS)


def field(record, path):
    if isinstance(record, dict) and path in record:
        return record[path]
    return functools.reduce(lambda at, word: at[word], path.split("."), record)


if len(sys.argv) != 5:
    sys.exit(__doc__)
name, at, *several = sys.argv[1:]
several = [paths.split(",") for paths in several]
signal.signal(signal.SIGPIPE, signal.SIG_DFL)  # as other commands, it ends where its reader did
sys.stdout.reconfigure(encoding="utf-8", errors="surrogateescape")
bad = 0
try:
    file = open(name, encoding="utf-8-sig", errors="surrogateescape")
except OSError as fault:
    sys.exit(str(fault))
with file:
    for number, line in enumerate(file, 1):
        try:
            record = json.loads(line)
            time = field(record, at)
            key, part = ([text(field(record, path)) for path in paths] for paths in several)
            print(milliseconds(time), "|".join(key), *part, sep="\t")
        except (ValueError, KeyError, TypeError, OverflowError) as fault:
            print(f"{name}:{number}: {type(fault).__name__}: {fault}: {line.rstrip()[:200]}", file=sys.stderr)
            bad += 1
if bad:
    sys.exit(f"{name}: {bad} line{'s' * (bad > 1)} left out")
