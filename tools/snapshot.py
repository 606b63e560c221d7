#!/usr/bin/env python3
"""Reads and writes snapshots of runs, by docs/model/snapshots.md alone and no code of the program.

    tools/snapshot.py read run.snap                 prints a snapshot as JSON
    tools/snapshot.py write run.json > run.snap     writes the bytes of such a JSON
    tools/snapshot.py check                         reads, writes and compares snapshots that stand in this file, worked out by hand

What is no snapshot is told on standard error, with the place where that is known, and the status is 12:
`bad snapshot: 1 length N`, `2 magic`, `3 coder N`, `4 rest` or `5 shape`. Whether a snapshot belongs to a plan and its files, and whether
a run could go on from it, isn't asked. What isn't the JSON of a snapshot has the status 2.

In the JSON a struct is an object of its fields, a list an array, an option the thing or null, a window `[start, end]` and a range `[from, to]`.
A variant without fields is its name, and one with fields an object of its name and its field, its fields in an array, or its named fields in
an object. A text has one character for each byte, so the byte c3 is `\\u00c3`. A number beyond 2 ^ 53 is a text, since many readers of JSON round
it; the least time is "least" and the mark of what has come to its end "final". A value is null, a number, a text, an array, or for a pair
{"pair": [key, value]}; a number beyond 2 ^ 53 is {"number": "9007199254740993"} there.

Another script may `import snapshot`: `of_bytes` and `to_bytes` are these two, over bytes and what `json` reads.
"""
import json
import os
import sys

MAGIC = b"BSN1"
LONGEST = 1073741824
DEPTH = 256
LEAST_TIME, GREATEST_TIME, FINAL = -9223372036854775, 9223372036854775, 2**63 - 1
EXACT = 2**53  # up to here every reader of JSON keeps a number


class Refusal(Exception):
    """Why bytes are no snapshot: the text of the note, and the place."""

    def __init__(self, text, place=""):
        super().__init__(f"bad snapshot: {text}" + (f" ({place})" if place else ""))
        self.text = text


class NotJson(Exception):
    """Why a JSON is none of a snapshot."""


# ---- values: None, an int, bytes, a pair as a tuple, a sequence as a list


def varint(number):
    groups, number = bytearray(), number % 2**64
    while number > 127:
        groups.append(number % 128 + 128)
        number //= 128
    groups.append(number)
    return bytes(groups)


def spelled(value):
    """The one spelling of a value."""
    out = bytearray()
    spell(value, out)
    return bytes(out)


def spell(value, out):
    if value is None:
        out.append(0)
    elif isinstance(value, int):
        out += b"\x01" + varint(value)
    elif isinstance(value, bytes):
        out += b"\x02" + varint(len(value)) + value
    else:
        out += b"\x03" if isinstance(value, tuple) else b"\x04" + varint(len(value))
        for item in value:
            spell(item, out)


class Reader:
    """Reads a value from the front of bytes. The first rule that fails from the left is told."""

    def __init__(self, bytes, at):
        self.bytes, self.at = bytes, at

    def bad(self, number, place):
        return Refusal(f"3 coder {number}", f"{place} at byte {self.at}")

    def byte(self):
        if self.at == len(self.bytes):
            raise self.bad(1, "the bytes end")
        self.at += 1
        return self.bytes[self.at - 1]

    def varint(self):
        number = 0
        for place in range(10):
            byte = self.byte()
            number += byte % 128 << 7 * place
            if byte < 128:
                if byte == 0 and place > 0 or number >= 2**64:
                    raise self.bad(2, "a varint is too long")
                return number
        raise self.bad(2, "a varint is too long")

    def value(self, depth=DEPTH):
        if depth == 0:
            raise self.bad(5, "a value is nested too deep")
        tag = self.byte()
        if tag == 0:
            return None
        if tag == 1:
            number = self.varint()
            return number - 2**64 if number >= 2**63 else number
        if tag == 2:
            length = self.varint()
            if len(self.bytes) - self.at < length:
                raise self.bad(1, f"{length} bytes are told, and there are {len(self.bytes) - self.at}")
            self.at += length
            return self.bytes[self.at - length : self.at]
        if tag == 3:
            return self.value(depth - 1), self.value(depth - 1)
        if tag == 4:
            count, items = self.varint(), []
            while len(items) < count:
                items.append(self.value(depth - 1))
            return items
        self.at -= 1
        raise self.bad(3, f"no value has the tag {tag}")


# ---- forms: `of` makes the JSON of a value, and `to` the value of a JSON. Both are told the place, for their messages.


class Form:
    def bad(self, place, what):
        return Refusal("5 shape", f"{place}: {what}")

    def the(self, kind, value, place, name):
        if not isinstance(value, kind):
            raise self.bad(place, f"it is no {name}")
        return value


class Whole(Form):
    """A whole number within bounds, with words for some. One of 64 bits without a sign is stored as these bits in two's complement."""

    def __init__(self, least, most, words=(), also=()):
        self.least, self.most, self.words, self.also = least, most, dict(words), also

    def fits(self, number):
        return self.least <= number <= self.most or number in self.also

    def of(self, value, place):
        number = self.the(int, value, place, "number")
        if self.most == 2**64 - 1:
            number %= 2**64
        if not self.fits(number):
            raise self.bad(place, f"{number} isn't from {self.least} to {self.most}")
        words = [word for word, named in self.words.items() if named == number]
        return words[0] if words else number if abs(number) <= EXACT else str(number)

    def to(self, made, place):
        if isinstance(made, str) and made not in self.words:
            made = made if not made.lstrip("-").isdigit() else int(made)
        number = self.words.get(made, made) if isinstance(made, str) else made
        if not isinstance(number, int) or isinstance(number, bool) or not self.fits(number):
            raise NotJson(f"{place}: {made!r} is no number from {self.least} to {self.most}")
        return number - 2**64 if number >= 2**63 and self.most == 2**64 - 1 else number


class Flag(Form):
    def of(self, value, place):
        if self.the(int, value, place, "number") not in (0, 1):
            raise self.bad(place, "it is neither 0 nor 1")
        return value == 1

    def to(self, made, place):
        if not isinstance(made, bool):
            raise NotJson(f"{place}: it is neither true nor false")
        return int(made)


class Blob(Form):
    def of(self, value, place):
        return self.the(bytes, value, place, "byte string").decode("latin-1")

    def to(self, made, place):
        try:
            return made.encode("latin-1")
        except (AttributeError, UnicodeEncodeError):
            raise NotJson(f"{place}: it is no text of characters up to \\u00ff") from None


class AnyValue(Form):
    def of(self, value, place):
        if isinstance(value, bytes):
            return value.decode("latin-1")
        if isinstance(value, tuple):
            return {"pair": [self.of(part, place) for part in value]}
        if isinstance(value, list):
            return [self.of(item, place) for item in value]
        return {"number": str(value)} if value is not None and abs(value) > EXACT else value

    def to(self, made, place):
        if isinstance(made, dict):
            if list(made) == ["number"]:
                return I64.to(made["number"], place)
            if list(made) == ["pair"] and isinstance(made["pair"], list) and len(made["pair"]) == 2:
                return tuple(self.to(part, place) for part in made["pair"])
            raise NotJson(f"{place}: an object is a pair of two values, or a number")
        if isinstance(made, list):
            return [self.to(item, place) for item in made]
        if isinstance(made, str):
            return BYTES.to(made, place)
        return None if made is None else I64.to(made, place)


class ListOf(Form):
    def __init__(self, form):
        self.form = form

    def of(self, value, place):
        return [self.form.of(item, f"{place}[{at}]") for at, item in enumerate(self.the(list, value, place, "sequence"))]

    def to(self, made, place):
        if not isinstance(made, list):
            raise NotJson(f"{place}: it is no array")
        return [self.form.to(item, f"{place}[{at}]") for at, item in enumerate(made)]


class OptionOf(Form):
    def __init__(self, form):
        self.form = form

    def of(self, value, place):
        if len(self.the(list, value, place, "sequence")) > 1:
            raise self.bad(place, f"it has {len(value)} items, where one or none can be")
        return self.form.of(value[0], place) if value else None

    def to(self, made, place):
        return [] if made is None else [self.form.to(made, place)]


class Struct(Form):
    """The fields by name, in their order."""

    def __init__(self, **fields):
        self.fields = fields

    def of(self, value, place):
        value = self.the(list, value, place, "sequence")
        if len(value) != len(self.fields):
            raise self.bad(place, f"it has {len(value)} fields and not {len(self.fields)}")
        return {name: form.of(item, f"{place}.{name}") for (name, form), item in zip(self.fields.items(), value)}

    def to(self, made, place):
        if not isinstance(made, dict) or set(made) != set(self.fields):
            raise NotJson(f"{place}: it is no object with just the fields {', '.join(self.fields)}")
        return [form.to(made[name], f"{place}.{name}") for name, form in self.fields.items()]


class Ends(Form):
    """A window or a range: two numbers, of which the first is below the second, or not above it."""

    def __init__(self, form, may_be_empty):
        self.form, self.may_be_empty = form, may_be_empty

    def are_in_order(self, ends):
        first, second = (int(end) for end in ends)
        return first < second or self.may_be_empty and first == second

    def of(self, value, place):
        if len(self.the(list, value, place, "sequence")) != 2:
            raise self.bad(place, f"it has {len(value)} fields and not 2")
        ends = [self.form.of(end, place) for end in value]
        if not self.are_in_order(ends):
            raise self.bad(place, f"it ends at {ends[1]} and starts at {ends[0]}")
        return ends

    def to(self, made, place):
        if not isinstance(made, list) or len(made) != 2:
            raise NotJson(f"{place}: it is no array of two numbers")
        ends = [self.form.to(end, place) for end in made]
        if not self.are_in_order(made):
            raise NotJson(f"{place}: it ends at {made[1]} and starts at {made[0]}")
        return ends


class Enum(Form):
    """The variants in their order: of each its name, and a list of forms, or a struct where its fields have names."""

    def __init__(self, **variants):
        self.variants = list(variants.items())

    def of(self, value, place):
        pair = self.the(tuple, value, place, "pair")
        number, fields = self.the(int, pair[0], place, "place of a variant"), self.the(list, pair[1], place, "sequence of fields")
        if not 0 <= number < len(self.variants):
            raise self.bad(place, f"there is no variant {number}")
        name, form = self.variants[number]
        if isinstance(form, Struct):
            return {name: form.of(fields, f"{place}.{name}")}
        if len(fields) != len(form):
            raise self.bad(place, f"{name} has {len(fields)} fields and not {len(form)}")
        made = [part.of(field, f"{place}.{name}") for part, field in zip(form, fields)]
        return {name: made[0] if len(made) == 1 else made} if made else name

    def to(self, made, place):
        name = made if isinstance(made, str) else next(iter(made)) if isinstance(made, dict) and len(made) == 1 else None
        for number, (variant, form) in enumerate(self.variants):
            if variant != name or isinstance(made, str) != (form == []):
                continue
            if isinstance(form, Struct):
                return number, form.to(made[name], f"{place}.{name}")
            parts = [] if form == [] else [made[name]] if len(form) == 1 else made[name]
            if not isinstance(parts, list) or len(parts) != len(form):
                raise NotJson(f"{place}.{name}: it has no {len(form)} fields")
            return number, [part.to(field, f"{place}.{name}") for part, field in zip(form, parts)]
        raise NotJson(f"{place}: it is none of {', '.join(name for name, _ in self.variants)}, each with its fields")


def names(*words):
    return Enum(**{word: [] for word in words})


U8, U32, U64, I64 = Whole(0, 2**8 - 1), Whole(0, 2**32 - 1), Whole(0, 2**64 - 1), Whole(-(2**63), 2**63 - 1)
TIME = Whole(LEAST_TIME, GREATEST_TIME, {"least": LEAST_TIME})
MARK = Whole(LEAST_TIME, GREATEST_TIME, {"least": LEAST_TIME, "final": FINAL}, (FINAL,))
FLAG, BYTES, VALUE = Flag(), Blob(), AnyValue()
SPAN, RANGE = Ends(I64, False), Ends(U64, True)

# ---- the types, each with its fields or its variants in their order

STRATEGY = Enum(Global=[], Fixed=Struct(size=I64), Sliding=Struct(size=I64, period=I64), Sessions=Struct(gap=I64), Kept=[])
ESTIMATOR = Enum(None_=[], Monotonic=[], Lag=[I64], Declared=[])
ESTIMATOR.variants[0] = "None", []
MODE = names("Discarding", "Accumulating")
BAR = Struct(count=U32, delay=OptionOf(I64))
TRIGGER = Struct(early=OptionOf(U32), late=U32, lateness=I64, mode=MODE, early_bars=ListOf(BAR), late_bars=ListOf(BAR))
ARGS = Enum(Nothing=[], Text=[BYTES], Number=[I64], Two=[U64, U64])
SOURCE_KIND = names("Lines", "TimedLines", "Count", "Made")
FN_KIND = names(
    "KeyField", "Words", "Field", "KeepPrefix", "FieldInt", "Swap", "Shift", "SumSeq", "CountSeq", "MaxSeq", "Unseq", "Values",
    "Tag", "JoinList", "JoinSingle", "JoinLookup",
)
STATE_KIND = names("Dedupe", "RunningSum", "BatchUntil", "LatestThenEmit")
NODE_KIND = Enum(
    Source=Struct(work=SOURCE_KIND, args=ARGS, files=ListOf(BYTES), estimator=ESTIMATOR),
    ParDo=Struct(work=FN_KIND, args=ARGS),
    Flatten=[],
    WindowInto=Struct(strategy=STRATEGY),
    Group=Struct(trigger=TRIGGER),
    Stateful=Struct(work=STATE_KIND, args=ARGS, log=FLAG),
    Write=Struct(label=BYTES),
)
PLAN = Struct(version=U32, nodes=ListOf(Struct(kind=NODE_KIND, inputs=ListOf(U32))))
FILE_LEN = Struct(node=U32, item=U32, len=U64)
OPTIONS = Struct(workers=Whole(1, 16), bundle=Whole(1, 1000000), chunk=Whole(1, 1099511627776), attempts=Whole(1, 1000))
FAULT_NOTE = Struct(node=U32, item=U32, at=U32, attempt=U32, cause=names("Call", "Read"))
PIECE = Struct(node=U32, item=U32, range=RANGE, seen=TIME, attempts=U32, spent=OptionOf(FAULT_NOTE))
DONE = Struct(node=U32, item=U32, range=RANGE)
DEAD = Struct(node=U32, item=U32, at=U64, note=FAULT_NOTE)
TIMING = names("Early", "OnTime", "Late", "Unknown")
ELEMENT = Struct(value=VALUE, time=TIME, span=SPAN, pane=Struct(timing=TIMING, index=U32))
WAITING_PANE = Struct(pane=U32, hold=MARK)
BATCH = Struct(node=U32, panes=ListOf(WAITING_PANE), attempts=U32)
ENTRY = Struct(element=ELEMENT, commit=U32, shown=FLAG)
CELL = Struct(
    node=U32, key=VALUE, span=SPAN, entries=ListOf(ENTRY), next_index=U32, on_time=FLAG, merged_into=OptionOf(SPAN)
)
PANE = Struct(node=U32, element=ELEMENT, commit=U32)
ARRIVAL = Struct(node=U32, element=ELEMENT)
TIMER = Struct(name=U8, time=TIME)
STATE_CELL = Enum(Unset=[], Number=[I64], Text=[BYTES], Bag=[ListOf(VALUE)])
LOG_ENTRY = Struct(input=Enum(Arrived=[ELEMENT], Fired=[TIMER]), commit=U32, outputs=ListOf(ELEMENT))
KEY_DATA = Struct(
    node=U32, key=VALUE, span=SPAN, state=ListOf(STATE_CELL), timers=ListOf(Struct(timer=TIMER, hold=MARK)),
    waiting=ListOf(Struct(element=ELEMENT, hold=MARK)), attempts=U32, log=ListOf(LOG_ENTRY),
)
STAGE_MARKS = Struct(mark_in=MARK, mark_out=MARK)
COMMIT_MARKS = Struct(marks=ListOf(STAGE_MARKS))
BOOK_DATA = Struct(
    plan=PLAN, files=ListOf(FILE_LEN), options=OPTIONS, pending=ListOf(PIECE), waiting=ListOf(WAITING_PANE),
    returned=ListOf(BATCH), cells=ListOf(CELL), dropped=ListOf(PANE), keys=ListOf(KEY_DATA), panes=ListOf(PANE),
    done=ListOf(DONE), dead=ListOf(DEAD), written=ListOf(ARRIVAL), commits=ListOf(COMMIT_MARKS), calls=U64, reads=U64,
)

# ---- snapshots


def value_of_bytes(bytes):
    """The value that follows the magic, with nothing behind it."""
    if len(bytes) > LONGEST:
        raise Refusal(f"1 length {len(bytes)}")
    if bytes[:4] != MAGIC:
        raise Refusal("2 magic")
    reader = Reader(bytes, 4)
    value = reader.value()
    if reader.at < len(bytes):
        raise Refusal("4 rest", f"the snapshot ends at byte {reader.at}, and the file at byte {len(bytes)}")
    return value


def of_bytes(bytes):
    """What `json` would read of a snapshot, or a `Refusal`."""
    return BOOK_DATA.of(value_of_bytes(bytes), "snapshot")


def to_bytes(made):
    """The bytes of a snapshot, or `NotJson`."""
    return MAGIC + spelled(BOOK_DATA.to(made, "snapshot"))


def printed(made):
    """The JSON, with a line for each item of the lists of a snapshot."""
    parts = []
    for name, part in made.items():
        if isinstance(part, list) and part:
            items = ",\n  ".join(map(json.dumps, part))
            parts.append(f"{json.dumps(name)}: [\n  {items}\n]")
        else:
            parts.append(f"{json.dumps(name)}: {json.dumps(part)}")
    return "{\n" + ",\n".join(parts) + "\n}\n"


# ---- the check

# What a run with bundles of one has come to after one commit, of a plan that counts to two, five milliseconds apart, and writes the numbers: one is done, and one
# is pending. It is the worked snapshot of docs/model/snapshots.md.
LEAST_BYTES, FINAL_BYTES = "01 89 d8 f2 d0 c5 ec ce ef ff 01", "01 ff ff ff ff ff ff ff ff 7f"
COUNTED = f"""
42 53 4e 31 04 10
04 02 01 01 04 02
04 02 03 01 00 04 04 03 01 02 04 00 03 01 03 04 02 01 02 01 05 04 00 03 01 00 04 00 04 00
04 02 03 01 06 04 01 02 01 77 04 01 01 00
04 01 04 03 01 00 01 00 01 02
04 04 01 04 01 01 01 80 80 04 01 03
04 01 04 06 01 00 01 00 04 02 01 01 01 02 {LEAST_BYTES} 01 00 04 00
04 00 04 00 04 00 04 00 04 00 04 00
04 01 04 03 01 00 01 00 04 02 01 00 01 01
04 00
04 01 04 02 01 01 04 04 01 00 01 00 04 02 {LEAST_BYTES} 01 f8 a7 8d af ba 93 b1 10 04 02 03 01 03 04 00 01 00
04 02
04 01 04 02 04 02 {FINAL_BYTES} {LEAST_BYTES} 04 02 {LEAST_BYTES} {LEAST_BYTES}
04 01 04 02 04 02 {FINAL_BYTES} {LEAST_BYTES} 04 02 {LEAST_BYTES} {LEAST_BYTES}
01 00 01 00
"""
EARLIEST, GLOBAL = "least", ["-9223372036854775", "9223372036854776"]
COUNTED_MARKS = {"marks": [{"mark_in": "final", "mark_out": EARLIEST}, {"mark_in": EARLIEST, "mark_out": EARLIEST}]}
COUNTED_JSON = {
    "plan": {"version": 1, "nodes": [
        {"kind": {"Source": {"work": "Count", "args": {"Two": [2, 5]}, "files": [], "estimator": "None"}}, "inputs": []},
        {"kind": {"Write": {"label": "w"}}, "inputs": [0]},
    ]},
    "files": [{"node": 0, "item": 0, "len": 2}],
    "options": {"workers": 4, "bundle": 1, "chunk": 65536, "attempts": 3},
    "pending": [{"node": 0, "item": 0, "range": [1, 2], "seen": EARLIEST, "attempts": 0, "spent": None}],
    "waiting": [], "returned": [], "cells": [], "dropped": [], "keys": [], "panes": [],
    "done": [{"node": 0, "item": 0, "range": [0, 1]}],
    "dead": [],
    "written": [{"node": 1, "element": {"value": 0, "time": 0, "span": GLOBAL, "pane": {"timing": "Unknown", "index": 0}}}],
    "commits": [COUNTED_MARKS, COUNTED_MARKS],
    "calls": 0, "reads": 0,
}

# Parts by hand: the form, the bytes of its value, and the JSON.
PARTS = [
    (U32, "01 ff ff ff ff 0f", 2**32 - 1),
    (U64, "01 ff ff ff ff ff ff ff ff ff 01", "18446744073709551615"),
    (I64, "01 fb ff ff ff ff ff ff ff ff 01", -5),
    (MARK, FINAL_BYTES, "final"),
    (TIME, LEAST_BYTES, EARLIEST),
    (FLAG, "01 01", True),
    (BYTES, "02 02 63 c3", "c\u00c3"),
    (VALUE, "03 02 01 61 04 02 02 01 78 01 01", {"pair": ["a", ["x", 1]]}),
    (VALUE, "04 02 00 01 81 80 80 80 80 80 80 10", [None, {"number": "9007199254740993"}]),
    (OptionOf(SPAN), "04 01 04 02 01 03 01 05", [3, 5]),
    (OptionOf(SPAN), "04 00", None),
    (STRATEGY, "03 01 02 04 02 01 0a 01 05", {"Sliding": {"size": 10, "period": 5}}),
    (ESTIMATOR, "03 01 02 04 01 01 07", {"Lag": 7}),
    (STATE_CELL, "03 01 03 04 01 04 02 00 01 02", {"Bag": [None, 2]}),
    (TRIGGER, "04 06 04 01 01 02 01 01 01 00 03 01 00 04 00 04 01 04 02 01 03 04 01 01 7f 04 00".replace("01 7f", "01 ff ff ff ff ff ff ff ff ff 01"),
     {"early": 2, "late": 1, "lateness": 0, "mode": "Discarding", "early_bars": [{"count": 3, "delay": -1}], "late_bars": []}),
    (KEY_DATA, "04 08 01 02 02 01 6b 04 02 01 00 01 0a 04 02 03 01 01 04 01 01 07 03 01 00 04 00 04 01 04 02 04 02 01 00 01 05 01 09"
               " 04 00 01 01 04 01 04 03 03 01 01 04 01 04 02 01 00 01 05 01 06 04 00",
     {"node": 2, "key": "k", "span": [0, 10], "state": [{"Number": 7}, "Unset"], "timers": [{"timer": {"name": 0, "time": 5}, "hold": 9}],
      "waiting": [], "attempts": 1, "log": [{"input": {"Fired": {"name": 0, "time": 5}}, "commit": 6, "outputs": []}]}),
    (PIECE, f"04 06 01 00 01 00 04 02 01 0a 01 0b {LEAST_BYTES} 01 03 04 01 04 05 01 00 01 00 01 02 01 03 03 01 01 04 00",
     {"node": 0, "item": 0, "range": [10, 11], "seen": EARLIEST, "attempts": 3,
      "spent": {"node": 0, "item": 0, "at": 2, "attempt": 3, "cause": "Read"}}),
    (CELL, "04 07 01 03 00 04 02 01 00 01 0a 04 00 01 01 01 01 04 01 04 02 01 00 01 13",
     {"node": 3, "key": None, "span": [0, 10], "entries": [], "next_index": 1, "on_time": True, "merged_into": [0, 19]}),
]

# Bytes behind the magic, or all of them, and the note.
REFUSED = [
    (b"", "2 magic"),
    (b"BSN", "2 magic"),
    (b"BSN2\x00", "2 magic"),
    (b"BSN1", "3 coder 1"),
    (b"BSN1\x01\x80", "3 coder 1"),
    (b"BSN1\x01\x80\x00", "3 coder 2"),
    (b"BSN1\x01" + b"\xff" * 9 + b"\x02", "3 coder 2"),
    (b"BSN1\x02\x02a", "3 coder 1"),
    (b"BSN1\x05", "3 coder 3"),
    (b"BSN1" + b"\x04\x01" * 256 + b"\x00", "3 coder 5"),
    (b"BSN1\x00\x07", "4 rest"),
    (b"BSN1\x00", "5 shape"),
    (b"BSN1" + b"\x04\x01" * 255 + b"\x00", "5 shape"),
]
# Pairs of parts of the worked snapshot, and what stands there instead: each is no form.
BROKEN = [
    ("04 10\n", "04 11 00\n"),
    ("01 04 01 01 01 80 80 04 01 03", "01 11 01 01 01 80 80 04 01 03"),
    ("01 04 01 01 01 80 80 04 01 03", "01 04 01 00 01 80 80 04 01 03"),
    ("01 04 01 01 01 80 80 04 01 03", "01 04 01 01 01 80 80 04 01 e9 07"),
    ("04 02 01 01 01 02", "04 02 01 03 01 02"),
    ("03 01 03 04 00 01 00", "03 01 04 04 00 01 00"),
    ("03 01 03 04 00 01 00", "03 01 03 04 01 00 01 00"),
    ("01 00 04 00\n04 00", "01 00 04 02 00 00\n04 00"),
    ("01 00 01 00\n", "01 00 00\n"),
    (FINAL_BYTES, "01 fe ff ff ff ff ff ff ff 7f"),
    ("02 01 77", "01 77"),
    ("01 00 04 02 01 00 01 01", "01 80 80 80 80 10 04 02 01 00 01 01"),
]


def check():
    faults = []

    def wants(what, got, wanted):
        if got != wanted:
            faults.append(f"{what}: {got!r} and not {wanted!r}")

    def refusal_of(bytes):
        try:
            of_bytes(bytes)
        except Refusal as refusal:
            return refusal.text
        return "none"

    counted = bytes.fromhex(COUNTED)
    wants("the worked snapshot is read", of_bytes(counted), COUNTED_JSON)
    wants("the worked snapshot is written", to_bytes(json.loads(printed(COUNTED_JSON))).hex(), counted.hex())
    for form, digits, made in PARTS:
        spelling = bytes.fromhex(digits)
        wants(f"{digits} is read", form.of(Reader(spelling, 0).value(), "part"), made)
        wants(f"{digits} is written", spelled(form.to(made, "part")).hex(), spelling.hex())
    for bytes_, note in REFUSED:
        wants(f"{bytes_[:20]!r} is refused", refusal_of(bytes_), note)
    for length in range(len(counted)):
        wants(f"its first {length} bytes are refused", refusal_of(counted[:length]), "2 magic" if length < 4 else "3 coder 1")
    wants("a byte more is refused", refusal_of(counted + b"\0"), "4 rest")
    for part, other in BROKEN:
        broken = bytes.fromhex(COUNTED.replace(part, other, 1))
        wants(f"with {other!r} for {part!r} it differs", broken == counted, False)
        wants(f"with {other!r} for {part!r} it is refused", refusal_of(broken), "5 shape")
    for name in COUNTED_JSON:
        less = {key: part for key, part in COUNTED_JSON.items() if key != name}
        try:
            to_bytes(less)
            faults.append(f"it is written without {name}")
        except NotJson:
            pass
    page = os.path.join(os.path.dirname(os.path.abspath(__file__)), "..", "docs", "model", "snapshots.md")
    if os.path.exists(page):
        wants("the bytes of docs/model/snapshots.md", shown_bytes(page), counted.hex())
    for fault in faults:
        print(fault)
    print(f"snapshot: {len(PARTS) + len(REFUSED) + len(BROKEN) + len(counted) + 3} compared, {len(faults)} wrong")
    return 1 if faults else 0


def shown_bytes(page):
    """The bytes of the worked snapshot of a page: the pairs of digits at the front of the lines of its blocks."""
    digits = ""
    with open(page, encoding="utf-8") as file:
        lines = file.read().split("## Worked")[-1].splitlines()
    for line in lines:
        for word in line.split() if line.startswith("    ") else []:
            if len(word) != 2 or set(word) - set("0123456789abcdef"):
                break
            digits += word
    return digits


# ---- the command


def read_file(name):
    length = os.path.getsize(name)
    if length > LONGEST:
        raise Refusal(f"1 length {length}")
    with open(name, "rb") as file:
        return file.read()


def main():
    words = sys.argv[1:]
    try:
        if words == ["check"]:
            return check()
        if len(words) == 2 and words[0] == "read":
            sys.stdout.write(printed(of_bytes(read_file(words[1]))))
            return 0
        if len(words) == 2 and words[0] == "write":
            with open(words[1], encoding="utf-8") as file:
                bytes = to_bytes(json.load(file))
            sys.stdout.buffer.write(bytes)
            return 0
    except Refusal as refusal:
        print(refusal, file=sys.stderr)
        return 12
    except (NotJson, ValueError) as refusal:
        print(f"not the JSON of a snapshot: {refusal}", file=sys.stderr)
        return 2
    except BrokenPipeError:
        return 7
    except OSError as refusal:
        print(f"{refusal.filename}: {refusal.strerror}", file=sys.stderr)
        return 4
    print(__doc__.split("\n\n")[1], file=sys.stderr)
    return 2


if __name__ == "__main__":
    sys.exit(main())
