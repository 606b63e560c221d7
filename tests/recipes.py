#!/usr/bin/env python3
"""Runs the scripts of examples/recipes/ on small inputs and compares with what was worked out by hand.

dead_lines.py gets a plan, its files and a text. panes_to.py also reads each text that a worked case says the program prints, and what it makes of that is spelled as a
text again: it has to be the same. A script whose awk isn't there is passed over, and the last line says so.
"""
import json
import pathlib
import re
import resource
import shutil
import subprocess
import sys
import tempfile

ROOT = pathlib.Path(__file__).resolve().parent.parent
RECIPES = ROOT / "examples/recipes"

MINUTE = '"start":0,"end":60000,"from":"1970-01-01T00:00:00Z","to":"1970-01-01T00:01:00Z"'
FIRST = MINUTE + ',"timing":"ON_TIME","index":0'

# One line of a text, and its JSON line.
LINES = [
    # a key and its parts, a number, null, no pair, nothing in a sequence
    (r'0	60000	ON_TIME	0	("a",["x","y"])', "{" + FIRST + ',"key":"a","value":["x","y"]}'),
    (r'0	60000	ON_TIME	0	("a",-9223372036854775808)', "{" + FIRST + ',"key":"a","value":-9223372036854775808}'),
    (r'0	60000	ON_TIME	0	(null,null)', "{" + FIRST + ',"key":null,"value":null}'),
    (r'0	60000	ON_TIME	0	7', "{" + FIRST + ',"value":7}'),
    (r'0	60000	ON_TIME	0	null', "{" + FIRST + ',"value":null}'),
    (r'0	60000	ON_TIME	0	("a",[])', "{" + FIRST + ',"key":"a","value":[]}'),
    # pairs and sequences inside one another
    (r'0	60000	ON_TIME	0	("a",[("b",1),[2,[null,"c"]],[]])', "{" + FIRST + ',"key":"a","value":[{"key":"b","value":1},[2,[null,"c"]],[]]}'),
    (r'0	60000	ON_TIME	0	((1,"b"),("c",2))', "{" + FIRST + ',"key":{"key":1,"value":"b"},"value":{"key":"c","value":2}}'),
    (r'0	60000	ON_TIME	0	[("a",1)]', "{" + FIRST + ',"value":[{"key":"a","value":1}]}'),
    # quotes, backslashes, TAB, CR, LF, signs of the text inside a text, bytes of UTF-8 and others
    (r'0	60000	ON_TIME	0	"q\"b\\t\tn\nr\r"', "{" + FIRST + r',"value":"q\"b\\t\tn\nr\r"}'),
    (r'0	60000	ON_TIME	0	("),(","[\\",)', None),
    (r'0	60000	ON_TIME	0	("),(","[\\")', "{" + FIRST + r',"key":"),(","value":"[\\"}'),
    (r'0	60000	ON_TIME	0	"/caf\xc3\xa9 \xe2\x82\xac"', "{" + FIRST + ',"value":"/caf\u00e9 \u20ac"}'),
    (r'0	60000	ON_TIME	0	"\xff\x00\x7f"', "{" + FIRST + r',"value":"\\xff\u0000' + '\x7f"}'),
    (r'0	60000	ON_TIME	0	""', "{" + FIRST + ',"value":""}'),
    # timings and indices
    (r'0	60000	EARLY	4294967295	1', "{" + MINUTE + ',"timing":"EARLY","index":4294967295,"value":1}'),
    (r'0	60000	LATE	1	1', "{" + MINUTE + ',"timing":"LATE","index":1,"value":1}'),
    (r'0	60000	UNKNOWN	0	1', "{" + MINUTE + ',"timing":"UNKNOWN","index":0,"value":1}'),
    # times before 1970, with milliseconds, and without a year of four digits
    (r'-1	1699999980001	ON_TIME	0	1', '{"start":-1,"end":1699999980001,"from":"1969-12-31T23:59:59.999Z","to":"2023-11-14T22:13:00.001Z","timing":"ON_TIME","index":0,"value":1}'),
    (r'-9223372036854775	9223372036854776	ON_TIME	0	1', '{"start":-9223372036854775,"end":9223372036854776,"from":null,"to":null,"timing":"ON_TIME","index":0,"value":1}'),
    # logs and dead positions
    (r'log	2	0	60000	"b"	element	1000	9', '{"line":"element","node":2,' + MINUTE + ',"key":"b","time":1000,"value":9}'),
    (r'log	2	0	60000	("b",1)	timer	3	-500', '{"line":"timer","node":2,' + MINUTE + ',"key":{"key":"b","value":1},"name":3,"time":-500}'),
    (r'dead	0	1	9	2', '{"line":"dead","node":0,"item":1,"position":9,"at":2}'),
    # no lines of a text
    (r'0	60000	ON_TIME	0', None),
    (r'0	60000	ON_TIME	0	1	2', None),
    (r'0	60000	on time	0	1', None),
    (r'0	x	ON_TIME	0	1', None),
    (r'0	60000	ON_TIME	0	("a")', None),
    (r'0	60000	ON_TIME	0	("a",1', None),
    (r'0	60000	ON_TIME	0	[1,]', None),
    (r'0	60000	ON_TIME	0	[1 2]', None),
    (r'0	60000	ON_TIME	0	1 ', None),
    (r'0	60000	ON_TIME	0	"a', None),
    (r'0	60000	ON_TIME	0	"\q"', None),
    (r'0	60000	ON_TIME	0	"\xG1"', None),
    ('0	60000	ON_TIME	0	"\u00e9"', None),
    (r'log	2	0	60000	"b"	other	1000	9', None),
    (r'log	2	0	60000	"b"	element	1000', None),
    (r'dead	0	1	9', None),
    (r'work fault: node 0 item 0 at 0 attempt 3 call', None),
    (r'', None),
]

TWO = '# "a\\""\n0\t60000\tON_TIME\t0\t("k",["x,y",1])\n# "b"\n0\t60000\tON_TIME\t0\t("t\\t\\"\\\\",null)\n'
HEAD = ["label", "start", "end", "from", "to", "timing", "index", "key", "value"]

# Words behind the script, the input, what comes on standard output and the status; and a part of standard error.
CASES = [
    ("panes_to.py", ["json"], TWO, '{"label":"a\\"",' + FIRST + ',"key":"k","value":["x,y",1]}\n{"label":"b",' + FIRST + r',"key":"t\t\"\\","value":null}' + "\n", 0, ""),
    ("panes_to.py", ["csv"], TWO,
     ",".join(HEAD) + '\n"a""",0,60000,1970-01-01T00:00:00Z,1970-01-01T00:01:00Z,ON_TIME,0,k,"[""x,y"",1]"\n'
     'b,0,60000,1970-01-01T00:00:00Z,1970-01-01T00:01:00Z,ON_TIME,0,"t\t""\\",\n', 0, ""),
    ("panes_to.py", ["tsv"], TWO,
     "\t".join(HEAD) + '\na"\t0\t60000\t1970-01-01T00:00:00Z\t1970-01-01T00:01:00Z\tON_TIME\t0\tk\t["x,y",1]\n'
     'b\t0\t60000\t1970-01-01T00:00:00Z\t1970-01-01T00:01:00Z\tON_TIME\t0\tt\\t"\\\\\t\n', 0, ""),
    ("panes_to.py", ["csv"], "0\t1\tON_TIME\t0\t5\n", "start,end,from,to,timing,index,key,value\n0,1,1970-01-01T00:00:00Z,1970-01-01T00:00:00.001Z,ON_TIME,0,,5\n", 0, ""),
    ("panes_to.py", ["json"], '# "a"\n# "b"\n', "", 0, ""),
    ("panes_to.py", ["json"], "# 5\n", "", 1, ":1: no label: # 5"),
    ("panes_to.py", ["json"], "", "", 0, ""),
    ("panes_to.py", ["tsv"], "dead\t0\t1\t9\t2\n" + 'log\t2\t0\t1\t"b"\ttimer\t0\t5\n', "", 1, "2 lines of logs and dead positions"),
    ("panes_to.py", ["json"], "x\n0\t60000\tON_TIME\t0\t1\n0\t60000\tON_TIME\t0\t1", "{" + FIRST + ',"value":1}\n', 1, ":3: the text was cut"),
    ("panes_to.py", ["json"], "0\t1\tON_TIME\t0\t" + "[" * 5000 + "]" * 5000 + "\n", "", 1, ":1: "),
    ("panes_to.py", ["xml"], "", "", 1, "json|tsv|csv"),
    ("json_to_timed.py", ["FILE", "at", "user.id", "page"],
     '{"at":"2023-11-14T22:13:20Z","user":{"id":"ada"},"page":"/home"}\n'
     '{"at":"2023-11-14 23:13:20.1239+01:00","user":{"id":7},"page":"a\\tb\\nc"}\n'
     '{"at":1700000000,"user":{"id":"u"},"page":[1,{"a":2.5}]}\n{"at":1700000000.1239,"user":{"id":"u"},"page":1.5}\n'
     '{"at":1700000000123,"user":{"id":"\\u00e9"},"page":true}\n{"at":-1.0005,"user":{"id":"u"},"page":""}\n',
     '1700000000000\tada\t/home\n1700000000123\t7\ta b c\n1700000000000\tu\t[1, {"a": 2.5}]\n1700000000123\tu\t1.5\n'
     "1700000000123\t\u00e9\ttrue\n-1001\tu\t\n", 0, ""),
    ("json_to_timed.py", ["FILE", "at", "user", "page"],
     '{"at":"2023-11-14T22:13:20","user":"u","page":""}\n{"at":true,"user":"u","page":""}\n{"at":5,"user":null,"page":""}\n'
     '{"at":5,"page":""}\n[1]\nx\n\n{"at":5,"user":"u","page":"p"}\n{"at":NaN,"user":"u","page":""}\n', "5000\tu\tp\n", 1, ":1: ValueError: no time with a zone"),
    ("json_to_timed.py", ["FILE", "at", "user", "page"],
     "".join(f'{{"at":"{at}","user":"u","page":""}}\n' for at in (
         "1969-12-31T23:59:59.9999Z", "1970-01-01t00:00:00z", "1970-01-01T00:00:00.5+00:01", "2024-02-29T00:00:00Z",
         "2023-02-29T00:00:00Z", "1970-01-01T24:00:00Z", "1970-01-01T00:00:60Z", "1970-01-01T00:00Z", "19700101T000000Z", "1970-01-01T00:00:00+24:00")),
     "-1\tu\t\n0\tu\t\n-59500\tu\t\n1709164800000\tu\t\n", 1, ":10: "),
    ("json_to_timed.py", ["FILE", "at", "user", "page"], "x\n" + '{"at":5,"user":"u","page":"p"}\n' + "y\n", "5000\tu\tp\n", 1, ": 2 lines left out\n"),
    ("json_to_timed.py", ["FILE", "at", "user", "page"], '\ufeff{"at":5,"user":"u","page":"\udcff"}\n', "5000\tu\t\udcff\n", 0, ""),
    ("json_to_timed.py", ["FILE", "at", "log.level,user.id", "user.id,at"],
     '{"at":5,"log.level":"x","user":{"id":"u"}}\n{"at":5,"log":{"level":"y\\t"},"user.id":7}\n{"at":5,"log":[],"user.id":7}\n',
     "5000\tx|u\tu\t5\n5000\ty |7\t7\t5\n", 1, ":3: TypeError"),
    ("csv_to_timed.py", ["FILE", "t", "k,p", "t,k,q"], 'p,t,k,"t,k,q"\n1,0,"a\tb",9\n', "0\ta b|1\t9\n", 0, ""),
    ("csv_to_timed.py", ["FILE", "-", "k", "t,p"], "p,t,k\n1,0,a\n", "0\ta\t0\t1\n", 0, ""),
    ("csv_to_timed.py", ["FILE", "t", "k", "p"], 't,k,p\n0,a,"' + "x" * 200000 + '"\n0,b,2\n', "0\ta\t" + "x" * 200000 + "\n0\tb\t2\n", 0, ""),
    ("csv_to_timed.py", ["FILE", "t", "k", "p"], 't,k,p\n0,a,1\n0,b,"2\n0,"c",3\n0,d,4\n', "0\ta\t1\n0\td\t4\n", 1, ":3: a row up to line 4: "),
    ("csv_to_timed.py", ["FILE", "t", "k", "p"], 't,k,p\n0,a,1\n0,b,"2\n0,c,3\n', "0\ta\t1\n", 1, ":3: a row up to line 4: unexpected end"),
    ("csv_to_timed.py", ["FILE", "t", "k,q", "p,"], "p,t,k\n1,0,a\n", "", 1, "no column ['q', '']"),
    ("csv_to_timed.py", ["FILE", "t", "k", "p"],
     '\ufefft,k,p\r\n2023-11-14T22:13:20Z,"a,""b",1\r\n1700000000,k,\r\n1700000000123,k\r\n1700000000.9999,k,"x\ny"\r\nsoon,k,1\r\n',
     '1700000000000\ta,"b\t1\n1700000000000\tk\t\n1700000000999\tk\tx y\n', 1, ":4: not as many fields"),
    ("csv_to_timed.py", ["FILE", "t", "k", "p", ";"], "p;k;t\n1,5;a;0\n", "0\ta\t1,5\n", 0, ""),
    ("csv_to_timed.py", ["FILE", "t", "k", "p"], "t,k,p\nsoon,k,1\n0,a,1\n", "0\ta\t1\n", 1, ": 1 row left out\n"),
    ("csv_to_timed.py", ["FILE", "-", "k", "p"], "k,-,p\na,9,1\nb,9\nc,9,\n", "0\ta\t1\n0\tc\t\n", 1, ":3: not as many fields"),
    ("csv_to_timed.py", ["FILE", "-", "k", "q"], "k,p\n", "", 1, "no column ['q']"),
    ("csv_to_timed.py", ["FILE", "t", "k", "q"], "t,k,p\n", "", 1, "no column ['q']"),
]
ACCESS = (
    '1.2.3.4 - - [15/Nov/2023:06:13:21 +0800] "GET /index.html HTTP/1.1" 200 512 "-" "curl/8.0"\n'
    '1.2.3.4 - - [14/Nov/2023:22:13:22 +0000] "GET /a\\"b HTTP/1.1" 200 -\n'
    '1.2.3.4 - - [29/Feb/2024:00:00:00 -0130] "-" 400 7\n'
    '1.2.3.4 - - [30/Feb/2024:00:00:00 +0000] "GET / HTTP/1.1" 200 7\n'
)
KEYS = {"status": ("200", "200", "400"), "method": ("GET", "GET", "-"), "host": ("1.2.3.4",) * 3,
        "status,method,host": ("200|GET|1.2.3.4", "200|GET|1.2.3.4", "400|-|1.2.3.4")}
TIMED = '1700000001000\t/index.html\t512\n1700000002000\t/a\\"b\t0\n1709170200000\t-\t7\n'

# What TimedLines takes, and FieldInt of it, at the bounds of times and numbers.
GOOD = (
    "1000\tada\t5\n!5000\n007\ta\t-9223372036854775808\n9223372036854775\ta\t0009223372036854775\n"
    "-9223372036854775\ta\t9223372036854775807\n0000000000000007\ta\t0\n"
)
BAD = [
    ("2,5\tada\t6", "no time"), ("!x", "no time behind !"), ("!5000\t", "no time behind !"), ("", "no TAB"), ("17", "no TAB"),
    ("9223372036854776\ta\t1", "no time"), ("12345678901234567\ta\t1", "no time"), ("- 1\ta\t1", "no time"), ("+1\ta\t1", "no time"),
]
NO_NUMBERS = [
    ("3000\tada\t7 pears", "no number"), ("7\ta\t9223372036854775808", "no number"), ("7\ta\t-9223372036854775809", "no number"),
    ("7\ta", "no part"), ("7\ta\t", "no number"), ("7\ta\t1\t2", "no number"), ("7\ta\t00000000000000000001", "no number"),
]


def good_lines_fault(awk):
    """Each bad line alone behind the good ones, without and with a look at parts."""
    words = [*awk, "-f", str(RECIPES / "good_lines.awk")]
    yield fault_of(words, "\ufeff" + GOOD.replace("\n", "\r\n"), GOOD, 0, "")
    yield fault_of([*awk, "-v", "numbers=1", *words[len(awk):]], GOOD, GOOD, 0, "")
    for line, why in BAD:
        yield fault_of(words, GOOD + line + "\n", GOOD, 1, f":7: {why}: {line}\n")
    for line, why in BAD + NO_NUMBERS:
        yield fault_of([*awk, "-v", "numbers=1", *words[len(awk):]], GOOD + line + "\n", GOOD, 1, f":7: {why}: {line}\n")
    yield fault_of(words, "x\n" + GOOD + "x\nx\n", GOOD, 1, ": 3 lines left out\n")
    for line, _ in NO_NUMBERS:
        yield fault_of(words, line + "\n", line + "\n", 0, "")


def ran(words, text):
    data = text.encode("utf-8", "surrogateescape")
    with tempfile.NamedTemporaryFile() as file:
        file.write(data)
        file.flush()
        words = [file.name if word == "FILE" else word for word in words]
        done = subprocess.run(words, input=data, capture_output=True)
    return done.stdout.decode("utf-8", "surrogateescape"), done.returncode, done.stderr.decode("utf-8", "replace")


def fault_of(words, text, out, status, note):
    got = ran(words, text)
    if got[:2] == (out, status) and note in got[2] and (status or not got[2]):
        return None
    return f"{' '.join(words)}: wanted {status} {out!r} and {note!r}, got {got[1]} {got[0]!r} and {got[2]!r}"


def script(name):
    return [sys.executable, str(RECIPES / name)]


# Files with bad lines: line ends of both kinds, an empty line, bytes that are no UTF-8, a last line without its end, and one file twice. Behind a node `side`
# the numbers of nodes are four higher.
DEAD_PLAN = {"beam": 2, "nodes": [
    {"name": "in", "files": ["FOLDER/a", "FOLDER/b", "FOLDER/a"]}, {"name": "n", "work": "Count"}, {"name": "\u00e9", "input": ["in"]},
    {"name": "s", "kind": "side"}, {"name": "later", "files": ["FOLDER/b"]}]}
DEAD_FILES = {"a": b"1\ta\tx\r\nbad\r\n\n2\ta\ty\n\xffz", "b": b"x\n"}
# A text, what list and take print of it, the status, and a part of standard error.
DEAD_CASES = [
    ("", "", "", 0, ""),
    ('0\t60000\tON_TIME\t0\t("dead",5)\ndead\t0\t0\t7\t0\ndead\t0\t0\t12\t0\ndead\t0\t0\t19\t2\ndead\t0\t1\t0\t2\ndead\t0\t2\t7\t0\n',
     "FOLDER/a:2: in: bad\nFOLDER/a:3: in: \nFOLDER/a:5: \u00e9: \udcffz\nFOLDER/b:1: \u00e9: x\nFOLDER/a:2: in: bad\n",
     "bad\r\n\n\udcffz\nx\nbad\r\n", 0, ""),
    # offsets inside a line and behind the end, and a source without files
    ("dead\t0\t0\t8\t0\ndead\t0\t0\t9\t0\ndead\t0\t0\t12\t0\ndead\t0\t0\t21\t0\n", "FOLDER/a:3: in: \n", "\n", 1, "a: no line begins at 9\n"),
    ("dead\t0\t1\t0\t0\ndead\t1\t0\t4\t2\ndead\t1\t0\t7\t2\n", "FOLDER/b:1: in: x\n", "x\n", 1, "n: has no file, its positions are 4, 7\n"),
    ("dead\t8\t0\t0\t8\n", "FOLDER/b:1: later: x\n", "x\n", 0, ""),
    # a replay's own lines, and a text that was cut, are none of these
    ("dead 0 0 7\n--\ndead\t0\t0\t7\n", "", "", 0, ""),
    ("dead\t0\t0\t7\t0\ndead\t0\t0\t1", "", "", 1, "the text was cut: its last line has no end\n"),
]


def dead_faults():
    with tempfile.TemporaryDirectory() as folder:
        at = pathlib.Path(folder)
        (at / "plan.json").write_text(json.dumps(DEAD_PLAN).replace("FOLDER", folder))
        for name, data in DEAD_FILES.items():
            (at / name).write_bytes(data)
        for text, listed, taken, status, note in DEAD_CASES:
            for word, wanted in (("list", listed), ("take", taken)):
                yield fault_of([*script("dead_lines.py"), word, str(at / "plan.json"), "FILE"], text, wanted.replace("FOLDER", folder), status, note)
                yield fault_of([*script("dead_lines.py"), word, str(at / "plan.json"), "-"], text, wanted.replace("FOLDER", folder), status, note)


def line_faults():
    """All lines as one text: each that is none is named by its number."""
    text = "".join(line + "\n" for line, _ in LINES)
    out, _, notes = ran([*script("panes_to.py"), "json"], text)
    wanted = [record for _, record in LINES if record is not None]
    for want, got in zip(wanted, out.split("\n")):
        if want != got:
            yield f"panes_to.py: wanted {want}, got {got}"
    if out.count("\n") != len(wanted):
        yield f"panes_to.py: {out.count(chr(10))} records of {len(wanted)}"
    named = [int(number) for number in re.findall(r"^standard input:(\d+): ", notes, re.M)]
    if named != [at for at, (_, record) in enumerate(LINES, 1) if record is None]:
        yield f"panes_to.py names the lines {named}"


def spelled(value):
    """A value of a JSON record as the program prints it."""
    if value is None:
        return "null"
    if isinstance(value, int):
        return str(value)
    if isinstance(value, list):
        return "[" + ",".join(map(spelled, value)) + "]"
    if isinstance(value, dict):
        return f"({spelled(value['key'])},{spelled(value['value'])})"
    signs = {'"': '\\"', "\\": "\\\\", "\n": "\\n", "\r": "\\r", "\t": "\\t"}
    return '"' + "".join(signs.get(chr(b), chr(b) if 32 <= b <= 126 else f"\\x{b:02x}") for b in value.encode()) + '"'


def line_of(record):
    window = [record.get("start"), record.get("end")]
    if record.get("line") == "element":
        words = ["log", record["node"], *window, spelled(record["key"]), "element", record["time"], spelled(record["value"])]
    elif record.get("line") == "timer":
        words = ["log", record["node"], *window, spelled(record["key"]), "timer", record["name"], record["time"]]
    elif record.get("line") == "dead":
        words = ["dead", record["node"], record["item"], record["position"], record["at"]]
    else:
        value = record if "key" in record else record["value"]
        words = [*window, record["timing"], record["index"], spelled(value)]
    return "\t".join(map(str, words))


def printed_texts():
    """Each text of panes that the program prints in the worked cases, as bytes. Made lines are none."""
    for name, first in (("commands.cases", "command"), ("dead.cases", "command"), ("texts.cases", "outcome")):
        text, has_panes = "", True
        for line in next(ROOT.glob(f"crates/*/data/{name}")).read_text("ascii").splitlines():
            if line.startswith(first):
                text, has_panes = "", not line.startswith("command make ")
            elif line.startswith("out "):
                text += line[len("out "):]
            elif line == "end" and has_panes and re.match(r"-?\d|#|log|dead\\t", text):
                yield re.sub(r'\\(x([0-9a-f]{2})|.)', lambda m: chr(int(m[2], 16)) if m[2] else {"n": "\n", "t": "\t"}.get(m[1], m[1]), text)
                text = ""


def text_faults():
    count = 0
    for text in printed_texts():
        out, status, notes = ran([*script("panes_to.py"), "json"], text)
        if not text.endswith("\n"):
            if (out, status) != ("", 1) or ":1: the text was cut" not in notes:
                yield f"panes_to.py reads a text that was cut: {text!r}, {out!r}"
            continue
        lines = [line for line in text.splitlines() if not line.startswith("# ")]
        count += len(lines)
        # a byte that is no UTF-8 is shown by a backslash of the text's own
        if any("\\xff" in line for line in lines):
            continue
        if status or [line_of(json.loads(record)) for record in out.splitlines()] != lines:
            yield f"panes_to.py reads a text of the worked cases otherwise: {text!r}, {out!r}, {notes!r}"
    if count < 200:
        yield f"only {count} lines in texts of the worked cases"


def memory_fault():
    """A text of 20 MB is read line by line."""
    line = b'0\t60000\tON_TIME\t0\t("a",["' + b"x" * 950 + b'"])\n'
    done = subprocess.run([*script("panes_to.py"), "csv"], input=line * 20000, stdout=subprocess.DEVNULL)
    most = resource.getrusage(resource.RUSAGE_CHILDREN).ru_maxrss
    if done.returncode or most > 60000:
        yield f"panes_to.py took {most} KB for a text of 20 MB"


def main():
    faults = [fault_of([*script(name), *words], *rest) for name, words, *rest in CASES]
    awks = [awk for awk in ("mawk", "gawk", "busybox") if shutil.which(awk)]
    for awk in awks:
        words = [awk, "awk"] if awk == "busybox" else [awk]
        for note in (":4: no line of an access log", ": 1 line left out\n"):
            faults.append(fault_of([*words, "-f", str(RECIPES / "access.awk")], ACCESS, TIMED, 1, note))
        for key, wanted in KEYS.items():
            timed = "".join(f"{at}\t{word}\t{size}\n" for word, (at, _, size) in zip(wanted, map(str.split, TIMED.splitlines())))
            faults.append(fault_of([*words, "-v", f"key={key}", "-f", str(RECIPES / "access.awk")], ACCESS, timed, 1, ": 1 line left out"))
        faults.append(fault_of([*words, "-v", "key=size", "-f", str(RECIPES / "access.awk")], ACCESS, "", 2, "key is path, status"))
        faults.extend(good_lines_fault(words))
    faults.extend(dead_faults())
    faults = [*filter(None, faults), *line_faults(), *text_faults(), *memory_fault()]
    for fault in faults:
        print(fault)
    count = len(CASES) + 4 * len(DEAD_CASES) + len(LINES) + len(awks) * (5 + len(KEYS) + 1 + 2 * (len(BAD) + len(NO_NUMBERS)))
    print(f"recipes: {count} cases, awk is {' and '.join(awks) or 'not here'}, {len(faults)} wrong")
    return 1 if faults else 0


if __name__ == "__main__":
    sys.exit(main())
