#!/usr/bin/env python3
"""Checks docs/plan.schema.json against the documents of the worked cases.

What the reader takes the schema has to take too, and so what is read and breaks a rule of pipelines alone. What
the reader refuses for a key, a word or a number the schema has to refuse, but for what only the reader can see
(`only_the_reader_sees`). Each word and each limit of the schema is shown by a document: without the word, or with a
limit one less wide, the schema would refuse what the reader takes; with a limit one wider it would take what the
reader refuses. Each kind and each work has exactly one `if`. What the schema says of a mistake names it (`MESSAGES`). The plans of the examples are checked as well, and the nodes that docs/using/PLAN.md shows, which
have to be one of the cases, as one plan. Without the package jsonschema nothing is checked, and it says so.
"""
import copy
import glob
import json
import pathlib
import re
import sys

try:
    import jsonschema
except ImportError:
    print("plan_schema: skipped, since python3 has no jsonschema here")
    sys.exit(0)

ROOT = pathlib.Path(__file__).resolve().parent.parent
ESCAPES = {"n": "\n", "r": "\r", "t": "\t", '"': '"', "\\": "\\"}
# What a limit becomes that is one less wide.
NARROWER = {"minimum": 1, "maximum": -1, "minLength": 1, "maxLength": -1, "maxProperties": -1}
# Mistakes in the nodes of a plan that is good without them, and what the schema says of each.
MESSAGES = [
    ({"kind": "parDo"}, 1, "'parDo' is not one of ['source', 'pardo'"),
    ({"kind": None}, 1, "'kind' is a required property"),
    ({"work": "keyField"}, 1, "'keyField' is not one of ['KeyField'"),
    ({"work": None}, 1, "'work' is a required property"),
    ({"number": 3}, 1, "'number' was unexpected"),
    ({"file": ["f"]}, 0, "'file' was unexpected"),
    ({"files": None}, 0, "'files' is a required property"),
    ({"files": "f"}, 0, "'f' is not of type 'array'"),
    ({"estimator": "late"}, 0, "'late' is not one of ['none', 'monotonic', 'declared']"),
    ({"estimator": {"lag": -5}}, 0, "-5 is less than the minimum of 0"),
    ({"estimator": {"lags": 5}}, 0, "'lags' was unexpected"),
    ({"windows": {"fixed": -5}}, 2, "-5 is less than the minimum of 1"),
    ({"windows": {"fixd": 5}}, 2, "'fixd' was unexpected"),
    ({"windows": {"sliding": [60000, 0]}}, 2, "0 is less than the minimum of 1"),
    ({"windows": "daily"}, 2, "'daily' is not one of ['global']"),
    ({"lateness_ms": 5}, 3, "'lateness_ms' was unexpected"),
    ({"lateness": "5"}, 3, "'5' is not of type 'integer'"),
    ({"mode": "accumulate"}, 3, "'accumulate' is not one of ['discarding', 'accumulating']"),
    ({"input": "win"}, 3, "'win' is not of type 'array'"),
    ({"labl": "x"}, 4, "'labl' was unexpected"),
]
# The same of version 3, and there of these mistakes as well.
LATER_MESSAGES = [
    ({"early_when": {"count": 0}}, 3, "0 is less than the minimum of 1"),
    ({"early_when": {"mark": 5}}, 3, "5 is greater than the maximum of -1"),
    ({"late_when": {"mark": -5}}, 3, "-5 is less than the minimum of 0"),
    ({"early_when": {"each": []}}, 3, "'each' was unexpected"),
    ({"early_when": {"first": [{"count": 3, "mark": -5}]}}, 3, "{'count': 3, 'mark': -5} has too many properties"),
    ({"early": 2, "early_when": {"count": 2}}, 3, "should not be valid under {'required': ['early']}"),
    ({"kind": "side", "lateness": None, "mode": "lookup"}, 3, "'view' is a required property"),
    ({"kind": "side", "lateness": None, "view": "key", "mode": "each"}, 3, "'each' is not one of ['list', 'single', 'lookup']"),
]


def document_bytes(text):
    """The document that a case writes: repetitions, and then escapes."""
    text = re.sub(r"\{(\d+)\*([^{}]*)\}", lambda m: m.group(2) * int(m.group(1)), text)
    byte = lambda m: chr(int(m.group(2), 16)) if m.group(2) else ESCAPES[m.group(1)]
    return re.sub(r"\\(x([0-9a-f]{2})|.)", byte, text).encode("latin-1")


def documents():
    """Each document of the cases that Python reads as JSON, and the reader's answer."""
    for line in (ROOT / "crates/plan_cases/data/documents.cases").read_text("ascii").splitlines():
        if line.startswith("document "):
            text, answer = line[len("document "):].rsplit(" => ", 1)
            try:
                yield json.loads(document_bytes(text)), answer
            except (ValueError, RecursionError):
                if not re.match("1 syntax|7 length", answer):
                    raise


def shown_plan():
    """The nodes of docs/using/PLAN.md, each on a line of its own, as one plan."""
    lines = (ROOT / "docs/using/PLAN.md").read_text().splitlines()
    return {"beam": 3, "nodes": [json.loads(line) for line in lines if line.startswith('    {"name"')]}


def is_taken(answer):
    """The reader takes it, or reads it and refuses the pipeline."""
    return re.fullmatch(r"\d+ nodes|5 graph .*", answer) is not None


def has_whole_float(value):
    """To a schema 1.0 is a whole number."""
    if isinstance(value, dict):
        value = list(value.values())
    if isinstance(value, list):
        return any(map(has_whole_float, value))
    return isinstance(value, float) and value.is_integer()


def depth_and_leaves(tree):
    """How many levels a tree of a trigger has, and how many counts and marks."""
    [value] = tree.values()
    if not isinstance(value, list):
        return 1, 1
    parts = [depth_and_leaves(part) for part in value]
    return 1 + max([depth for depth, _ in parts], default=0), sum(leaves for _, leaves in parts)


def only_the_reader_sees(plan, answer):
    """Whether a schema can't know why the reader refuses this plan: of a node it knows no other node, of a text
    only how many letters it has, of two numbers not how one divides by the other, and not how large a tree is."""
    if answer == "6 version":
        return has_whole_float(plan["beam"])
    told = re.fullmatch(r"(\d) (name|number) node (\d+) (\w+)", answer)
    if not told:
        return False
    rule, number, key = told[1], int(told[3]), told[4]
    value = plan["nodes"][number][key]
    names = [node["name"] for node in plan["nodes"]]
    if rule == "4" and has_whole_float(value):
        return True
    if key == "windows":
        size, period = value.get("sliding", (0, 1))
        return 1 <= period <= size and -(-size // period) > 1024
    if key in ("early_when", "late_when"):
        depth, leaves = depth_and_leaves(value)
        return depth > 8 or leaves > 32
    if key == "input":
        return not set(value) <= set(names)
    # The view is no node, or has sessions.
    if key == "view":
        return value not in names or any("sessions" in node.get("windows", ()) for node in plan["nodes"])
    if key == "name" and value in names[:number]:
        return True
    most = {"name": 64, "label": 64, "text": 4096}.get(key)
    return most is not None and len(value) <= most < len(value.encode())


def places(schema, path=()):
    """Each word and each limit of the schema but those inside an `if`: the path to it."""
    if isinstance(schema, dict):
        for key, value in schema.items():
            if key == "if":
                continue
            if key in NARROWER:
                yield path + (key,)
            elif key == "enum":
                yield from (path + (key, at) for at in range(len(value)))
            else:
                yield from places(value, path + (key,))
    elif isinstance(schema, list):
        for at, value in enumerate(schema):
            yield from places(value, path + (at,))


def words_of(condition, key):
    """The words of this key for which an `if` of the schema is met."""
    said = condition["properties"].get(key, {})
    return said.get("enum", [said["const"]] if "const" in said else [])


def unlike_conditions(schema):
    """Each key of the schema with words, and conditions beside it that aren't met by each word exactly once."""
    if isinstance(schema, dict):
        met = [part["if"] for part in schema.get("allOf", [])]
        for key, value in schema.get("properties", {}).items() if met else []:
            if isinstance(value, dict) and "enum" in value and sorted(value["enum"]) != sorted(word for part in met for word in words_of(part, key)):
                yield key, value["enum"]
        schema = list(schema.values())
    if isinstance(schema, list):
        for part in schema:
            yield from unlike_conditions(part)


def changed(schema, path, step):
    """The schema without this word, or with this limit moved by so much."""
    schema = copy.deepcopy(schema)
    at = schema
    for key in path[:-1]:
        at = at[key]
    if path[-1] not in NARROWER:
        at[path[-1]] = "no word of a plan"
    else:
        at[path[-1]] += step
    return jsonschema.Draft202012Validator(schema).is_valid


def each_node(plans):
    """Plans of one node, of each node and version of these plans once."""
    alone = [{"beam": plan.get("beam", 1), "nodes": [node]} for plan in plans if isinstance(plan, dict) for node in plan.get("nodes", [])]
    return list({json.dumps(plan): plan for plan in alone}.values())


def not_shown(schema, taken, refused):
    """The words and limits of the schema that none of the plans shows."""
    for path in places(schema):
        narrower = NARROWER.get(path[-1], 0)
        is_valid = changed(schema, path, narrower)
        if all(is_valid(plan) for plan in taken):
            yield path, "the reader takes no document with"
        is_valid = changed(schema, path, -narrower)
        if narrower and not any(is_valid(plan) for plan in refused):
            yield path, "the reader refuses no document just past"


def other_messages(schema):
    """The mistakes of which the schema says something else or much more, and what it says."""
    good = json.loads((ROOT / "examples/late/plan.json").read_text())
    validator = jsonschema.Draft202012Validator(schema)
    tried = [(1, *said) for said in MESSAGES] + [(3, *said) for said in MESSAGES + LATER_MESSAGES]
    for version, mistake, number, wanted in tried:
        plan = {**copy.deepcopy(good), "beam": version}
        node = plan["nodes"][number]
        node.update(mistake)
        for key in [key for key in node if node[key] is None]:
            del node[key]
        messages = [error.message for error in validator.iter_errors(plan)]
        if len(messages) > 2 or not any(wanted in message for message in messages):
            yield mistake, wanted, messages


def main():
    schema = json.loads((ROOT / "docs/plan.schema.json").read_text())
    is_valid = jsonschema.Draft202012Validator(schema).is_valid
    wrong, taken, refused = [], [], []
    for plan, answer in documents():
        (taken if is_taken(answer) else refused).append(plan)
        if is_taken(answer) and not is_valid(plan):
            wrong.append(f"the schema refuses what the reader takes: {json.dumps(plan)[:200]}")
        if not is_taken(answer) and is_valid(plan) and not only_the_reader_sees(plan, answer):
            wrong.append(f"the schema takes what the reader refuses as {answer}: {json.dumps(plan)[:200]}")
    if shown_plan() not in taken:
        wrong.append("the nodes that docs/using/PLAN.md shows aren't a plan of documents.cases")
    for name in sorted(glob.glob(str(ROOT / "examples/*/*.json"))):
        taken.append(json.loads(pathlib.Path(name).read_text()))
        if not is_valid(taken[-1]):
            wrong.append(f"the schema refuses {name}")
    bad_nodes = [plan for plan in each_node(refused) if not is_valid(plan)]
    for path, what in not_shown(schema, each_node(taken), bad_nodes):
        wrong.append(f"{what} this word or limit of the schema: {'/'.join(map(str, path))}")
    for key, words in unlike_conditions(schema):
        wrong.append(f"not each {key} of {words} has one condition")
    for mistake, wanted, messages in other_messages(schema):
        wrong.append(f"the schema says of {json.dumps(mistake)} not {wanted!r}, but {messages}")
    for line in wrong:
        print(line)
    print(f"plan_schema: {len(taken)} taken, {len(refused)} refused by the reader, {len(wrong)} wrong")
    return 1 if wrong else 0


if __name__ == "__main__":
    sys.exit(main())
