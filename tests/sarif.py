#!/usr/bin/env python3
"""Checks that a log of SARIF 2.1.0 has what the standard demands of the objects that surveyor-view writes: which properties they may and must
have, their types, and the words and numbers that are allowed. With --schema it is checked against that file too, the JSON schema of the standard
(sarif-schema-2.1.0.json, which GCC has among its tests), by the Python package jsonschema. Prints what is wrong, and ends with status 1 where something is.

    tests/sarif.py [--schema FILE] LOG"""

import argparse
import json
import sys

LEVELS = {"none", "note", "warning", "error"}


def text(value):
    return isinstance(value, str)


def number_from(least):
    return lambda value: isinstance(value, int) and not isinstance(value, bool) and value >= least


def one_of(words):
    return lambda value: text(value) and value in words


def reference(value):
    """A reference of RFC 3986: ASCII, without blanks and the marks that it leaves out, each percent sign before two hexadecimal digits."""
    if not text(value) or any(ord(c) <= 32 or ord(c) >= 127 or c in '<>"{}|\\^`' for c in value):
        return False
    return all(len(part) >= 2 and all(c in "0123456789abcdefABCDEF" for c in part[:2]) for part in value.split("%")[1:])


def texts_by_name(value):
    return isinstance(value, dict) and all(text(it) for it in value.values())


# object: its properties, each a test or the name of an object, or of a list of these as [name]; then those that it must have
OBJECTS = {
    "log": ({"$schema": reference, "version": one_of({"2.1.0"}), "runs": ["run"]}, {"version", "runs"}),
    "run": ({"tool": "tool", "invocations": ["invocation"], "artifacts": ["artifact"], "results": ["result"], "columnKind": one_of({"utf16CodeUnits", "unicodeCodePoints"})}, {"tool"}),
    "tool": ({"driver": "component"}, {"driver"}),
    "component": ({"name": text, "version": text, "rules": ["rule"]}, {"name"}),
    "rule": ({"id": text, "shortDescription": "words", "help": "words", "defaultConfiguration": "configuration"}, {"id"}),
    "configuration": ({"level": one_of(LEVELS)}, set()),
    "invocation": ({"executionSuccessful": lambda value: isinstance(value, bool)}, {"executionSuccessful"}),
    "artifact": ({"location": "place", "length": number_from(-1), "hashes": texts_by_name}, set()),
    "result": ({"ruleId": text, "level": one_of(LEVELS), "message": "words", "locations": ["location"], "partialFingerprints": texts_by_name, "suppressions": ["suppression"]}, {"message"}),
    "location": ({"physicalLocation": "physical", "logicalLocations": ["logical"]}, set()),
    "physical": ({"artifactLocation": "place", "region": "region"}, {"artifactLocation"}),
    "logical": ({"name": text, "kind": text}, set()),
    "place": ({"uri": reference}, set()),
    "region": ({"startLine": number_from(1), "startColumn": number_from(1), "snippet": "snippet"}, set()),
    "snippet": ({"text": text}, set()),
    "words": ({"text": text}, {"text"}),
    "suppression": ({"kind": one_of({"inSource", "external"}), "status": one_of({"accepted", "underReview", "rejected"}), "justification": text}, {"kind"}),
}
# lists in which no value may stand twice
DISTINCT = {"rules", "artifacts", "suppressions", "logicalLocations"}


def faults_of(value, kind, at="log"):
    """What is wrong with a value that is to be an object of this kind."""
    if not isinstance(value, dict):
        return [f"{at}: no object"]
    properties, wanted = OBJECTS[kind]
    found = [f"{at}: {name} is missing" for name in sorted(wanted - set(value))]
    for name, part in value.items():
        here = f"{at}.{name}"
        if name not in properties:
            found.append(f"{here}: no such property")
        elif isinstance(properties[name], str):
            found += faults_of(part, properties[name], here)
        elif not isinstance(properties[name], list):
            found += [] if properties[name](part) else [f"{here}: {part!r}"]
        elif not isinstance(part, list):
            found.append(f"{here}: no list")
        else:
            for number, item in enumerate(part):
                found += faults_of(item, properties[name][0], f"{here}[{number}]")
            if name in DISTINCT and len({json.dumps(item, sort_keys=True) for item in part}) < len(part):
                found.append(f"{here}: a value stands twice")
    return found


def log_faults(log):
    """What is wrong with a log: the objects, and that each result names a rule of its run."""
    found = faults_of(log, "log")
    if found:
        return found
    for number, run in enumerate(log["runs"]):
        rules = {rule["id"] for rule in run["tool"]["driver"].get("rules", [])}
        results = run.get("results", [])
        found += [f"run {number}: no rule {it.get('ruleId')}" for it in results if it.get("ruleId") not in rules]
        if len({"suppressions" in it for it in results}) > 1:
            found.append(f"run {number}: some results have suppressions, some not")
    return found


def schema_faults(log, path):
    """What is wrong with a log by the schema in this file."""
    import jsonschema

    with open(path, encoding="utf-8") as it:
        schema = json.load(it)
    return [f"{'.'.join(map(str, it.absolute_path))}: {it.message}" for it in jsonschema.Draft4Validator(schema).iter_errors(log)]


def main():
    parser = argparse.ArgumentParser(description=__doc__, formatter_class=argparse.RawDescriptionHelpFormatter)
    parser.add_argument("--schema", metavar="FILE")
    parser.add_argument("log", metavar="LOG")
    words = parser.parse_args()
    with open(words.log, encoding="utf-8") as it:
        log = json.load(it)
    found = log_faults(log) + (schema_faults(log, words.schema) if words.schema else [])
    print("\n".join(found) or "nothing is wrong")
    sys.exit(1 if found else 0)


if __name__ == "__main__":
    main()
