#!/usr/bin/env python3
"""Counts, in crates/*/src, the places of each form that docs/DESIGN-PASS.md speaks of.

    tools/count_forms.py [POINT] [-v]     -v prints the places
"""
import collections
import pathlib
import re
import sys

TOP = pathlib.Path(__file__).resolve().parent.parent
SOURCES = sorted(TOP.glob("crates/*/src/**/*.rt"))


def lines():
    for path in SOURCES:
        for number, line in enumerate(path.read_text().splitlines(), 1):
            code = line.split("//")[0].rstrip()
            if code.strip() and not code.startswith("ghost use"):
                yield f"{path.relative_to(TOP)}:{number}", code


def grep(pattern):
    return [(place, code.strip()) for place, code in lines() if re.search(pattern, code)]


def functions():
    """Each function with a body: its place, its name and its body, as text."""
    for path in SOURCES:
        text = [line.split("//")[0].rstrip() for line in path.read_text().splitlines()]
        for first, line in enumerate(text):
            head = re.match(r"( *)(?:pub(?:\(crate\))? )?fn (\w+)", line)
            if not head:
                continue
            indent = head.group(1)
            for number in range(first, len(text)):
                if text[number] == indent + "{" or (text[number].startswith(indent) and text[number].endswith("{") and number >= first):
                    last = text.index(indent + "}", number)
                    yield f"{path.relative_to(TOP)}:{first + 1}", head.group(2), "\n".join(text[number + 1:last])
                    break
                if text[number].endswith(";"):
                    break


def shape(body):
    """A body with its numbers, strings and names of types and constants left out."""
    body = re.sub(r'"[^"]*"', '""', body)
    body = re.sub(r"\b[A-Z]\w*(::[A-Z]\w*)*", "T", body)
    body = re.sub(r"\b\d[\d_]*\b", "0", body)
    return re.sub(r"\s+", " ", body).strip(" }")


def bones(body):
    """A body with every name left out but the language's own."""
    return re.sub(r"\b(?!let|mut|for|in|if|else|match|return|self|Ok|Err|Some|None)[a-z_]\w*\b", "x", shape(body))


def only_passed_on():
    """Functions whose whole body is `call?; Ok(())`."""
    return [(place, name) for place, name, body in functions() if re.fullmatch(r"\s*[^;]*\?;\s*Ok\(\(\)\)\s*\}?", body)]


def twins(form, least):
    by_shape = collections.defaultdict(list)
    for place, name, body in functions():
        if len(form(body)) > least:
            by_shape[form(body)].append((place, name))
    return [(same[0][0], ", ".join(f"{n} ({p})" for p, n in same)) for same in by_shape.values() if len(same) > 1]


def facts():
    """Facts that stand in a requires or a ghost field, by how often."""
    found = collections.defaultdict(list)
    for place, code in lines():
        clause = re.match(r"\s*(?:requires(?: \w+)?|ghost \w+:) \{ (.*) \}", code)
        if clause:
            for fact in re.split(r" × ", clause.group(1).replace("(", " ").replace(")", " ")):
                fact = re.sub(r"\b(self|x|y|a|b|t|result|rows|columns|count|row|column|slot|i|j|m|n|number|value|cell|cells|reach|width|list)\b(\.\w+)*", "_", fact)
                found[re.sub(r"\s+", " ", fact).strip()].append(place)
    return [(places[0], f"{len(places)}: {fact} [{', '.join(places)}]") for fact, places in found.items() if len(places) > 2]


POINTS = {
    "1 enums": lambda: grep(r"\benum \w+"),
    "1 a flag beside a value": lambda: grep(r"\(\w+, bool\)|^\s*(pub )?\w+: bool,|let mut \w+ = (false|true);"),
    "1 numbers for kinds or refusals": lambda: grep(r"\b(number|code|kind|n): u8\b|-> u8\b"),
    "2 functions of one shape": lambda: twins(shape, 12),
    "2 functions of one shape, whatever they name": lambda: twins(bones, 40),
    "3 loops over an index": lambda: grep(r"\bfor \w+ in .*\.\.|\bwhile\b|\bloop\b"),
    "4 a result taken apart and put together": lambda: grep(r"^\s*Ok\((\(\)|\w+)\) => Ok\(\1\),") + only_passed_on(),
    "4 conversion or equality by a function": lambda: grep(r"fn (numbered|number|is_nought|read_name|extremes|lesser|greater|plus|name)\b|Interval::from\("),
    "4 printing by hand": lambda: grep(r"fn (\w+_text|refuse)\b"),
    "5 a fact in three clauses or more": facts,
    "5 row and column side by side": lambda: grep(r"\brow: usize, column: usize|^\s*row: usize,$"),
    "6 arrays": lambda: grep(r": \[[^\]]*; \w+\]"),
    "7 tables of functions": lambda: grep(r"\bdyn\b|: fn\(|\[fn\("),
}

for name, find in POINTS.items():
    if len(sys.argv) > 1 and sys.argv[1] != "-v" and not name.startswith(sys.argv[1]):
        continue
    places = find()
    print(f"{name}: {len(places)}")
    if "-v" in sys.argv:
        for place, code in places:
            print(f"    {place}: {code}")
