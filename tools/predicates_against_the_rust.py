#!/usr/bin/env python3
"""Holds the predicate table of trial_tables.py to the Rust's own answers.

    tools/predicates_against_the_rust.py DESK

DESK is a program that reads desk commands and answers them by the a-tree. Each predicate is inserted with its negation beside it: a value on
which neither is reported is undefined.
"""
import subprocess
import sys

from trial_tables import ALLOWED, ATTRIBUTES, LITERALS, VALUES, cell

NEGATED = {10: 11, 20: 21, 30: 32, 31: 33, 40: 41, 50: 51, 52: 53, 60: 61, 62: 63}
NEGATED.update({b: a for a, b in NEGATED.items()})


def sheet(kind, tag, attribute):
    literal = LITERALS[tag]
    x, y, bodies = (0, 0, []) if literal is None else (0, len(literal), literal) if tag > 3 else (*literal, [])
    return " ".join(map(str, [1, kind, attribute, tag, x, y, *bodies]))


def given(attribute, value):
    if isinstance(value, bool):
        return str(value).lower()
    if isinstance(value, list):
        return " ".join(map(str, value))
    return f"{value[0]} {value[1]}" if attribute == "float" else str(value[0])


def script(kind, tag, number):
    """One book: the predicate, its negation, and a search for each value."""
    attribute = ATTRIBUTES[number]
    lines = ["open " + " ".join(f"a{i}:{name}" for i, name in enumerate(ATTRIBUTES))]
    lines += [f"insert 1 {sheet(kind, tag, number)}", f"insert 2 {sheet(NEGATED[kind], tag, number)}", "search"]
    for value in VALUES[attribute]:
        lines += [f"set a{number} {attribute} {given(attribute, value)}".rstrip(), "search"]
    return lines


def answers(lines):
    """The cell that the program's answers make."""
    inserted = lines[1].split()[1]
    if inserted != "0":
        return inserted
    reports = [line.split()[3:] for line in lines if line.startswith("search 0")]
    return "".join("T" if "1" in report else "F" if "2" in report else "U" for report in reports)


def main():
    cases = [(kind, tag, number) for kind in ALLOWED for tag in range(6) for number in range(6)]
    scripts = [script(*case) for case in cases]
    text = "".join(line + "\n" for lines in scripts for line in lines)
    out = subprocess.run([*sys.argv[1:]], input=text, capture_output=True, text=True).stdout.splitlines()
    differ, at = 0, 0
    for (kind, tag, number), lines in zip(cases, scripts):
        got, expected = answers(out[at:at + len(lines)]), cell(kind, tag, ATTRIBUTES[number])
        at += len(lines)
        if got != expected:
            differ += 1
            print(f"kind {kind} tag {tag} attribute {ATTRIBUTES[number]}: expected {expected}, got {got}")
    print(f"{len(cases)} cells, {differ} differ")


main()
