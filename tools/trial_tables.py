#!/usr/bin/env python3
"""The expected output of crates/trials, worked out with whole numbers of any size from the scope's rules, apart from the proved code.

    tools/trial_tables.py > crates/trials/stdout
"""

LEAST, MOST = -2**63, 2**63 - 1

NUMBERS = [LEAST, LEAST + 1, -10, -1, 0, 1, 10, 85, 8500, 9223372036854775800, MOST]
SCALES = [0, 2, 18, 19, 27, 28]
DECIMALS = [(number, scale) for scale in SCALES for number in NUMBERS]

GIVEN = [7, 7, -3, MOST, 0, 65535, 12, LEAST, 5, 5, 5] + list(range(31, 12, -1)) + [-1, 7]
ASCENDING = [LEAST, -100, -3, -2, -1] + list(range(26)) + [MOST]
OTHERS = list(range(-99, -93)) + list(range(26, 52))


def units(decimal):
    """x over 10 to the y, as a whole number of 10 to the -28."""
    return decimal[0] * 10 ** (28 - decimal[1])


def normal(decimal):
    """No trailing zero while the scale is above 0."""
    number, scale = decimal
    while scale > 0 and number % 10 == 0:
        number, scale = number // 10, scale - 1
    return number, scale


def order(left, right):
    return "<" if left < right else ">" if left > right else "="


def yes(truth):
    return " yes" if truth else " no"


def ascends(numbers):
    return all(a < b for a, b in zip(numbers, numbers[1:]))


def kept(given):
    elements = sorted(set(given))
    row = elements + [0] * (32 - len(elements))
    return f"kept {len(elements)} of:" + "".join(f" {x}" for x in row)


def as_sets(left, right):
    head = f"{len(left)} and {len(right)}"
    if not (ascends(left) and ascends(right)):
        return head + " do not ascend"
    return head + yes(set(left) & set(right)) + yes(set(left) <= set(right))


# ---- predicates: what the scope's tables say of each kind, tag and kind of attribute

ALLOWED = {10: [0], 11: [0], 20: [4, 5], 21: [4, 5], 30: [1, 2], 31: [1, 2], 32: [1, 2], 33: [1, 2], 40: [1, 2, 3], 41: [1, 2, 3],
           50: [4, 5], 51: [4, 5], 52: [4, 5], 53: [4, 5], 60: [0], 61: [0], 62: [0], 63: [0]}

BOOLEAN, INTEGER, FLOAT, STRING, INTEGERS, STRINGS = ATTRIBUTES = ["boolean", "integer", "float", "string", "integers", "strings"]

# set: string and integer, list of the same; comparison: integer, float; equality: integer, float, string; list kinds: the two lists;
# variable: boolean; null: the four scalar kinds; empty: the two list kinds
SUITS = {1: [(0, BOOLEAN)], 2: [(4, INTEGER), (5, STRING)], 3: [(1, INTEGER), (2, FLOAT)], 4: [(1, INTEGER), (2, FLOAT), (3, STRING)],
         5: [(4, INTEGERS), (5, STRINGS)]}

LITERALS = {0: None, 1: (5, 0), 2: (85, 1), 3: (7, 0), 4: [2, 5], 5: [2, 5]}

VALUES = {BOOLEAN: [False, True, False, True], INTEGER: [(4, 0), (5, 0), (6, 0), (7, 0)],
          FLOAT: [(8450, 3), (8500, 3), (8550, 3), (8600, 3)], STRING: [(5, 0), (6, 0), (7, 0), (8, 0)],
          INTEGERS: [[], [2, 5], [5, 9], [3]], STRINGS: [[], [2, 5], [5, 9], [3]]}


def suits(kind, tag, attribute):
    if kind in (60, 61):
        return attribute in (BOOLEAN, INTEGER, FLOAT, STRING)
    if kind in (62, 63):
        return attribute in (INTEGERS, STRINGS)
    return (tag, attribute) in SUITS[kind // 10]


def says(kind, literal, value):
    """What a predicate says of a defined value, which stands on the left."""
    if kind in (10, 11):
        return value == (kind == 10)
    if kind in (20, 21):
        return (value[0] in literal) == (kind == 20)
    if kind < 50:
        left, right = units(value), units(literal)
        return {30: left < right, 31: left <= right, 32: left >= right, 33: left > right, 40: left == right, 41: left != right}[kind]
    if kind in (50, 51):
        return bool(set(value) & set(literal)) == (kind == 50)
    if kind in (52, 53):
        return (set(value) <= set(literal)) == (kind == 52)
    return {60: False, 61: True, 62: value == [], 63: value != []}[kind]


def cell(kind, tag, attribute):
    """1 where the sheet cannot say it, 6 where it does not suit, and otherwise the answers on undefined and on the four values."""
    if tag not in ALLOWED[kind]:
        return "1"
    if not suits(kind, tag, attribute):
        return "6"
    undefined = {60: "T", 61: "F"}.get(kind, "U")
    return undefined + "".join("T" if says(kind, LITERALS[tag], value) else "F" for value in VALUES[attribute])


def predicate_rows():
    for kind in ALLOWED:
        for tag in range(6):
            yield f"{kind} {tag} " + " ".join(cell(kind, tag, attribute) for attribute in ATTRIBUTES)


def main():
    for decimal in DECIMALS:
        short = normal(decimal)
        row = "".join(order(units(decimal), units(other)) for other in DECIMALS)
        print(f"{decimal[0]} {decimal[1]} is {short[0]} {short[1]} {row}")
    for given in ([], GIVEN[:1], GIVEN[:31], GIVEN, ASCENDING):
        print(kept(given))
    for x in ([], ASCENDING[:1], ASCENDING[1:], ASCENDING, [5, 26]):
        for left, right in [(x, []), ([], x), (x, x), (x, ASCENDING), (ASCENDING, x), (x, OTHERS), (OTHERS, x), (x, GIVEN)]:
            print(as_sets(left, right))
    whole, most = ASCENDING, ASCENDING[:31]
    for numbers, x in [([], 0), (whole, LEAST), (whole, -101), (whole, -99), (whole, 25), (whole, 26), (whole, MOST), (most, MOST)]:
        print(str(x) + yes(x in numbers))
    for row in predicate_rows():
        print(row)


if __name__ == "__main__":
    main()
