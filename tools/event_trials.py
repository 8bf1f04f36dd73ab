#!/usr/bin/env python3
"""The expected output of crates/trial_events, worked out from the scope's rules on events, apart from the proved code.

    tools/event_trials.py > crates/trial_events/stdout
"""

LEAST, MOST, MOST_AGE = -2**63, 2**63 - 1, 2**64 - 1
NAMES = ["humidity", "rain", "wind", "site", "flags", "sky"]
KINDS = ["float", "boolean", "integer", "string", "integers", "words"]
LONG = list(range(32, -1, -1))
UNDEFINED = ("undefined",)


def past_limit(reading):
    """A scale outside 0 to 28, a word outside 0 to 65,535, or a list of more than 32 elements as it is given."""
    kind, *rest = reading
    if kind == "float":
        return not 0 <= rest[1] <= 28
    if kind == "string":
        return not 0 <= rest[0] <= 65535
    if kind in ("integers", "words"):
        return len(rest[0]) > 32 or (kind == "words" and any(not 0 <= x <= 65535 for x in rest[0]))
    return False


def refusal(name, reading):
    """The number of the first check that refuses, or 0; the event suits."""
    if name not in NAMES:
        return 4
    if reading[0] not in ("undefined", KINDS[NAMES.index(name)]):
        return 5
    return 2 if past_limit(reading) else 0


def kept(reading):
    """A list is sorted and made distinct."""
    return (reading[0], sorted(set(reading[1]))) if reading[0] in ("integers", "words") else reading


def shown(value):
    kind, *rest = value
    if kind == "boolean":
        return " yes" if rest[0] else " no"
    if kind in ("integers", "words"):
        return f" {kind}" + "".join(f" {x}" for x in rest[0])
    word = "word" if kind == "string" else kind
    return f" {word}" + "".join(f" {x}" for x in rest)


def line(event):
    return "".join(shown(value) + ";" for value in event)


def fill(event, name, reading, age=None):
    """Answers and changes the event in place; an age is stamp, now and greatest age."""
    answer = refusal(name, reading)
    if answer == 0:
        fresh = age is None or (age[0] <= age[1] and age[1] - age[0] <= age[2])
        event[NAMES.index(name)] = kept(reading) if fresh else UNDEFINED
        answer = 0 if fresh else 40
    print(f"{name} {answer}:{line(event)}")


def filled(event):
    for name in NAMES:
        for reading in (UNDEFINED, ("boolean", True), ("integer", LEAST), ("float", MOST, 28), ("string", 65535),
                        ("integers", [9, 3, 9, 0, 3]), ("words", [9, 3, 9, 0, 3])):
            fill(event, name, reading)
    for name, number, scale in (("humidity", 85, 0), ("humidity", -1, 28), ("humidity", 1, 29), ("humidity", 1, -1), ("rain", 1, 29)):
        fill(event, name, ("float", number, scale))
    for word in (0, 65536, -1):
        fill(event, "site", ("string", word))
    for words in ([65535, 0], [65536, 0], [1, -1]):
        fill(event, "sky", ("words", words))
    for integers in ([], LONG[:32], LONG):
        fill(event, "flags", ("integers", integers))
    for words in (LONG[1:], [7] * 33):
        fill(event, "sky", ("words", words))
    fill(event, "wind", ("integer", 4))
    for name, reading in (("", ("integer", 1)), ("wind" * 8 + "w", ("integer", 1)), ("win", ("float", 1, 29)), ("wind ", UNDEFINED)):
        fill(event, name, reading)


def dated(event):
    near = [(100, 100, 0), (100, 130, 30), (100, 131, 30), (100, 130, 31), (100, 99, 30)]
    far = [(0, MOST_AGE, MOST_AGE), (0, MOST_AGE, MOST_AGE - 1), (MOST_AGE, MOST_AGE, 0), (MOST_AGE, 0, MOST_AGE)]
    for number, age in enumerate(near + far, 1):
        fill(event, "wind", ("integer", number), age)
    for name in ("wand", "rain"):
        fill(event, name, ("integer", 1), (100, 131, 30))


def damaged():
    """Whether each event suits, in the order of the program: 12 comes before every other refusal."""
    sound = [True]
    counts = [False, False, False]
    # scales, booleans, words
    scalars = [True, False] + [True, False, False] + [True, False, False]
    # what a kind does not use is not judged, nor places past the last attribute
    kinds = [False, True, False, True, True]
    # the length of an undefined value is not judged
    lengths = [True, True, False, False, True]
    # elements past the length are not judged
    elements = [True, False, False, False, True, False, True]
    for suit in sound + counts + scalars + kinds + lengths + elements:
        print(" yes 0 4" if suit else " no 12 12")


def main():
    print("0" * 6)
    event = [UNDEFINED] * 6
    print(line(event))
    filled(event)
    dated(event)
    damaged()


main()
