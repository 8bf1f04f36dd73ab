#!/usr/bin/env python3
"""Brings this repository's own definitions and lemmas to snake case: `ascends-first` and `nameLimit` become `ascends_first` and `name_limit`.

usage: python3 tools/respell.py          at the top of the repository, once, after the kit's own respelling

It goes by the names that specs/ and proofs/ declare. Types and modules keep their camel case; names of the library keep theirs; functions, fields
and parameters of src/ are left as they are. A name that a file brings in from the library is not touched in that file,
and of a comment only what stands in backticks is turned.
"""

import collections
import glob
import re
import sys

TOKEN = re.compile(r"(?<![\w'◌-])[A-Za-z][\w']*(?:-[\w']+)*(?![\w'◌-])")
WORD = r"[A-Za-z][\w']*(?:-[\w']+)*"
DECLARED = re.compile(r"^\s*(?:(?:abbrev|unfoldable|pub)\s+)*(" + WORD + r")\s*:(?:\s|$)")
CONSTRUCTOR = re.compile(r"^\s*(" + WORD + r")\s+:\s")
USE = re.compile(r"^\s*(?:pub\s+|ghost\s+)*use\s+([^;]*)")
# words that the library respelled, and that stand in names of the repository's own
WITHIN = [("getD", "get_or"), ("get_d", "get_or"), ("ltZ", "lt_z"), ("flatMap", "flat_map"), ("ofList", "of_list")]


def snake(name):
    ending = "_lem" if name in LEMMAS else ""
    for old, new in WITHIN:
        name = name.replace(old, new)
    name = name.replace("-", "_")
    name = re.sub(r"(?<=[a-z0-9])([A-Z])", lambda m: "_" + m.group(1), name)
    return name.lower() + ending


def is_word(name):
    """A name of the lower kind that isn't in snake case yet."""
    return bool(name[0].islower() and re.search(r"-|[a-z0-9][A-Z]|(^|_)get_d(_|$)", name) or re.match(r"[A-Z]\d+-", name))


def declared(path):
    found = set()
    with open(path, encoding="utf-8") as f:
        for line in f:
            text = line.split(" -- ")[0]
            if text.lstrip().startswith(("--", "use ", "pub use ")):
                continue
            m = DECLARED.match(text)
            if m:
                found.add(m.group(1))
    return found


def imports(text):
    """For each name that the file brings in by a `use` line, whether it is the repository's own."""
    own = {}
    for line in text.split("\n"):
        m = USE.match(line)
        if not m:
            continue
        path = m.group(1)
        ours = re.match(r"Rattle\.(\w+)\.", path)
        ours = bool(ours) and ours.group(1) in CRATES
        body = re.search(r"\{(.*)\}", path)
        for item in (body.group(1).split(",") if body else []):
            for name in item.split(" as "):
                own[name.strip()] = ours
    return own


def respell(text, names, rust, own):
    out = []
    for line in text.split("\n"):
        mark = "//" if rust else "--"
        at = line.find(mark)
        code, note = (line, "") if at < 0 else (line[:at], line[at:])

        def turn(m):
            t = m.group(0)
            before = m.string[m.start() - 1 : m.start()]
            if t in names and (is_word(t) or not rust and before != ".") and own.get(t, is_word(t)):
                return snake(t)
            return t

        if rust and '"' in code:
            code = "".join(p if i % 2 else TOKEN.sub(turn, p) for i, p in enumerate(re.split(r'("(?:[^"\\]|\\.)*")', code)))
        else:
            code = TOKEN.sub(turn, code)
        note = "`".join(TOKEN.sub(turn, p) if i % 2 else p for i, p in enumerate(note.split("`")))
        out.append(code + note)
    return "\n".join(out)


def tell_clashes(path, text, names, own):
    """Names of the file that were two and would be one."""
    code = "\n".join(line.split("--")[0] for line in text.split("\n"))
    here = set(TOKEN.findall(code))
    for n in sorted(here):
        if n in names and own.get(n, True) and snake(n) in here:
            print(f"{path}: {n} and {snake(n)} would be one")


def main():
    specs = sorted(glob.glob("crates/*/specs/**/*.antt", recursive=True))
    lemmas = sorted(glob.glob("crates/*/proofs/*.antt"))
    walks = sorted(set(glob.glob("crates/*/proofs/**/*.antt", recursive=True)) - set(lemmas))
    names = {n for p in specs + lemmas for n in declared(p) if is_word(n)}
    # a lemma that would have its function's name gets the ending `_lem`; the kit's own respelling may have turned the one or the other already
    met = collections.defaultdict(set)
    for p in specs + lemmas:
        for n in declared(p):
            if n[0].islower():
                met[snake(n)].add(n)
    for new, olds in sorted(met.items()):
        if len(olds) > 1:
            dashed = {n for n in olds if "-" in n}
            LEMMAS.update(dashed or {new})
            names |= dashed or {new}
    for path in specs + lemmas + walks:
        with open(path, encoding="utf-8") as f:
            text = f.read()
        local = {n for n in declared(path) if is_word(n)} if path in walks else set()
        # in a proof of one function, the names of goals are not the repository's own
        goals = set(re.findall(r"^(?:abbrev\s+|pub\s+)*(" + WORD + r")\s*:\s*tie\.", text, re.M)) if path in walks else set()
        own = imports(text)
        for n in declared(path) if path not in walks else ():
            own.setdefault(n, True)
        for g in goals:
            own[g] = False
        new = respell(text, names | (local - goals), False, own)
        tell_clashes(path, text, names | (local - goals), own)
        if new != text:
            with open(path, "w", encoding="utf-8") as f:
                f.write(new)
    for path in sorted(glob.glob("crates/*/src/**/*.rt", recursive=True)):
        with open(path, encoding="utf-8") as f:
            text = f.read()
        new = respell(text, names, True, imports(text))
        if new != text:
            with open(path, "w", encoding="utf-8") as f:
                f.write(new)
    # an edit's lines 'old:' and 'new:' follow the file that they speak of, and the names that the kit respelled before
    every = set()
    for p in glob.glob("crates/*/specs/**/*.antt", recursive=True):
        every |= declared(p)
    for path in sorted(glob.glob("crates/*/must-fail/*.edit")):
        with open(path, encoding="utf-8") as f:
            text = f.read()
        lines = []
        for line in text.split("\n"):
            if line.startswith(("old:", "new:")):
                line = TOKEN.sub(lambda m: snake(m.group(0)) if m.group(0) in names or (is_word(m.group(0)) and snake(m.group(0)) in every)
                                 else m.group(0), line)
            lines.append(line)
        new = "\n".join(lines)
        if new != text:
            with open(path, "w", encoding="utf-8") as f:
                f.write(new)


LEMMAS = set()
CRATES = {p.split("/")[1] for p in glob.glob("crates/*/")}

if __name__ == "__main__":
    main()
