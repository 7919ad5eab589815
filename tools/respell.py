#!/usr/bin/env python3
"""Respells the repository's own definitions, lemmas, record fields and constructors: words in snake case, types in
camel case, a dash only between two names. Run once, at the top of the repository, after the kit's own script.

usage: python3 tools/respell.py [--dry]

Names are those of specs/ and proofs/ alone: functions of src/ keep theirs. It prints each name with its new spelling, and stops
where two names would fall together or a new name is already in use.
"""

import os
import re
import sys

WORD = r"[^\s(){}\[\];,.«»:λ∷∙]"
SIGNATURE = re.compile(r"^( *)((?:(?:abbrev|unfoldable|pub|data|record) )*)(" + WORD + r"+)((?: *[({][^:]*:.*?[)}])*) :(?= |$)")
TOKEN = re.compile(r"(?<!" + WORD + r")" + WORD + r"+(?!" + WORD + r")")


def files(endings):
    for folder, dirs, names in os.walk("crates"):
        dirs[:] = sorted(d for d in dirs if d != "out")
        for n in sorted(names):
            if n.endswith(endings):
                yield os.path.join(folder, n)


def read(path):
    with open(path, encoding="utf-8") as f:
        return f.read()


# names that would fall together, and facts that were spelled as functions: the lemma that would have a function's name ends in _lem
CHOSEN = {
    "at_last": "at_last_lem",
    "taken_as": "taken_as_lem",
    "last-of": "last_of_lem",
    "room_for": "RoomFor",
    "room-for": "room_for",
    "shortBehind": "ShortBehind",
    "after-swap": "after_swap_lem",
    "worked-sheets": "worked_sheets_lem",
}
ALIAS = re.compile(r"(?<= as )[a-z][a-z0-9]*[A-Z]\w*")


def own_names():
    """The names that the repository declares, with what each signature ends in; those of generated goals are left out."""
    found = {}
    for path in files((".antt", ".rt")):
        text = read(path)
        for name in ALIAS.findall(text):
            found.setdefault(name, set()).add("alias")
        if path.endswith(".rt"):
            continue
        for line in text.split("\n"):
            m = SIGNATURE.match(line)
            if not m or line.lstrip().startswith(("--", "use ")):
                continue
            name, rest = m.group(3), line[m.end():]
            goal = re.match(r" *(goal|given)\.", rest)
            found.setdefault(name, set()).add("goal" if goal else rest.split(" → ")[-1].strip())
    return found


def snake(name):
    return re.sub(r"(?<=[a-z0-9])([A-Z])", lambda m: "_" + m.group(1).lower(), name)


def camel(name):
    return "".join(w[:1].upper() + w[1:] for w in re.split(r"[-_]", name))


def respelled(name, ends):
    """A type's words are joined; a dash stays in a lemma that is named for the left side of its equation."""
    if name in CHOSEN:
        return CHOSEN[name]
    if name[0].isupper() and re.fullmatch(r"[A-Za-z0-9'-]+", name) and name.split("-")[0] not in ("All", "IsTrue"):
        return camel(name)
    if not re.match(r"[A-Za-z]", name):
        return name
    parts = [p if p[:1].isupper() else snake(p) for p in name.split("-")]
    left = name.split("-")[0]
    equation = any(e.startswith(left + " ") and " ≡ " in e for e in ends)
    keep = "-" if equation and len(parts) > 1 else "_"
    return parts[0] + (keep + "_".join(parts[1:]) if len(parts) > 1 else "")


def main():
    dry = "--dry" in sys.argv
    own = own_names()
    turned, back = {}, {}
    for name, kinds in sorted(own.items()):
        to = respelled(name, kinds)
        if to != name and kinds != {"goal"}:
            turned[name] = to
            back.setdefault(to, []).append(name)
    for to, names in back.items():
        for name in names if len(names) > 1 else []:
            if "-" in name and own[name] != {"alias"}:
                turned[name] = to + "_lem"
    used = {}
    for path in files((".antt", ".rt")):
        for t in TOKEN.findall(read(path)):
            used.setdefault(t, set()).add(path)
    bad = 0
    back = {}
    for a, b in turned.items():
        back.setdefault(b, []).append(a)
    for b, names in sorted(back.items()):
        if len(names) > 1:
            print("together:", b, names)
            bad += 1
        if b in used and b not in turned:
            common = set.union(*(used[a] for a in names)) & used[b]
            if common:
                print("in use:", names, b, sorted(own.get(b, [])), sorted(common)[:4])
    for name in sorted(turned):
        if "goal" in own[name]:
            print("also a goal:", name)
            bad += 1
    if dry:
        for a, b in sorted(turned.items()):
            print(a, "->", b)
        return
    for path in list(files((".antt", ".rt", ".edit"))):
        text = read(path)
        new = TOKEN.sub(lambda m: turned.get(m.group(0), m.group(0)), text)
        if new != text:
            with open(path, "w", encoding="utf-8") as f:
                f.write(new)
    print(f"{len(turned)} names")


main()
