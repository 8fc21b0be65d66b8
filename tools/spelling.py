#!/usr/bin/env python3
"""Brings the names of definitions and lemmas to one spelling: words in snake case, facts and types in camel case, and a dash only
where it joins the names of two definitions, as in `∈-with` (what a set `with` an item holds).

usage: python3 tools/spelling.py            in the repository: respells, and says which names fell together (it then changes nothing)

It reads which names are the repository's own from the files themselves: what is declared in specs/ and proofs/, a field, or a
local name of a proof. Names of goals and steps, which Rattle makes, and names of Rattle's library are left.
"""
import os
import re
import sys

# the words that are names of definitions on sets; an operator is one too
NAMES = {"with", "without", "first", "below", "bit"}
# lemmas on the bits of std's bit_and and its like, which the rule would give the names of what they speak of
TOLD = {"bit-and": "bit-bit_and", "bit-or": "bit-bit_or", "bit-xor": "bit-bit_xor"}
TOKEN = re.compile(r"[^\s(){}\[\],;.:λ`\"]+")
DECLARED = re.compile(r"^\s*(?:abbrev |unfoldable )?(?:pub )?(?:record |data |module )?([^\s(){}\[\],;:.]+) :(?!=) ")
BOUND = [re.compile(r"\blet ([^\s:=]+) [:=]"), re.compile(r"\b(?:yes|no|inl|inr) ([^\s()]+) ↦")]
CASES = re.compile(r"^\s+((?:[^\s(){}\[\],;:.]+ )+): [A-Z]\w*$")
BINDERS = re.compile(r"λ ([^.]*)\.")


def files(ending):
    for folder, dirs, names in os.walk("crates"):
        dirs[:] = sorted(d for d in dirs if d != "out")
        for name in sorted(names):
            if name.endswith(ending):
                yield os.path.join(folder, name)


def own_names():
    """Each name with a dash, or one as `inX`, that the repository declares."""
    own = set()
    for path in [*files(".antt"), *files(".rt")]:
        with open(path, encoding="utf-8") as f:
            for line in f:
                if "use " in line:
                    own |= {m.group(1) for m in re.finditer(r" as ([^\s,{}]+-[^\s,{}]+)", line)}
                if path.endswith(".rt"):
                    continue
                own |= set(re.findall(r"(?<=[ (])in[A-Z](?=[ ).])", line))
                if line.lstrip().startswith("--") or line.startswith("use "):
                    continue
                found = [m.group(1) for m in [DECLARED.match(line)] if m and "goal." not in line]
                found += [m.group(1) for p in BOUND for m in p.finditer(line)]
                found += [w for m in [CASES.match(line)] if m for w in m.group(1).split()]
                found += [w for m in BINDERS.finditer(line) for w in re.findall(r"[^\s()]+", m.group(1))]
                for name in found:
                    if "-" in name.strip("-") or re.fullmatch(r"in[A-Z]", name):
                        own.add(name)
    return own


def is_name(word):
    return word in NAMES or not re.search(r"\w", word)


def spelled(name):
    if name in TOLD:
        return TOLD[name]
    if re.fullmatch(r"in[A-Z]", name):
        return "in_" + name[2].lower()
    if name[0].isupper():
        return "".join(p[0].upper() + p[1:] for p in name.split("-"))
    parts = name.split("-")
    out = parts[0]
    for before, part in zip(parts, parts[1:]):
        out += ("-" if is_name(before.split("_")[-1]) and is_name(part.split("_")[0]) else "_") + part
    return out


def main():
    own = own_names()
    new = {name: spelled(name) for name in own}
    new = {a: b for a, b in new.items() if a != b}
    paths = list(files(".antt")) + list(files(".rt")) + list(files(".edit"))
    texts = {}
    for path in paths:
        with open(path, encoding="utf-8") as f:
            texts[path] = f.read()
    clashes = {b for b in new.values() if list(new.values()).count(b) > 1}
    for text in texts.values():
        used = set(TOKEN.findall(text))
        clashes |= {b for a, b in new.items() if a in used and b in used}
    if clashes:
        print("spelling: these names would fall together: " + ", ".join(sorted(clashes)))
        return 1
    for path, text in texts.items():
        turned = TOKEN.sub(lambda m: new.get(m.group(0), m.group(0)), text)
        if turned != text:
            with open(path, "w", encoding="utf-8") as f:
                f.write(turned)
    for a in sorted(new):
        print(f"{a} -> {new[a]}")
    print(f"spelling: {len(new)} names")
    return 0


sys.exit(main())
