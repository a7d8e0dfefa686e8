#!/usr/bin/env python3
"""Spells the repository's own definitions and lemmas as today's library spells its own.

usage: respell.py            at the top of the repository, once, after the toolchain's own script
       respell.py --table    prints the table of old and new names, and changes nothing

Words are in snake case: `wordsOf` becomes `words_of`. A dash joins the name of a definition to the rest (`length-bare`); between plain
words it becomes `_`. Types are in camel case. Modules and constructors stay, and so do names of src/, the goals and steps that the check names, strings
and outputs. Where two names would fall together the lemma gets `_lem`, as the library has it; where a definition would have the name of
a field of src/, CHOSEN says the new one. It goes by the declarations that it finds, so a second run changes nothing.
"""

import collections
import glob
import os
import re
import sys

TOKEN = re.compile(r"--[^\n]*|\"(?:[^\"\\]|\\.)*\"|«[^»]*»|[^\s(){}.;,@\"«»\[\]\\]+")
HEAD = re.compile(r"^( *)((?:(?:abbrev|unfoldable|pub|data|record) )*)([^\s(){}.;,@\"«»:=]+)((?: *[({].*?[)}])*) :(?: |$)")
# Words of the library to which a lemma's name may be joined by a dash.
LIBRARY = "length take drop append map filter sum min max cond gcd cons get_or set".split()
# A name that would be that of a field of src/, of another name of the same file, or of a name that stands in another crate only.
CHOSEN = {
    "badIds": "bad_ids_from",
    "byBytes": "bytes_order",
    "byNumber": "by_number",
    "child-words": "the_child_words",
    "countAll": "count_of_all",
    "ends-here": "line_ends",
    "pairRead": "read_pair",
    "stepIn": "step_in",
}


def texts(pattern):
    return sorted(p for p in glob.glob(f"crates/*/{pattern}", recursive=True) if "/out/" not in p)


def declared():
    """The repository's own names: definitions, lemmas and fields of records, and the files that declare each."""
    found, fields, defs, types = collections.defaultdict(set), set(), set(), set()
    for p in texts("specs/**/*.antt") + texts("proofs/**/*.antt"):
        within = None
        for line in open(p, encoding="utf-8"):
            if line.strip().startswith("--"):
                continue
            if line[:1] not in " \n":
                within = "record" if re.match(r"(pub )?record ", line) else "data" if re.match(r"(pub )?data ", line) else None
            m = HEAD.match(line)
            if not m or ": goal." in line or ": goal " in line:
                continue
            found[m[3]].add(p)
            if m[1] and within == "record":
                fields.add(m[3])
            if m[3][:1].isupper() and re.search(r"record|data|abbrev", m[2]):
                types.add(m[3])
            if "/specs/" in p and re.search(r"abbrev|unfoldable", m[2]):
                defs.add(m[3])
    return found, fields, defs, types


def camel(name):
    return re.sub(r"(?<=[a-z0-9])[A-Z]+", lambda m: "_" + m[0].lower(), name)


def snake(name, defs, fields, types):
    if name in types:
        return "".join(it[:1].upper() + it[1:] for it in name.split("-"))
    if not name[:1].islower():
        return name
    parts = name.split("-")
    if name in fields:
        return "_".join(camel(it) for it in parts)
    # the longest front that is a definition's name, also one that was written as `ends-in` for `endsIn`
    for k in range(len(parts) - 1, 0, -1):
        head = parts[0] + "".join(it.capitalize() for it in parts[1:k])
        if head in defs or (k == 1 and head in LIBRARY):
            return camel(head) + "-" + "_".join(parts[k:])
    return "_".join(camel(it) if it[:1].islower() else it for it in parts)


def table():
    found, fields, defs, types = declared()
    new = {n: CHOSEN.get(n, snake(n, defs, fields, types)) for n in found}
    stay = {n for n in found if new[n] == n}
    turned = {}
    taken = set(stay) - set(CHOSEN.values())
    # definitions of specs/ first, then fields, so that it is the lemma that gets the longer name
    for n in sorted((n for n in found if n not in stay), key=lambda n: (n not in defs, n not in fields, n)):
        to = new[n]
        if to in taken:
            to += "_lem"
        if to in taken:
            raise SystemExit(f"respell: {n} has no name of its own")
        taken.add(to)
        turned[n] = to
    return turned, fields


def turn(path, turned, fields):
    with open(path, encoding="utf-8") as it:
        old = it.read()
    out, at = [], 0
    for m in TOKEN.finditer(old):
        word = m[0]
        if word in turned:
            behind_dot = old[: m.start()].endswith(".")
            if not behind_dot or "-" not in word or word in fields:
                out.append(old[at : m.start()] + turned[word])
                at = m.end()
    new = "".join(out) + old[at:]
    return old, new


def clause_lines(path, turned, fields):
    """The lines of src/ that hold clauses, ghost members and ghost fields, turned; the others as they are."""
    with open(path, encoding="utf-8") as it:
        old = it.read()
    lines, out, inside = old.split("\n"), [], False
    for line in lines:
        bare = line.strip()
        starts = re.match(r"(ghost|requires|ensures)\b", bare) and not bare.startswith("//")
        inside = inside and not starts
        if starts or inside:
            inside = line.count("{") > line.count("}") or (inside and "}" not in line)
            line = TOKEN.sub(lambda m: turned.get(m[0], m[0]), line)
        out.append(line)
    return old, "\n".join(out)


def main(argv):
    turned, fields = table()
    if argv == ["--table"]:
        for n in sorted(turned):
            print(f"{n}\t{turned[n]}")
        return 0
    changed = 0
    for p in texts("specs/**/*.antt") + texts("proofs/**/*.antt"):
        old, new = turn(p, turned, fields)
        if new != old:
            open(p, "w", encoding="utf-8").write(new)
            changed += 1
    for p in texts("src/**/*.rt"):
        old, new = clause_lines(p, turned, fields)
        if new != old:
            open(p, "w", encoding="utf-8").write(new)
            changed += 1
    print(f"respell: {len(turned)} names in {changed} files")
    return 0


if __name__ == "__main__":
    raise SystemExit(main(sys.argv[1:]))
