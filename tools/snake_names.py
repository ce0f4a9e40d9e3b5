#!/usr/bin/env python3
"""Brings the names that this repository gives in specs/ and proofs/ to the spelling of today's library.

usage: python3 tools/snake_names.py [--dry]      at the top of the repository, once, right after the kit's port script

Words of a name are joined by an underscore. A dash stays only where it joins the names of two functions, as in the
name of a lemma after its left side; KEPT has those. The names of goals and of what the check makes for a function
(`returns-..`, `loop-..`, `invariant-..`) are not touched, nor are names of src/, strings, inputs or outputs.
"""

import os
import re
import sys

# Lemmas named after their left side, the outer function first: how each is spelled.
KEPT = {
    "length-fronts": "length-fronts",
    "length-listed": "length-listed",
    "first-row-push": "first_row-push",
    "firsts-push": "firsts-push",
    "without-push": "without-push",
    "opened-push": "opened-push",
    "listed-drop": "listed-drop",
    "listed-fronts": "listed-fronts",
    "length-numbers": "length-numbers",
    "length-offers": "length-offers",
    "gathered-append": "gathered-append",
    "numbers-append": "numbers-append",
    "impls-met-append": "impls_met-append",
    "candidates-on-append": "candidates_on-append",
}
# Facts, which are types.
FACTS = {"Some-answer": "SomeAnswer"}
# Names that the check makes, or asks for, by the code of a function.
MADE = re.compile(r"^(returns|loop|invariant|decreases|ghost|ghosts|overflow|bounds|slice|nonzero|prove)(-|_)")
WORD = re.compile(r"(?<![\w'\u25cc-])[A-Za-z][\w']*(?:-[\w']+)+(?![\w'\u25cc-])")
SIGNATURE = re.compile(r"^\s*(?:(?:abbrev|unfoldable|pub|data|record|ruleset)\s+)*([A-Za-z][\w'-]*)\s*:(?=\s|$)")
RULESET = re.compile(r"^\s*(?:pub\s+)?ruleset\s+(?:pub\s+)?([A-Za-z][\w'-]*)")


def files(ends):
    for folder, dirs, names in os.walk("crates"):
        dirs[:] = sorted(d for d in dirs if d != "out")
        for name in sorted(names):
            if name.endswith(ends):
                yield os.path.join(folder, name)


def read(path):
    with open(path, encoding="utf-8") as f:
        return f.read()


def defined():
    """The names with a dash that a file of specs/ or proofs/ gives: name to the files that give it."""
    found = {}
    for path in files(".antt"):
        for line in read(path).splitlines():
            m = SIGNATURE.match(line) or RULESET.match(line)
            if not m or "-" not in m.group(1) or MADE.match(m.group(1)):
                continue
            if re.search(r":\s*goal\.", line):
                continue
            found.setdefault(m.group(1), []).append(path)
    return found


def respelled(text, names):
    def turn(m):
        word = m.group(0)
        before = text[m.start() - 1] if m.start() else ""
        # behind a dot stands a step of a generated proof, but for the field of a record or a name of a module
        if before == "." and re.search(r"(?<![\w'])(c|l|w|a|v|goal)(\.[\w'-]+)*\.$", text[: m.start()][-120:]):
            return word
        return names.get(word, word)

    return WORD.sub(turn, text)


def main():
    dry = "--dry" in sys.argv
    found = defined()
    names = {old: FACTS.get(old, KEPT.get(old, old.replace("-", "_"))) for old in found}
    given = {}
    for path in files(".antt"):
        for line in read(path).splitlines():
            m = SIGNATURE.match(line)
            if m:
                given.setdefault(m.group(1), set()).add(path)
    for old, new in sorted(names.items()):
        if new in given and new != old:
            print(f"falls together: {old} ({', '.join(found[old])}) and {new} ({', '.join(sorted(given[new]))})")
    changed = 0
    for path in list(files((".antt", ".rt"))):
        text = read(path)
        turned = respelled(text, names)
        if turned != text:
            changed += 1
            if not dry:
                with open(path, "w", encoding="utf-8") as f:
                    f.write(turned)
    print(f"{sum(a != b for a, b in names.items())} names respelled in {changed} files")
    for old in sorted(names):
        print(f"  {old} -> {names[old]}")


main()
