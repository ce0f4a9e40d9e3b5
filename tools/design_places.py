"""Prints the lines of crates/*/src that docs/DESIGN-PASS.md counts, point by point.

    python3 tools/design_places.py            the counts
    python3 tools/design_places.py 3          the lines of point 3

A line is a place to look at; the page says which of them are places of its point.
"""

import pathlib
import re
import sys

POINTS = {
    "1": {
        "enums": r"^(pub(\(crate\))? )?enum ",
        "answers that are a bool": r"\) -> bool|fn \w+(<.*>)?\(.*\) -> bool",
        "constants of a number": r"^(pub(\(crate\))? )?const [A-Z_]+: u(8|16|32|64|size) =",
        "kinds by number": r"question: [0-9]+|short_key\([0-9]+|^ +[0-9]+ =>|, [0-9]+( \| [0-9]+)*\)( if .*)? =>",
        "errors turned by hand": r"Err\(_\) =>|\.is_err\(\)|Err\(\w+\) => (return )?(Ok\()?Err\(",
    },
    "2": {
        "the longest list": r"\.\.64u32|LONGEST: u32",
        "eleven numbers in a row": r"let \[question, a1|^    pub(\(crate\))? a1: u32",
        "one trait for each closed set": r"^impl Numbered for|^impl TryFrom<u32> for",
        "loops that push on a roll": r"\b(list|applicable|entries)\.push\(",
        "lists of firsts": r"\bnote\(&mut found",
        "which list is asked": r"match list",
        "editions": r"fn is_before_",
    },
    "3": {
        "ranges": r"for .* in [^ ]+\.\.",
        "enumerate": r"enumerate\(\)",
        "while": r"\bwhile |\bloop \{",
        "counters": r"\+= 1;|saturating_add\(1\)",
        "elements by index": r"[a-z_]\[[a-z_]+( as usize)?( \+ [a-z_]+)?\]",
    },
    "4": {
        "equality": r"fn is_same|fn answers\(|fn is_before_|\b(self|row)\.\w+(\.number\(\))? == \w+\.\w+",
        "conversion": r"fn (number|from_number|container_kind|class_of|origin_of|kind_of|row_of)\b",
        "printing": r"fn print_\w+|impl .*Display for",
        "a match for a bool": r"=> (true|false),",
    },
    "5": {
        "the question asked": r"question H\.(Host\.)?meaning",
        "the context as a parameter": r"\b(ctx|context): &ProbeContext",
        "what is held": r"\bheld self\.",
        "the state": r"\bstate self\.",
        "kind, container, place": r"kind: ContainerKind, container: u32|\bkind, container, place\b",
        "rows and a trait": r"rows: &\[Row\], tr: u32",
        "the handle and the labels": r"labels: &'a \[&'a str\],$",
        "the loan of a roll": r"ghost_name",
    },
    "6": {
        "a length beside a buffer": r"^    (pub(\(crate\))? )?len: usize",
        "lists": r"^    (pub(\(crate\))? )?\w+: Vec<",
        "searched by hand": r"\.id == id|holds\(found",
    },
    "7": {
        "switches on a list": r"match list",
        "function pointers": r": fn\(|dyn ",
    },
}


def sources():
    for path in sorted(pathlib.Path("crates").glob("*/src/*.rt")):
        text = path.read_text()
        if path.name == "tests.rt":
            continue
        yield path, text.split("#[cfg(test)]\nmod tests {")[0]


def lines_of(pattern):
    for path, text in sources():
        for number, line in enumerate(text.splitlines(), 1):
            stripped = line.strip()
            if not stripped.startswith("//") and re.search(pattern, line):
                yield f"{path}:{number}: {stripped}"


def proof_counts():
    for crate in sorted(pathlib.Path("crates").iterdir()):
        files = list(crate.glob("proofs/**/*.antt"))
        answers = sum(1 for f in files if f.name in ("Answers.antt", "Invariants.antt"))
        lines = sum(len(f.read_text().splitlines()) for f in files)
        if files:
            yield crate.name, answers, lines


def main():
    wanted = sys.argv[1:]
    for point, kinds in POINTS.items():
        if wanted and point not in wanted:
            continue
        for kind, pattern in kinds.items():
            found = list(lines_of(pattern))
            print(f"{point} {kind}: {len(found)}")
            if wanted:
                print("".join(f"    {line}\n" for line in found), end="")
    if not wanted or "8" in wanted:
        total_answers = total_lines = 0
        for name, answers, lines in proof_counts():
            print(f"8 {name}: {answers} files of invariants and answers, {lines} lines of proofs")
            total_answers += answers
            total_lines += lines
        print(f"8 all: {total_answers} files, {total_lines} lines")


if __name__ == "__main__":
    main()
