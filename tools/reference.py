#!/usr/bin/env python3
"""A second reading of the rules, independent of the proved code: what a script prints, and what vetting a table prints.

    python3 tools/reference.py script FILE       the output of playing the script FILE, and how many lines are in error
    python3 tools/reference.py vet FILE.rt       the report on the tables of a scenario file
"""
import re
import sys

ARGUMENTS = {1: 1, 2: 2, 3: 2, 4: 3, 5: 2, 6: 2, 7: 3, 8: 1, 9: 7, 10: 5}
LISTS = {2, 3, 4, 5, 6}
CLOSED = {4: {0: 2}, 7: {0: 2}, 9: {0: 4, 5: 4, 6: 2}, 10: {3: 4, 4: 2}}
FORMS = (
    "of no known form", "object of trait {}", "adt {}", "foreign type {}", "type parameter", "plain type", "array",
    "mutable raw pointer", "shared reference", "mutable reference", "const raw pointer",
)


class Table:
    def __init__(self, rows):
        self.rows = list(rows)

    def row(self, question, arguments):
        key = [question] + arguments + [0] * (7 - len(arguments))
        for row in self.rows:
            if row[:8] == key:
                return row[8:]
        return None

    def entry(self, question, arguments):
        """One place of a list, before its end is looked at."""
        row = self.row(question, arguments)
        if row is None:
            return [arguments[0]] if question == 6 and arguments[1] == 0 else None
        if question == 4:
            return [row[0], row[1] if row[1] <= 2 else 2, int(row[2] != 0)]
        return [row[0]]

    def ask(self, question, arguments):
        if question in LISTS:
            *subject, place = arguments
            if place >= 64 or any(self.entry(question, subject + [p]) is None for p in range(place)):
                return None
            return self.entry(question, arguments)
        row = self.row(question, arguments)
        if question == 1:
            return [0, 0, 0] if row is None else [row[0] if row[0] <= 10 else 0, row[1], int(row[2] != 0)]
        if question == 8:
            return [0, 0] if row is None else [int(row[0] != 0), int(row[1] != 0)]
        if question == 10:
            return None if row is None else [row[0]]
        return [0] if row is None else [int(row[0] != 0)]

    def list(self, question, subject):
        entries = []
        while (entry := self.ask(question, subject + [len(entries)])) is not None:
            entries.append(entry)
        return entries

    def supers(self, tr):
        return [entry[0] for entry in self.list(6, [tr])]

    def breach(self, tr):
        """The first breach of the supertrait law at a trait."""
        supers = self.supers(tr)
        if supers[0] != tr:
            return f"its supers begin with trait {supers[0]}"
        for entry in supers:
            above = self.supers(entry)
            if entry != tr and tr in above:
                return f"it and trait {entry} stand above each other"
            for other in above:
                if other not in supers:
                    return f"its supers have trait {entry} and lack trait {other}, which is above that"
        return None

    def lawful(self):
        return all(self.breach(row[1]) is None for row in self.rows if row[0] == 6)


class Empty(Table):
    def __init__(self):
        super().__init__([])


class Fault(Exception):
    pass


def number(words, place):
    word = words[place - 1]
    if not re.fullmatch(r"[0-9]+", word) or int(word) >= 2**32:
        raise Fault(f"word {place} is not a number from 0 to 4294967295")
    return int(word)


def count(words, wanted):
    if len(words) < wanted:
        raise Fault("too few words")
    if len(words) > wanted:
        raise Fault("too many words")


def numbers(words, first, wanted):
    count(words, first - 1 + wanted)
    return [number(words, place) for place in range(first, first + wanted)]


class Session:
    def __init__(self):
        self.kinds, self.tables, self.open, self.last = {}, {}, {}, None

    def host(self, words):
        count(words, 3)
        identifier = number(words, 2)
        if words[2] not in ("tabled", "empty"):
            raise Fault("word 3 is not a kind of host")
        if identifier in self.kinds:
            raise Fault("the identifier is declared already")
        self.kinds[identifier], self.tables[identifier], self.last = words[2], [], identifier

    def add(self, words):
        row = numbers(words, 2, 11)
        if self.last is None:
            raise Fault("no host is begun")
        if self.kinds[self.last] != "tabled":
            raise Fault("the host begun last has no such table")
        self.tables[self.last].append(row)

    def opening(self, words):
        (identifier,) = numbers(words, 2, 1)
        if identifier not in self.kinds:
            raise Fault("the identifier is not declared")
        table = Table(self.tables[identifier])
        if not table.lawful():
            return "refused 11"
        self.open[identifier] = table
        return "0"

    def ask(self, words):
        if len(words) < 3:
            raise Fault("too few words")
        identifier, question = number(words, 2), number(words, 3)
        if question not in ARGUMENTS:
            raise Fault("word 3 is not a question from 1 to 10")
        arguments = numbers(words, 4, ARGUMENTS[question])
        for at, size in sorted(CLOSED.get(question, {}).items()):
            if arguments[at] >= size:
                raise Fault(f"word {at + 4} is not a number of its list")
        if identifier not in self.kinds:
            raise Fault("the identifier is not declared")
        if identifier not in self.open:
            raise Fault("the host is not open")
        answer = self.open[identifier].ask(question, arguments)
        return "absent" if answer is None else " ".join(map(str, answer))

    def line(self, words):
        commands = {"host": self.host, "row": self.add, "open": self.opening, "ask": self.ask}
        if words[0] not in commands:
            raise Fault("word 1 is not a command")
        return commands[words[0]](words)


def play(text):
    session, bad = Session(), 0
    for at, line in enumerate(text.split("\n"), 1):
        words = line.split("#")[0].split()
        if not words:
            continue
        try:
            answer = session.line(words)
            if answer is not None:
                print(" ".join(words), "=", answer)
        except Fault as fault:
            print(f"error at line {at}: {fault}")
            bad += 1
    print(f"{bad} lines in error")


def once(numbers_spoken):
    return list(dict.fromkeys(numbers_spoken))


def traits_of(row):
    question, first, second, answer = row[0], row[1], row[2], row[8]
    if question == 6:
        return [first, answer]
    if question in (4, 7) and first == 1:
        return [second]
    return {5: [answer], 8: [first]}.get(question, [])


def listed(table, question, subject):
    return " ".join(str(entry[0]) for entry in table.list(question, [subject])) or "none"


def vet(rows, labels):
    label = lambda kind, n: f"{n} {labels[kind][n]}" if n < len(labels[kind]) else str(n)
    table = Table(rows)
    types = once(row[1] for row in rows if row[0] in (1, 2, 3, 5))
    traits = once(tr for row in rows for tr in traits_of(row))
    names = once(row[8] for row in rows if row[0] == 4)
    if not table.lawful():
        print("refused 11: the supertrait law is broken")
        broken = [tr for tr in traits if table.breach(tr)]
        for tr in broken:
            print(f"  trait {tr}: {table.breach(tr)}")
        print(f"checked {len(rows)} rows: {len(broken)} traits break the law, and the table is not used")
        return
    print("opened")
    for ty in types:
        form, definition, _ = table.ask(1, [ty])
        form = FORMS[form].format(definition)
        own, stray, bounds = (listed(table, q, ty) for q in (2, 3, 5))
        print(f"  type {label('types', ty)}: {form}, own impls {own}, stray impls {stray}, bounds {bounds}")
    for tr in traits:
        print(f"  trait {label('traits', tr)}: supers {listed(table, 6, tr)}")
    containers = once((row[1], row[2]) for row in rows if row[0] == 4 and row[1] < 2)
    for name in names:
        carriers = [
            f" {('impl', 'trait')[kind]} {container} place {place}"
            for kind, container in containers
            for place, item in enumerate(table.list(4, [kind, container]))
            if item[0] == name
        ]
        print(f"  name {label('names', name)}:{','.join(carriers)}")
    counts = f"{len(types)} types, {len(traits)} traits, {len(names)} names"
    print(f"checked {len(rows)} rows: {counts}; the supertrait law holds at every trait")


def scenario(source):
    labels = {kind: re.findall(r'"([^"]*)"', re.search(kind + r": &\[(.*?)\]\s*,\n", source, re.S)[1]) for kind in ("types", "traits", "names")}
    for heading, table in (("delivered", "DELIVERED"), ("corrected", "CORRECTED")):
        body = re.search(r"const " + table + r".*?= \[\n(.*?)\n\];", source, re.S)[1]
        rows = [list(map(int, row.split(","))) for row in re.findall(r"\[([\d, \n]+?),?\s*\]", body)]
        print(f"tables of the harbour as {heading}")
        vet(rows, labels)


if __name__ == "__main__":
    mode, path = sys.argv[1:]
    text = open(path).read()
    play(text) if mode == "script" else scenario(text)
