"""Walks a book's chapters in two orders with the program `walk`, and shows which face every kind of element gets.

The style sheet and the chapters become house records: the sheet first, then an enter for each element as it is met, then questions.
WALK_COMMAND is the command that reads house records and prints their lines. Nothing here decides who wins.

    python3 examples/book.py [FOLDER]     the records of both orders are left in FOLDER (target/demo)
"""

import os
import re
import struct
import subprocess
import sys
import xml.etree.ElementTree as xml

HERE = os.path.dirname(os.path.abspath(__file__))
BOOK = os.path.join(HERE, "alice")
ORDERS = ("1 2 3", "3 1 2")

# The numbers of names. A class and a pseudo-class may have the same number: they are kept apart.
TYPES = {"body": 1, "section": 2, "h2": 3, "p": 4, "em": 5, "blockquote": 6, "aside": 7, "a": 8}
CLASSES = {"chapter": 1, "first": 2, "verse": 3}
PSEUDOS = {"link": 1}
PARTS = {"footnote": 1}
PROPERTIES = {"font-family": 1, "font-style": 2, "font-weight": 3}

TYPE, PART, CLASS, PSEUDO = range(4)
STAMP = 1865


class Trouble(Exception):
    pass


def number(table, name, what):
    if name not in table:
        raise Trouble(f"{what} '{name}' has no number in examples/book.py")
    return table[name]


# House records: a kind byte, then its numbers, little-endian.
def sheet(ranking): return struct.pack("<BBI", 1, ranking, STAMP)
def direct(origin): return struct.pack("<BB", 2, origin)
def group(origin): return struct.pack("<BB", 3, origin)
def rule(): return b"\x04"
def step(descendant): return struct.pack("<BB", 5, descendant)
def requirement(which, name): return struct.pack("<BBI", 6, which, name)
def entry(name, value): return struct.pack("<BHBI", 7, name, 0, value)
def end(): return b"\x08"
def item(which, name): return struct.pack("<BBI", 9, which, name)
def enter(parent): return struct.pack("<BI", 10, parent)
def changed(old, new): return struct.pack("<BII", 11, old, new)
def winner(state, name): return struct.pack("<BIH", 12, state, name)


class Sheet:
    """The style sheet as records, and what its rules and direct styles say."""

    def __init__(self, text):
        self.values = []
        self.rules = []
        self.directs = {}
        ranking, origin, source, open_group = 0, 0, 0, False
        records = b""
        text = re.sub(r"/\*.*?\*/", "", text, flags=re.S)
        for at, head, body in re.findall(r"\s*(@\w+)?\s*([^{};]*?)\s*(?:;|\{([^}]*)\})", text):
            if at == "@ranking":
                ranking = int(head)
            elif at == "@origin":
                origin, open_group = int(head), False
            elif at == "@direct":
                records += direct(origin) + self.entries(self.directs.setdefault(source, {}), body)
                source, open_group = source + 1, False
            else:
                if not open_group:
                    records += group(origin)
                    source, open_group = source + 1, True
                self.rules.append({})
                records += rule() + selector(head) + self.entries(self.rules[-1], body)
        self.records = sheet(ranking) + records + end()

    def entries(self, says, body):
        for name, value in re.findall(r"([\w-]+)\s*:\s*\"?([^;\"]+)", body):
            says[number(PROPERTIES, name, "the property")] = value.strip()
        records = b""
        for name in sorted(says):
            if says[name] not in self.values:
                self.values.append(says[name])
            records += entry(name, self.values.index(says[name]))
        return records

    def said(self, who, name):
        """What the winner of a property says: its line's words after the colon."""
        if who[0] == "rule":
            return self.rules[int(who[1])][name]
        if who[0] == "direct":
            return self.directs[int(who[1])][name]
        return "-"


def selector(text):
    records, descendant = b"", 0
    for word in re.sub(r"\s*>\s*", " > ", text).split():
        if word == ">":
            descendant = 0
            continue
        records += step(descendant)
        descendant = 1
        for mark, name in re.findall(r"(::|:|\.|)([\w-]+)", word):
            which, table, what = {
                "": (TYPE, TYPES, "the element"),
                "::": (PART, PARTS, "the part"),
                ".": (CLASS, CLASSES, "the class"),
                ":": (PSEUDO, PSEUDOS, "the pseudo-class"),
            }[mark]
            records += requirement(which, number(table, name, what))
    return records


def items(element):
    """The records of an element's subject, and its name for a reader."""
    kind = re.sub(r"^\{.*\}", "", element.tag)
    records, name = item(TYPE, number(TYPES, kind, "the element")), kind
    for word in element.get("class", "").split():
        records += item(CLASS, number(CLASSES, word, "the class"))
        name += "." + word
    if "href" in element.attrib:
        records += item(PSEUDO, PSEUDOS["link"])
        name += ":link"
    if "part" in element.attrib:
        records += item(PART, number(PARTS, element.get("part"), "the part"))
        name += "::" + element.get("part")
    return records, name


def elements(order):
    """All elements in the order of a walk: records of the subject, path, path of the parent."""
    def below(element, parent):
        records, name = items(element)
        path = parent + (name,)
        yield records, path, parent
        for child in element:
            yield from below(child, path)

    for chapter in order.split():
        tree = xml.parse(os.path.join(BOOK, f"chapter-{chapter}.xhtml")).getroot()
        yield from below(tree.find("{*}body"), ())


def run(records):
    command = os.environ.get("WALK_COMMAND", "tools/run walk")
    done = subprocess.run(command, shell=True, input=records, stdout=subprocess.PIPE)
    lines = done.stdout.decode("ascii", "replace").splitlines()
    if done.returncode:
        raise Trouble(f"'{command}' ended with status {done.returncode}")
    for line in lines:
        if line.startswith("refused"):
            raise Trouble(f"'{command}' says: {line}")
    return lines


def states(sheet, order):
    """The records of a walk, and the state of each kind of element in it.

    An enter names its parent's state, which is known once the parent was entered: the walk is run as far as it is known, again and again.
    """
    walk = list(elements(order))
    known = {(): 0}
    while True:
        records, asked = sheet.records, []
        for subject, path, parent in walk:
            if parent not in known:
                break
            records += subject + enter(known[parent])
            asked.append(path)
        lines = run(records)
        if len(lines) != len(asked):
            raise Trouble(f"{len(asked)} enters, but {len(lines)} lines")
        for path, line in zip(asked, lines):
            state = int(re.fullmatch(r"state (\d+) matched \d+:[\d ]*", line).group(1))
            if known.setdefault(path, state) != state:
                raise Trouble(f"{' > '.join(path)} has the states {known[path]} and {state}")
        if len(asked) == len(walk):
            return records, known


def faces(sheet, order, folder):
    """For each kind of element its state, the winners, the face, and what changes from its parent."""
    records, known = states(sheet, order)
    paths = [path for path in known if path]
    names = sorted(PROPERTIES.values())
    for path in paths:
        for name in names:
            records += winner(known[path], name)
        records += changed(known[path[:-1]], known[path])
    with open(os.path.join(folder, f"order-{order.replace(' ', '-')}.house"), "wb") as file:
        file.write(records)
    lines = run(records)[-len(paths) * (len(names) + 1):]
    table = {}
    for path in paths:
        winners = []
        for name in names:
            told, who = lines.pop(0).split(": ")
            assert told == f"winner {name}"
            winners.append(who)
        face = " ".join(sheet.said(who.split(), name) for who, name in zip(winners, names))
        table[path] = known[path], winners, face, lines.pop(0)
    return table


def show(tables):
    left, right = tables
    kinds = [path for path in left if path[-1].split(".")[0] not in ("body", "section", "blockquote", "a:link")]
    print(f"{'Alice in Wonderland':<26}{'state':>5}  {'face, chapters ' + ORDERS[0]:<28}{'state':>5}  face, chapters {ORDERS[1]}")
    for path in kinds:
        print(f"{' > '.join(path[2:]):<26}{left[path][0]:>5}  {left[path][2]:<28}{right[path][0]:>5}  {right[path][2]}")
    moved = sum(left[path][0] != right[path][0] for path in kinds)
    different = [path for path in left if left[path][1:] != right[path][1:]]
    for path in different:
        print(f"DIFFERENT: {' > '.join(path)}: {left[path][1:]} and {right[path][1:]}")
    if different or left.keys() != right.keys():
        print("The two orders do not agree.")
        return 1
    print(f"{moved} of {len(kinds)} have another state number in the other order; winners, changes and so the faces are the same.")
    return 0


def main():
    folder = sys.argv[1] if len(sys.argv) > 1 else os.path.join(HERE, "..", "target", "demo")
    os.makedirs(folder, exist_ok=True)
    with open(os.path.join(BOOK, "book.css"), encoding="utf-8") as file:
        made = Sheet(file.read())
    return show([faces(made, order, folder) for order in ORDERS])


if __name__ == "__main__":
    try:
        sys.exit(main())
    except Trouble as trouble:
        print(f"demo: {trouble}", file=sys.stderr)
        sys.exit(2)
