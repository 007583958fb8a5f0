#!/usr/bin/env python3
"""Brings this repository's own definitions and lemmas to one spelling, once, after the scripts of the port.

usage: tools/respell.py [--list]      at the top of the repository

Types and facts are in upper camel case (`Reads-back` becomes `ReadsBack`); every other name of specs/ and
proofs/ is in snake case (`meaningOf` becomes `meaning_of`, `at-end` becomes `at_end`). Names that Rattle makes
(goals, steps, measures) and names of the libraries keep their spelling. Behind the dot of a value only fields are
turned, since steps of the code stand there too. In the pages, the must-fail edits and the table of planted bugs
the names that the port's scripts had turned already are brought along. `--list` prints the names and writes
nothing; names that would fall together stop it.
"""

import collections
import os
import re
import sys

NAME = r"[^\s(){}.;,@\"«»`|]+"
SIGNATURE = re.compile(rf"^(\s*)((?:pub |abbrev |unfoldable )*)({NAME}(?: {NAME})*) : ?(.*)$")
HEAD = re.compile(rf"^\s*(?:pub )?(?:record|data) ({NAME})")
GOAL = re.compile(r"^goal\.")
# Names that the port's scripts had brought to snake case before, because a library had the same ones.
EARLIER = """all-pass and-assoc before-at bound-by by-end by-turn byteOf bytesOf call-fits callBy countOf enters-is
eqb-is filled-next first-gives first-next firstAt firstOf flag-small found-here held-back held-same heldAt heldOf
idOf inputOf isOf itemOf kindOf laneLine laneLines leftOf less-by lineOf lines-cut lines-join lines-more lines-none
linesFrom linesOf low-bit modeOf moveOf no-line none-first numberOf one-at one-place opens-not orElse place-is
placeOf put-next quiet-by read-back read-found read-keeps read-kept read-next readOf readingOf roomAt same-step
says-first seen-if send-at signedOf size-is some-first some-is sources-next stateOf stepOf tag-at tag-is two-at
value-same valuesOf withFlags withNext within-same inRange""".split()
# Lemmas that one spelling would bring together with a definition, and a definition with a word of the library.
APART = {
    "in-front": "lines_of_cons",
    "port-at": "port_number_at",
    "held-at": "held_at_put",
    "event-at": "event_leads",
    "fault-bits": "fault_bits_pair",
    "isOk": "is_accepted",
}


def snake(name):
    return re.sub(r"(?<=[a-z0-9])([A-Z])", lambda m: "_" + m.group(1).lower(), name).replace("-", "_")


def camel(name):
    first, *more = name.split("-")
    return first + "".join(w[0].upper() + w[1:] for w in more)


def files(*endings):
    for top in ("crates", "docs", "tools", "README.md"):
        if os.path.isfile(top):
            yield top
        for folder, dirs, names in os.walk(top):
            dirs[:] = sorted(d for d in dirs if d != "out")
            yield from (os.path.join(folder, n) for n in sorted(names) if n.endswith(endings))


def read(path):
    with open(path, encoding="utf-8") as f:
        return f.read()


def own_names():
    """The names that specs/ and proofs/ define, and which of them are fields of records."""
    names, fields = collections.defaultdict(set), set()
    for path in files(".antt"):
        indent = None
        for line in read(path).split("\n"):
            if line.lstrip().startswith("--"):
                continue
            head = HEAD.match(line)
            if head:
                names[head.group(1)].add(path)
                indent = len(line) - len(line.lstrip()) if "record" in line.split(head.group(1))[0] else None
                continue
            found = SIGNATURE.match(line)
            if not found or GOAL.match(found.group(4)):
                continue
            for name in found.group(3).split(" "):
                names[name].add(path)
                if indent is not None and len(found.group(1)) > indent:
                    fields.add(name)
            if indent is not None and len(found.group(1)) <= indent:
                indent = None
    return names, fields


def table(names):
    turned = {}
    for name in names:
        if not re.match(r"[A-Za-z]", name):
            continue
        new = APART.get(name) or (camel(name) if name[0].isupper() else snake(name))
        if new != name:
            turned[name] = new
    together = collections.Counter(turned.values())
    for old, new in turned.items():
        if together[new] > 1 or new in names:
            sys.exit(f"respell: {old} would fall together with another {new}")
    return turned


def turn(text, turned, fields, dotted):
    def one(m):
        name = m.group(0)
        if name not in turned:
            return name
        before = re.search(r"([\w'-]+)\.$", text[max(0, m.start() - 60) : m.start()])
        if before and not before.group(1)[0].isupper() and name not in fields and not dotted:
            return name
        return turned[name]

    return re.sub(NAME, one, text)


def main():
    names, fields = own_names()
    turned = table(names)
    if "--list" in sys.argv[1:]:
        for old in sorted(turned):
            print(f"{old} {turned[old]}{'  (field)' if old in fields else ''}")
        return
    pages = dict(turned, **{n: snake(n) for n in EARLIER})
    for path in files(".antt", ".rt", ".md", ".edit", ".tsv"):
        text = read(path)
        code = path.endswith((".antt", ".rt"))
        new = turn(text, turned if code else pages, fields, not code)
        if new != text:
            with open(path, "w", encoding="utf-8") as f:
                f.write(new)
            print(path)


main()
