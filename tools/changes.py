#!/usr/bin/env python3
"""changes.py CHANGES.json OLD: the list at the end of docs/DESIGN-PASS.md. CHANGES.json is what the toolchain's contracts.py prints with --json
of the repository at the commit where the pass began and of it now, OLD the folder of the former. A pure respelling, where `network_in net.now`
is now `net.now`, is named and not printed."""
import collections
import glob
import json
import os
import re
import sys

changes = json.load(open(sys.argv[1]))
OLD, NEW = sys.argv[2], os.path.dirname(os.path.dirname(os.path.abspath(__file__)))


def respelled(text):
    text = re.sub(r"\(network_in (\S+?)\)", r"\1", text)
    text = re.sub(r"network_in (\S+)", r"\1", text)
    return " ".join(text.split())


def clauses(requires, ensures):
    rows = [("requires", c) for c in requires] + [("ensures", c) for c in ensures]
    return [(word + (" " + name if name else ""), " ".join(text.split())) for word, (name, text) in rows]


def sources(top):
    for path in sorted(glob.glob(os.path.join(top, "crates/*/src/*.rt"))):
        yield os.path.relpath(path, top).split("/")[1], open(path, encoding="utf-8").read()


def invariants(top):
    """The ghost members of each type and impl, by crate and name: fields that every value has, what a clause sees, laws of traits."""
    found = collections.defaultdict(list)
    for crate, text in sources(top):
        for head in re.finditer(r"^(?:pub )?(?:struct|trait|impl)\b[^{;]*\{", text, re.M):
            body = text[head.end() : text.find("\n}", head.end())]
            name = " ".join(re.sub(r"^(pub )?|\{$", "", head.group(0)).split())
            for ghost in re.finditer(r"^    ghost (\w+)(:|\s*=) (.*?)[;,]$", body, re.M | re.S):
                if ghost.group(1) != "use":
                    found[crate + " " + name].append(" ".join(f"{ghost.group(1)}{ghost.group(2)} {ghost.group(3)}".split()))
    return found


def listed(names):
    by_crate = collections.defaultdict(list)
    for crate, name in names:
        by_crate[crate].append(name)
    for crate in sorted(by_crate):
        print(f"- `{crate}`: " + ", ".join(f"`{name}`" for name in sorted(set(by_crate[crate]))))
    print()


signatures = {name: (old, new) for name, old, new in changes["signatures changed"]}
contracts = {name: (clauses(a, b), clauses(c, d)) for name, a, b, c, d in changes["contracts changed"]}
spelled = []
print("### Functions: signatures and clauses\n")
print("A line with - is the old form, one with + the new.\n")
print("```diff")
for name in sorted(set(signatures) | set(contracts)):
    old, new = contracts.get(name, ([], []))
    same = [(w, respelled(t)) for w, t in old] == [(w, respelled(t)) for w, t in new]
    if same and old and name not in signatures:
        spelled.append(name)
        continue
    print("  " + name)
    if name in signatures:
        print("- " + " ".join(signatures[name][0].split()))
        print("+ " + " ".join(signatures[name][1].split()))
    if same and old:
        print("  clauses: respelled alone")
        continue
    for row in old:
        if row not in new:
            print("-   %s { %s }" % row)
    for row in new:
        if row not in old:
            print("+   %s { %s }" % row)
print("```\n")
if spelled:
    print("Respelled alone, `network_in net.now` to `net.now` (%d): %s.\n" % (len(spelled), ", ".join("`%s`" % re.sub(r"src/\S+ ", "", n) for n in spelled)))

print("### Public functions that are not found again by type and name\n")
print("The table above says what states their promises.\n")
public = {(crate, name) for crate, text in sources(OLD) for name in re.findall(r'^\s*pub (?:extern "C" )?fn (\w+)', text, re.M)}
gone = [re.match(r"(\w+) \S+ (.*?) \(", row).groups() for row in changes["functions not found again"]]
listed((crate, name) for crate, name in gone if (crate, name.split("::")[-1]) in public)

print("### Type invariants and laws\n")
print("```diff")
before, now = invariants(OLD), invariants(NEW)
for name in sorted(set(before) | set(now)):
    old, new = before.get(name, []), now.get(name, [])
    if old != new:
        print("  " + name)
        for text in old:
            if text not in new:
                print("- " + text)
        for text in new:
            if text not in old:
                print("+ " + text)
print("```\n")

definitions = changes["definitions"]
print("### Definitions and theorems of specs/\n")
print("```diff")
for crate, name, olds, news in definitions["changed"]:
    print(f"  {crate} {name}")
    for text in olds if isinstance(olds, list) else [olds]:
        print("- " + " ".join(text.split()))
    for text in news if isinstance(news, list) else [news]:
        print("+ " + " ".join(text.split()))
print("```\n")
print("Not found again by crate and name; the table above says what states them now:\n")
listed((row[0], row[1]) for row in definitions["gone"])
