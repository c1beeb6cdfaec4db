#!/usr/bin/env python3
"""Places of src/ that an older form of the language shaped, point by point (docs/DESIGN-PASS.md).

    tools/places.py            how many places each point has
    tools/places.py POINT ..   the places of these points, a line each
"""
import collections
import glob
import os
import re
import sys

TOP = os.path.dirname(os.path.dirname(os.path.abspath(__file__)))


def sources():
    for path in sorted(glob.glob(os.path.join(TOP, "crates/*/src/*.rt"))):
        name = os.path.relpath(path, TOP)
        if name.endswith("/table.rt"):
            continue
        yield name, open(path, encoding="utf-8").read().split("\n")


class Function:
    def __init__(self, name, file, line, head, body):
        self.name, self.file, self.line = name, file, line
        self.head, self.body = head, body

    def clauses(self):
        at = re.search(r"\n\s+(requires|ensures)", self.head)
        return self.head[at.start():] if at else ""

    def signature(self):
        at = re.search(r"\n\s+(requires|ensures)", self.head)
        return self.head[:at.start()] if at else self.head


def functions():
    for name, lines in sources():
        i = 0
        while i < len(lines):
            m = re.match(r"(\s*)(pub )?(extern \"C\" )?fn (\w+)", lines[i])
            if not m:
                i += 1
                continue
            indent, start = m.group(1), i
            while i < len(lines) and lines[i] != indent + "}":
                i += 1
            text = "\n".join(lines[start:i + 1])
            cut = re.search(r"\n" + indent + r"\{|\{\n", text)
            cut = cut.start() if cut else len(text)
            yield Function(m.group(4), name, start + 1, text[:cut], text[cut:])
            i += 1


def by_line(pattern, skip=None):
    for name, lines in sources():
        for i, line in enumerate(lines):
            if line.lstrip().startswith("//"):
                continue
            if re.search(pattern, line) and not (skip and re.search(skip, line)):
                yield f"{name}:{i + 1}: {line.strip()}"


def point1():
    # own enums of the shape of Option or Result: a case for what is wanted and one for its absence or refusal
    for name, lines in sources():
        for i, line in enumerate(lines):
            m = re.match(r"(pub )?enum (\w+)", line)
            if m:
                body = "\n".join(lines[i:i + 14]).split("\n}")[0]
                if re.search(r"\b(Refused|Stopped|Failed|Bad|NoNumber)\b", body):
                    yield f"{name}:{i + 1}: enum {m.group(2)}"
    # a refusal as two numbers, a kind, a state, a side or a rule as a number, a flag beside a value
    for f in functions():
        sig = f.signature()
        if re.search(r"\bnumber: u64,\s*record: u64", sig):
            yield f"{f.file}:{f.line}: fn {f.name}: a refusal as two numbers"
        for word in re.findall(r"\b(kind|state|side|rule|other|near|far|there|due): (?:usize|u64)", sig):
            yield f"{f.file}:{f.line}: fn {f.name}: {word} as a number"
        if re.search(r"\b(spent|finished): (bool|u64)", sig):
            yield f"{f.file}:{f.line}: fn {f.name}: a flag beside values"
    # 0 for none, or the position that stays as it was
    for f in functions():
        if re.search(r"-> (u64|usize)", f.signature()) and re.search(r"\n    0\n\}|return 0;", f.body):
            yield f"{f.file}:{f.line}: fn {f.name}: 0 for none"
        if re.search(r"-> usize", f.signature()) and re.search(r"return at;|\n    at\n", f.body):
            yield f"{f.file}:{f.line}: fn {f.name}: a position for none"


def shape(text):
    text = re.sub(r"//[^\n]*", "", text)
    text = re.sub(r'b?"(\\.|[^"\\])*"|b\'(\\.|[^\'])\'', "T", text)
    names = {}
    keep = {"let", "mut", "for", "in", "while", "if", "else", "return", "match", "true", "false", "as", "u64", "usize", "u8", "bool", "fn", "pub", "requires", "ensures", "result", "now", "old", "new", "length"}

    def name(m):
        w = m.group(0)
        return w if w in keep else names.setdefault(w, f"n{len(names)}")
    text = re.sub(r"\b\d+\b", "0", text)
    return re.sub(r"\s+", " ", re.sub(r"\b[A-Za-z_]\w*\b", name, text)).strip()


def point2():
    # functions that are the same but for names, numbers and texts
    groups = collections.defaultdict(list)
    for f in functions():
        if f.body.count("\n") >= 3:
            groups[shape(re.sub(r"^\s*(pub )?fn \w+", "fn f", f.signature()) + f.body)].append(f)
    for group in groups.values():
        if len(group) > 1:
            for f in group:
                yield f"{f.file}:{f.line}: fn {f.name} of " + ", ".join(g.name for g in group)


def point3():
    for f in functions():
        for m in re.finditer(r"(for (\w+) in [^\n{]*\.\.[^\n{]*|while [^\n{]*)\{", f.body):
            line = f.line + f.head.count("\n") + f.body[:m.start()].count("\n")
            yield f"{f.file}:{line}: fn {f.name}: {m.group(1).strip()}"


def point4():
    # text put into a buffer by hand, equality and order by hand, conversions with `as`
    for f in functions():
        sig = f.signature()
        if re.search(r"(out|buf): &mut \[u8\]", sig) and "-> usize" in sig:
            yield f"{f.file}:{f.line}: fn {f.name}: writes text"
        if f.name in ("same_word", "below", "can_pass", "larger", "comes_after", "plus", "times", "number", "new", "copy_set", "finished_number"):
            yield f"{f.file}:{f.line}: fn {f.name}: a library's trait or method by hand"
        if re.fullmatch(r"(help|number)_word|word_of|letter_of|kind_of|refusal", f.name):
            yield f"{f.file}:{f.line}: fn {f.name}: a conversion by hand"


def point5():
    # facts of three contracts or more, and parameters that travel together through three functions or more
    facts = collections.defaultdict(set)
    groups = collections.defaultdict(list)
    for f in functions():
        for fact in set(re.findall(r"\b(Holds\w+|Accepted|Read|Rules|Prepared|Outwards|Linked|Fits|\w+There|Tables|Later|Outlook|Trying|Counted|Ready|Known|Feeding)\b", f.clauses())):
            facts[fact].add(f"{f.file}:{f.line}")
        names = tuple(re.findall(r"\b(\w+): &(?:mut )?(?:buffer::Net|Net|\[u64)", f.signature()))
        for i in range(len(names)):
            for j in range(i + 2, len(names) + 1):
                groups[names[i:j]].append(f)
    for fact, where in sorted(facts.items()):
        if len(where) >= 3:
            yield f"fact {fact}: {len(where)} functions"
    longest = [g for g in groups if len(groups[g]) >= 3]
    for g in sorted(longest):
        if not any(len(h) > len(g) and len(groups[h]) == len(groups[g]) and any(h[k:k + len(g)] == g for k in range(len(h))) for h in longest):
            yield f"parameters {', '.join(g)}: {len(groups[g])} functions"


def point6():
    return by_line(r"\[(0|0u64|0u8|99u64|b'.'); [A-Z\d]+\]|: &?(mut )?\[u(8|64); [A-Z\d]+\]|-> \[u(8|64); [A-Z\d]+\]|\[usize; \d+\]")


def point7():
    # a number or a flag that says which step is run
    for f in functions():
        if re.search(r"\b(rule: u64|supply: bool|number: u64)", f.signature()) and re.search(r"if (rule|number|!?supply)|\b(rule|number) ==|match number|!supply", f.body):
            yield f"{f.file}:{f.line}: fn {f.name}"
        if re.search(r"match (command|word) \{", f.body):
            yield f"{f.file}:{f.line}: fn {f.name}: a match that runs a step"


def point8():
    # answers that only name a search or tt
    for path in sorted(glob.glob(os.path.join(TOP, "crates/*/proofs/**/*.antt"), recursive=True)):
        for i, line in enumerate(open(path, encoding="utf-8")):
            if re.match(r"[\w.-]+( \w+)* = (search rules|tt|refl)$", line.rstrip()):
                yield f"{os.path.relpath(path, TOP)}:{i + 1}: {line.strip()}"


POINTS = [point1, point2, point3, point4, point5, point6, point7, point8]

if __name__ == "__main__":
    asked = [int(a) for a in sys.argv[1:]]
    for n in asked:
        for place in POINTS[n - 1]():
            print(place)
    if not asked:
        for n, point in enumerate(POINTS, 1):
            print(f"point {n}: {len(list(point()))}")
