#!/usr/bin/env python3
"""What the calls answer, worked out from the specification by plain search over a graph, for small files.

reference.py CALLS < cases: the cases are files, each ended by the two bytes '=' and newline; for each it prints what the calls
named in CALLS answer (check, total, impact, search, report, segments, program), in the form that the test programs print."""
import re
import sys

RANGES = {
    "N": [(1, 512), (0, 768), (0, 1440), (1, 8), (0, 16), (0, 100_000_000), (0, 100_000), (1, 1_000_000_000)],
    "S": [(0, 1), (0, 20_000)],
    "L": [(0, 1_000_000), (1, "stations"), (1, "stations"), (0, 2), (0, 2)],
    "P": [(1, "lines"), (1, 2), (0, 1_000_000), (0, 1_000)],
}
NUMBER = re.compile(rb"(0|[1-9][0-9]{0,9})\Z")


class Refused(Exception):
    pass


def record(kind, number, data, head):
    """The numbers of one record, or refusal 1 or 2 at it."""
    if data is None or not data.endswith(b"\n"):
        raise Refused(1, number)
    fields = data[:-1].split(b",")
    if fields[0] != kind.encode() or len(fields) != len(RANGES[kind]) + 1 or not all(NUMBER.match(f) for f in fields[1:]):
        raise Refused(1, number)
    values = [int(f) for f in fields[1:]]
    for value, (least, largest) in zip(values, RANGES[kind]):
        if not least <= value <= (head[largest] if isinstance(largest, str) else largest):
            raise Refused(2, number)
    if kind == "S" and values[0] == 1 and values[1] != 0:
        raise Refused(2, number)
    return values


def read(data):
    if len(data) > 32768:
        raise Refused(1, 0)
    records = re.findall(rb"[^\n]*\n|[^\n]+\Z", data)
    take = lambda i: records[i] if i < len(records) else None
    first = record("N", 1, take(0), {})
    head = dict(zip("stations lines minutes series adds money hours visits".split(), first))
    stations = [record("S", i + 1, take(i), head) for i in range(1, 1 + head["stations"])]
    start = 1 + head["stations"]
    lines = [record("L", i + 1, take(i), head) for i in range(start, start + head["lines"])]
    places = []
    for i in range(start + head["lines"], len(records)):
        line, end, cost, hours = record("P", i + 1, records[i], head)
        late = places and (line, end) <= places[-1][:2]
        if late or lines[line - 1][2 + end] != 0 or len(places) == 64:
            raise Refused(3, i + 1)
        places.append((line, end, cost, hours))
    return head, stations, lines, places


class Network:
    def __init__(self, data):
        self.head, self.stations, self.lines, self.places = read(data)
        self.breakers = {(l + 1, e) for l, x in enumerate(self.lines) for e in (1, 2) if x[2 + e] == 1}
        self.at = {}
        for l, x in enumerate(self.lines):
            for e in (1, 2):
                if x[2 + e] != 2:
                    self.at.setdefault(("S", x[e]), []).append(((l + 1, e), ("L", l + 1)))
                    self.at.setdefault(("L", l + 1), []).append(((l + 1, e), ("S", x[e])))
        self.rules()

    def rules(self):
        count = len(self.stations)
        for l, x in enumerate(self.lines):
            if x[3] == x[4] == 2:
                raise Refused(4, 2 + count + l)
        for l, x in enumerate(self.lines):
            if any(x[2 + e] == 0 and self.stations[x[e] - 1][0] == 1 for e in (1, 2)):
                raise Refused(5, 2 + count + l)
        vertices = [("S", s + 1) for s in range(count)] + [("L", l + 1) for l in range(len(self.lines))]
        hv = [("S", s + 1) for s, x in enumerate(self.stations) if x[0] == 1]
        part = {}
        for v in vertices:  # a part is a tree when it has one edge fewer than vertices
            if v in part:
                continue
            part[v], queue = v, [v]
            for u in queue:
                for _, w in self.at.get(u, []):
                    if w not in part:
                        part[w] = v
                        queue.append(w)
            if sum(len(self.at.get(u, [])) for u in queue) // 2 >= len(queue):
                raise Refused(6, 0)
        if len({part[h] for h in hv}) < len(hv):
            raise Refused(7, 0)
        for s in range(count):
            if part[("S", s + 1)] not in {part[h] for h in hv}:
                raise Refused(8, s + 2)
        self.way = {h: [] for h in hv}  # the path of each vertex to its HV station
        for u in (queue := list(hv)):
            for end, w in self.at.get(u, []):
                if w not in self.way:
                    self.way[w] = [end] + self.way[u]
                    queue.append(w)
        if not self.series(frozenset()):
            raise Refused(9, 0)

    def series(self, added):
        on = self.breakers | added
        return all(sum(e in on for e in way) <= self.head["series"] for way in self.way.values())

    def trips(self, line, added=frozenset()):
        on = self.breakers | added
        return next(e for e in self.way[("L", line)] if e in on)

    def behind(self, end):
        return sum(x[1] for s, x in enumerate(self.stations) if end in self.way[("S", s + 1)])

    def impact(self, line, added=frozenset()):
        return self.behind(self.trips(line, added))

    def segments(self):
        """The numbers of the segment table."""
        table = []
        for end in sorted(self.breakers):
            weight = sum(x[0] for l, x in enumerate(self.lines) if self.trips(l + 1) == end)
            table += [*end, weight, self.behind(end), weight * self.behind(end)]
        return table

    def total(self, added=frozenset()):
        return sum(x[0] * self.impact(l + 1, added) for l, x in enumerate(self.lines))

    def search(self):
        """The search as the specification tells it, with exact whole numbers."""
        ends = lambda s: frozenset(self.places[p - 1][:2] for p in s)
        totals = {}

        def total(s):
            if s not in totals:
                totals[s] = self.total(ends(s))
            return totals[s]

        def allowed(s):
            return (len(s) <= self.head["adds"] and sum(self.places[p - 1][2] for p in s) <= self.head["money"]
                    and sum(self.places[p - 1][3] for p in s) <= self.head["hours"] and self.series(ends(s)))

        last = len(self.places)
        savings = {p: total(()) - total((p,)) for p in range(1, last + 1)}
        state = {"best": None, "visits": 0}

        class Spent(Exception):
            pass

        def visit(s):
            if state["visits"] == self.head["visits"]:
                raise Spent
            state["visits"] += 1
            if state["best"] is None or total(s) < total(state["best"]):
                state["best"] = s
            more = self.head["adds"] - len(s)
            if more == 0:
                return
            for q in range((s[-1] if s else 0) + 1, last + 1):
                saved = sum(sorted((savings[p] for p in range(q, last + 1)), reverse=True)[:more])
                if total(s) - saved >= total(state["best"]):
                    return
                if allowed(s + (q,)):
                    visit(s + (q,))

        try:
            visit(())
            done = 1
        except Spent:
            done = 0
        return done, state["visits"], state["best"], total(state["best"])

    def report(self):
        done, visits, best, total = self.search()
        text = f"A,{self.total()},{self.head['minutes'] * self.total()}\n"
        for l, x in enumerate(self.lines):
            text += f"F,{l + 1},{self.impact(l + 1)},{x[0] * self.impact(l + 1)}\n"
        text += f"C,{done},{visits},{len(best)},{total}\n"
        return text + "".join(f"B,{self.places[p - 1][0]},{self.places[p - 1][1]}\n" for p in best)


def answer(call, data):
    net = Network(data)
    if call == "check":
        return "accepted\n"
    if call == "total":
        return f"{net.total()},{net.head['minutes'] * net.total()}\n"
    if call == "impact":  # of 0, of the largest number, of each line, of the number after the last line
        return 2 * "X,2,0\n" + "".join(f"{net.impact(l + 1)}\n" for l in range(len(net.lines))) + "X,2,0\n"
    return net.report()


def search(data, lent):
    """What Search answers with a buffer of so many numbers, each 99, and the buffer after it."""
    members = lent * [99]
    try:
        if lent < 16:
            raise Refused(10, 0)
        done, visits, best, total = Network(data).search()
        members[:len(best)] = best
        line = f"{done},{len(best)},{total},{visits}"
    except Refused as why:
        line = "X,%d,%d" % why.args
    return line + "\n" + "".join(f"{x} " for x in members) + "\n"


def report(data, lent):
    """What Report answers with a buffer of so many bytes, each '#', the text, and how many bytes are still '#'."""
    try:
        if lent < 32768:
            raise Refused(10, 0)
        text = Network(data).report()
        return f"{len(text)}\n{text}{lent - len(text)}\n"
    except Refused as why:
        return "X,%d,%d\n" % why.args + f"{lent}\n"


def segments(data, lent):
    """What Segments answers with a buffer of so many numbers, each 99, the table, and how many numbers are 99."""
    try:
        if lent < 7680:
            raise Refused(10, 0)
        table = Network(data).segments()
        rest = lent - len(table) + table.count(99)
        return f"{len(table) // 5}\n" + "".join(f"{x} " for x in table) + f"\n{rest}\n"
    except Refused as why:
        return "X,%d,%d\n" % why.args + f"{lent}\n"


def main():
    calls = sys.argv[1:]
    for data in sys.stdin.buffer.read().split(b"=\n")[:-1]:
        for call in calls:
            try:
                if call == "search":
                    sys.stdout.write("".join(search(data, lent) for lent in (15, 16, 20)))
                elif call == "report":
                    sys.stdout.write("".join(report(data, lent) for lent in (32767, 32768, 40000)))
                elif call == "segments":
                    sys.stdout.write("".join(segments(data, lent) for lent in (7679, 7680, 8000)))
                else:
                    sys.stdout.write(answer(call, data))
            except Refused as why:
                sys.stdout.write("X,%d,%d\n" % why.args)


if __name__ == "__main__":
    main()
