"""Network files for the benchmarks, made from a seed: the same file each time."""
import random

SHAPES = ("feeders", "trees", "chain", "star", "near-ties")


def text(stations, lines, places, adds, visits, series=8, money=100_000_000, hours=100_000, minutes=90):
    records = [f"N,{len(stations)},{len(lines)},{minutes},{series},{adds},{money},{hours},{visits}"]
    records += [f"S,{role},{customers}" for role, customers in stations]
    records += [f"L,{','.join(map(str, line))}" for line in lines]
    records += [f"P,{line},{end},{cost},{time}" for line, end, cost, time in sorted(places)]
    return ("\n".join(records) + "\n").encode()


def feeding(shape, station, rng):
    """The station that feeds a station; 1 is the HV station."""
    if shape == "feeders":  # six feeders, each a trunk with laterals
        return 1 if station <= 7 else station - 6 if rng.random() < 0.7 else rng.randint(2, station - 1)
    if shape == "trees":
        return 1 if station <= 4 else rng.randint(max(2, station - 60), station - 1)
    if shape == "chain":
        return station - 1
    if shape == "star":  # 64 arms
        return 1 if station <= 65 else station - 64
    return 1 if station <= 9 else station - 8  # near-ties: eight feeders alike


def network(shape, stations=512, hanging=0, places=64, adds=16, visits=1, seed=3):
    """A network with one HV station. `hanging` lines have an open far end. Places are on plain near ends. The arms of a star save
    apart from each other, and the walk would end soon: it has money and hours for some ten of its places."""
    rng = random.Random(f"{shape} {stations} {seed}")
    alike = shape in ("near-ties", "star")
    roles = [(1, 0)] + [(0, 10 + station % 3 if alike else rng.randint(1, 60)) for station in range(2, stations + 1)]
    lines = []
    for station in range(2, stations + 1):
        near = feeding(shape, station, rng)
        weight = 1000 + station % 5 if alike else rng.randint(1000, 90_000)
        lines.append((weight, near, station, 1 if near == 1 else 0, 0))
    for _ in range(hanging):
        lines.append((rng.randint(1000, 90_000), rng.randint(2, stations), rng.randint(2, stations), 0, 2))
    plain = [number for number, line in enumerate(lines, 1) if line[3] == 0]
    if alike or shape == "chain":  # spread evenly
        chosen = plain[:: max(1, len(plain) // places)][:places]
    else:
        chosen = rng.sample(plain, min(places, len(plain)))
    places = [(line, 1, rng.randint(1, 9), rng.randint(1, 9)) for line in chosen]
    bounds = dict(money=45, hours=45) if shape == "star" else {}
    return text(roles, lines, places, adds, visits, **bounds)
