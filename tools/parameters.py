#!/usr/bin/env python3
"""Says whether there are parameters at all, in the line of `tav verify`.

    tools/parameters.py FILE

Where no parameters meet the resilience condition and have an initial configuration, every pattern is safe and this says
nothing. It solves the rows of the beginning by the least-index rule of docs/FORMATS.md, splits an unknown that isn't whole, and
visits 1,000,000 nodes at most. A sample needs no trust: put its values into the resilience condition. Status 0 with a
sample, 1 with none, 2 where it is unknown, 3 where FILE is missing or at fault, 5 for other words, 6 where reading fails.
"""

import math
import os
import sys

sys.path.insert(0, os.path.dirname(os.path.abspath(__file__)))
from check_certificate import NARROW, ONE, RANGE, Automaton, Fault, PairSystem, Pattern, Start, judge_leaf, need

NODES = 10**6


class Outside(Exception):
    """A number left 128 bits."""


def in_range(number, place):
    if abs(number) >= RANGE:
        raise Outside(place)
    return number


def solved(system, rows):
    """The least-index rule: (numerator, denominator) of each unknown where all rows are met, or None where a leaf shows that
    they can't be. `table` has for each basic variable v the d, b and c of d*v = b + sum of c*u; slacks follow the unknowns."""
    width, pivots = system.unknowns, 0
    table = {width + k: (1, row.get(ONE, 0), {u: row.get(u, 0) for u in range(width)}) for k, row in enumerate(rows)}
    while any(b < 0 for _, b, _ in table.values()):
        pivots, leaves = pivots + 1, min(v for v, (_, b, _) in table.items() if b < 0)
        d, b, cells = table.pop(leaves)
        enters = min((u for u, c in cells.items() if c > 0), default=None)
        if enters is None:
            used = {leaves - width: d, **{u - width: -c for u, c in cells.items() if c}}
            try:
                judge_leaf(PairSystem(width, rows), (), sorted(it for it in used.items() if it[0] >= 0))
            except Fault:
                raise Outside("leaf") from None
            return None
        c, place = cells.pop(enters), f"pivot {pivots}"
        for v, (k, m, others) in list(table.items()):
            a = others.pop(enters)
            g = math.gcd(c, a) if a else c
            p, q = c // g, a // g
            difference = lambda one, other: in_range(in_range(p * one, place) - in_range(q * other, place), place)
            row = {u: difference(others[u], cells[u]) if a else others[u] for u in others}
            k, m, row[leaves] = (in_range(p * k, place), difference(m, b), in_range(q * d, place)) if a else (k, m, 0)
            g = math.gcd(k, m, *row.values()) if a else 1
            table[v] = k // g, m // g, {u: it // g for u, it in row.items()}
        table[enters] = c, -b, {leaves: d, **{u: -it for u, it in cells.items()}}
    return [(table[u][1], table[u][0]) if u in table else (0, 1) for u in range(width)]


def line_of(automaton):
    """What `verify` says of the parameters: the first that are found, by splits of unknowns that aren't whole."""
    system, nodes, todo = Start(automaton, Pattern("", [], set(), [])), 0, [None]
    while todo and nodes < NODES:
        bounds, nodes, rows = todo.pop(), nodes + 1, []
        link = bounds
        while link:
            link, row = link
            rows.append(row)
        try:
            values = solved(system, system.rows + rows[::-1])
        except Outside as place:
            return f"parameters: unknown, outside 128 bits at node {nodes}, {place}"
        broken = [(u, top // bottom) for u, (top, bottom) in enumerate(values or ()) if top % bottom]
        if values and not broken:
            told = [f" {name}={top // bottom}" for name, (top, bottom) in zip(automaton.parameters, values)]
            return "parameters: sample" + "".join(told)
        for unknown, floor in broken[:1]:
            todo += [(bounds, {unknown: 1, ONE: -floor - 1}), (bounds, {unknown: -1, ONE: floor})]
    return f"parameters: unknown, {nodes} nodes spent" if todo else "parameters: none"


def main(words):
    if "-h" in words or "--help" in words:
        print(__doc__.strip())
        return 0
    if len(words) != 1:
        print(__doc__.strip(), file=sys.stderr)
        return 5
    try:
        with open(words[0], "rb") as it:
            text = it.read(NARROW.bytes + 1)
        need(len(text) <= NARROW.bytes, f"longer than {NARROW.bytes} bytes")
        line = line_of(Automaton(text))
    except Fault as fault:
        print(f"tools/parameters.py: {words[0]}: {fault}", file=sys.stderr)
        return 3
    except OSError as fault:
        print(f"tools/parameters.py: {words[0]}: {fault.strerror}", file=sys.stderr)
        return 3 if isinstance(fault, FileNotFoundError) else 6
    print(line)
    return 0 if line.startswith("parameters: sample") else 1 if line == "parameters: none" else 2


if __name__ == "__main__":
    sys.exit(main(sys.argv[1:]))
