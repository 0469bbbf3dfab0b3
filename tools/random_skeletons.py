"""Small random skeletons of ByMC, each with a random specification and whether it holds: tools/test_scripts compares that
with the verdicts on what tools/from_bymc makes of them. No script.

Two processes, fixed parameters, and no cycle but that of standing still. No formula speaks of the next moment, so a run is
one of finitely many paths whose last configuration stays for ever, and the formula is evaluated on each of them.
"""

import operator
import random

RELATIONS = {"<": operator.lt, "<=": operator.le, "==": operator.eq, ">=": operator.ge, ">": operator.gt, "!=": operator.ne}
FIXED = {"N": 2, "F": 1, "x": 0, "y": 0}
TEXT = """skel Proc {{
  local pc; shared x, y; parameters N, F;
  assumptions (2) {{ N == 2; F == 1; }}
  locations (3) {{ A: [0]; B: [1]; C: [2]; }}
  inits (5) {{ {inits} x == 0; y == 0; }}
  rules (4) {{
{rules}  }}
  specifications (1) {{ spec: {formula}; }}
}}
"""
# what `inits` says, and the configurations that meet it, as numbers of A, B and C
BEGINNINGS = [
    ("A + B == N; C == 0;", [(0, 2, 0), (1, 1, 0), (2, 0, 0)]),
    ("A == N - F; B == F; 0 == C;", [(1, 1, 0)]),
    ("A + B == N && C == F; A >= B;", [(1, 1, 1), (2, 0, 1)]),
]


def form(names, some):
    """A sum: (factor, name) in a list; the constant has no name."""
    return [(some.choice([1, 1, 2, -1]), some.choice(names)) for _ in range(some.choice([0, 1, 1, 2]))] + [(some.randint(0, 2), None)]


def form_text(it):
    return " + ".join(str(by) if name is None else f"{name} * ({by})" for by, name in it)


def formula(depth, some):
    if depth == 0 or some.random() < 0.2:
        names = ["A", "B", "C", "x", "y", "N", "F"]
        return (some.choice(list(RELATIONS)), form(names, some), form(names, some))
    sign = some.choice(["[]", "[]", "[]", "<>", "<>", "!", "&&", "||", "->"])
    return (sign, *(formula(depth - 1, some) for _ in range(1 if sign in ("[]", "<>", "!") else 2)))


def text(it):
    sign, *parts = it
    if sign in RELATIONS:
        return f"({form_text(parts[0])} {sign} {form_text(parts[1])})"
    return f"{sign}({text(parts[0])})" if len(parts) == 1 else f"({text(parts[0])} {sign} {text(parts[1])})"


def holds(it, path, at=0):
    """Whether a formula holds of a path, from a moment on."""
    sign, *parts = it
    if sign in RELATIONS:
        return RELATIONS[sign](*(sum(by * path[at].get(name, 1) for by, name in part) for part in parts))
    if sign in ("[]", "<>"):
        return (all if sign == "[]" else any)(holds(parts[0], path, later) for later in range(at, len(path)))
    found = [holds(part, path, at) for part in parts]
    return {"!": not found[0], "&&": all(found), "||": any(found), "->": not found[0] or found[-1]}[sign]


def rules(some):
    """(source, target, guards, updates) of some rules."""
    found = []
    for source, target in ("AB", "AC", "BC", "AB"):
        sums = [some.choice([[(1, "x")], [(1, "y")], [(1, "x"), (1, "y")], [(2, "x"), (1, "y")]]) for _ in range(some.choice([0, 1, 1, 2]))]
        limits = [[(some.randint(0, 2), None), *some.choice([[], [(1, "F")], [(1, "N")], [(-1, "F")]])] for _ in sums]
        guards = [(some.choice(["<", "<=", ">=", ">", "=="]), *sides) for sides in zip(sums, limits)]
        found.append((source, target, guards, {"x": some.choice([0, 1]), "y": some.choice([0, 1, 2])}))
    return found


def rule_text(number, rule):
    source, target, guards, updates = rule
    lines = [f"{name}' == {name} + {by};" if by else f"unchanged({name});" for name, by in updates.items()]
    return f"    {number}: {source} -> {target} when ({' && '.join(map(text, guards)) or 'true'}) do {{ {' '.join(lines)} }};\n"


def paths(some_rules, path):
    """All paths that go on from the last configuration of one."""
    yield path
    here = path[-1]
    for source, target, guards, updates in some_rules:
        if here[source] and all(holds(it, path, len(path) - 1) for it in guards):
            moved = {**here, source: here[source] - 1, target: here[target] + 1}
            yield from paths(some_rules, [*path, {**moved, **{name: here[name] + by for name, by in updates.items()}}])


def cases(seed, count):
    """(the text of a skeleton, whether its specification holds), so many times."""
    some = random.Random(seed)
    for _ in range(count):
        some_rules, it, (inits, numbers) = rules(some), formula(3, some), some.choice(BEGINNINGS)
        rows = "".join(rule_text(number, rule) for number, rule in enumerate(some_rules))
        first = [{**FIXED, **dict(zip("ABC", counts))} for counts in numbers]
        fits = all(holds(it, path) for begin in first for path in paths(some_rules, [begin]))
        yield TEXT.format(inits=inits, rules=rows, formula=text(it)), fits
