"""What the scripts know of rest: guards with their numbers, silent names, and who waits for what at the end of a run. No
script: it is imported by those that lie beside it.

A configuration is at rest if no rule between two locations has a process at its source while its guards hold; at quiet rest
if none has one while its guards hold without the terms of silent names, of which no guard may subtract one.
"""

import copy
import re
from collections import namedtuple

from reading import ONE, Fault, Stop, guards_of, judge, value_of

# a rule that leads out of a location with processes, and of each of its guards the text, the numbers and whether it holds
Exit = namedtuple("Exit", "rule guards")
Waited = namedtuple("Waited", "text numbers holds quietly word")


def sum_said(terms, numbers):
    """A sum of shared variables, and its value."""
    texts = [name if by == 1 else f"{by}*{name}" for name, by in terms]
    return " + ".join(texts) or "0", sum(by * numbers[name] for name, by in terms)


def guard_said(automaton, row, rises, numbers):
    """A guard with its numbers."""
    sign, tells = (1, ">=") if rises else (-1, "<")
    shared = [(name, sign * row[name]) for name in automaton.shared if row.get(name)]
    liars = [name for name, by in automaton.processes.items() if name != ONE and by < 0]
    helped = [(sign * row[name], numbers[name]) for name in liars if sign * row.get(name, 0) > 0 and numbers[name]]
    helps = "".join(f" + {count}" if by == 1 else f" + {by}*{count}" for by, count in helped)
    text, value = sum_said(shared, numbers)
    bound = value + sum(by * count for by, count in helped) - sign * value_of(row, numbers) + (0 if rises else 1)
    return f"{text} = {value}{helps}{' faulty' if helps else ''} {tells} {bound}"


def quiet(row, silent):
    """A row without the terms of silent names."""
    return {name: by for name, by in row.items() if name not in silent}


def names_in(text):
    """The names of a text with commas between, or None."""
    names = text.split(",")
    return names if all(re.fullmatch(judge.NAME, it) and it not in judge.KEYWORDS for it in names) else None


def ending(automaton, silent, name):
    """The automaton with the endings of its patterns. Refuses a file and silent names as `tav rest` does."""
    other = copy.copy(automaton)
    other.patterns = list(automaton.patterns)
    try:
        other.endings()
    except Fault as fault:
        raise Stop(3, f"{name}: {fault}") from None
    return may_be_silent(other, silent, name)


def may_be_silent(automaton, silent, name):
    """The automaton, of which these names may be silent."""
    try:
        automaton.quiet(silent)
    except Fault as fault:
        raise Stop(3, f"{name}: {fault}") from None
    return automaton


def silent_of(given, automaton, name):
    """The silent names of the options --rest and --silent; None where rest isn't asked for."""
    silent = names_in(given["--silent"]) if "--silent" in given else []
    if silent is None or "--silent" in given and "--rest" not in given:
        raise Stop(5, "")
    if "--rest" not in given:
        return None
    ending(automaton, silent, name)
    return silent


def word_of(row, numbers, silent):
    """Whether a guard holds, whether it holds without silent terms, and both in words."""
    holds, quietly = (value_of(it, numbers) >= 0 for it in (row, quiet(row, silent)))
    adding = " and ".join(f"{name} = {numbers[name]}" for name in silent if row.get(name) and numbers[name])
    return holds, quietly, "true" if quietly else f"true with {adding}, and needn't be" if holds else "false"


def exits_of(automaton, texts, numbers, silent, place):
    """The rules that lead from a location to another one, with their guards, of which `texts` has the texts."""
    found = []
    for rule in (it for it in automaton.rules if it.source == place != it.target):
        guards = []
        for kind, those in ("rise", rule.rise), ("fall", rule.fall):
            for number in sorted(those):
                row = getattr(automaton, kind)[number]
                said = guard_said(automaton, row, kind == "rise", numbers)
                guards.append(Waited(texts[kind, number], said, *word_of(row, numbers, silent)))
        found.append(Exit(rule, guards))
    return found


def rest_of(automaton, written, run, silent):
    """What the end of a run has: (location, how many wait there, its exits). Refuses a run after which some rule must fire."""
    numbers, texts = run.moments[-1].numbers, {(kind, number): text for kind, number, text, _ in guards_of(automaton, written)}
    found = [(it, numbers[it], exits_of(automaton, texts, numbers, silent, it)) for it in automaton.locations if numbers[it]]
    for place, count, exits in found:
        for rule, guards in exits:
            why = "".join(f", {it.numbers}" for it in guards)
            must = f"rule {rule.name}: {place} -> {rule.target} must fire: {count} in {place}{why}"
            run.need(not all(it.quietly for it in guards), f"not at {rest_named(silent)} at the end: {must}")
    return found


def rest_named(silent):
    return f"quiet rest (without {', '.join(silent)})" if silent else "rest"


def title_of(run, silent):
    """The line above what waits at the end of a run."""
    events = run.pattern.events
    unmarked = bool(events) and events[-1].name not in run.moments[-1].marks
    return f"The end is {rest_named(silent)}" + (f"; its event {events[-1].name} is marked earlier" if unmarked else "")
