#!/usr/bin/env python3
"""Judges a certificate without `tav`: for people who trust nobody's proofs.

    tools/check_certificate.py [--rest [--silent NAMES]] [--parameters] [--all] [--wide] FILE CERT

Written from docs/FORMATS.md alone, it shares nothing with `tav`, and is plain before it is fast. It prints what
`tav check FILE CERT` prints, or with --rest what `tav rest-check FILE CERT` does, with its status: 0 where CERT is accepted,
3 where FILE is missing or at fault, 4 where CERT is, 5 for other words, 6 where reading or writing fails, 7 for want of
memory. --parameters adds the line `parameters: ..` of `tav verify`; with --all the status is 2 in place of 0 where some pattern
isn't proved, or parameters are none or unknown. NAMES, with commas between, have no terms in quiet rest. --wide: wide limits.

A certificate is a tree of cases. A leaf multiplies some rows (each says `row >= 0`) and adds them; where the sum has no
positive coefficient and a negative constant, no natural numbers meet the rows, and the case can't come about. So read
`judge_leaf`, then `Start` and `System` (which rows), its `children` (which cases) and `order` (which guard may be asked for
before another), or for version 3 `Facts` and its `children`; then `follow`, which reads a tree, and last `Automaton`,
the reader. Of runs that have come to rest read `at_rest`, `of_rest`, `endings` too. A text from another hand is read within
the limits of `tav`; what is kept of a certificate is its longest line and less than four times the splits that are open.
"""

import copy
import getopt
import importlib
import os
import re
import sys
from array import array
from collections import namedtuple

ONE = ""  # the key of a form's constant
RANGE, LONGEST_CERTIFICATE, LARGEST, LONGEST_NAME, NESTED = 2**127, 2**30, 10**9, 64, 32


class Fault(Exception):
    """Why a text is refused."""


def need(fact, fault):
    if not fact:
        raise Fault(fault)


def combined(form, factor, other):
    """form + factor * other. A form has names of a file, or numbers of unknowns, as keys, and ONE for its constant."""
    total = dict(form)
    for key, coefficient in other.items():
        total[key] = total.get(key, 0) + factor * coefficient
    return {key: coefficient for key, coefficient in total.items() if coefficient}


def opposite(row):
    return combined({}, -1, row)


def negated(row):
    """The row that holds exactly where this one does not: -row - 1 >= 0."""
    return combined({ONE: -1}, -1, row)


# ---- the automaton file
Limits = namedtuple("Limits", "bytes line patterns parameters shared locations rules rise fall")
NARROW, WIDE = Limits(2**20, 2**20, 16, 16, 16, 32, 128, 16, 6), Limits(2**22, 2**23, 64, 32, 64, 128, 1024, 64, 16)
Rule = namedtuple("Rule", "name source target rise fall updates")
Event, Pattern = namedtuple("Event", "name after rows"), namedtuple("Pattern", "name start empty events")
Moment = namedtuple("Moment", "early late is_pair")  # two vectors, of a point the same one
PairSystem = namedtuple("PairSystem", "unknowns rows")
KINDS, FIRSTS = ("parameter", "shared", "location"), ("name", "number", "(", "-")
KEYWORDS = "automaton parameters shared locations initial processes resilience rule when do pattern start empty event after".split()
NAME = "[A-Za-z_][A-Za-z0-9_]*"
TOKEN = re.compile(
    rb"(?P<space>[ \t\r\n]+|#[^\n]*)|(?P<name>%s)|(?P<number>[0-9]+)"
    rb"|(?P<sign>\+=|->|<=|==|>=|[;,:{}()*+<>-])|(?P<other>[\x00-\xff])" % NAME.encode()
)


class Automaton:
    """What a file says, read by the grammar. A token has a kind (a keyword's or sign's is its text), a text, an offset.
    The first token that can't stand there, or passes a limit of lists, ends the reading; of the faults of what the tokens
    mean the first one is kept until all are read."""

    def __init__(self, text, limits=NARROW):
        self.limits, self.tokens, self.at, self.nested, self.faults, self.first = limits, [], 0, 0, 0, None
        for token in TOKEN.finditer(text):
            kind, word, at = token.lastgroup, token[0].decode(errors="replace"), token.start()
            need(kind != "other", f"F1 byte at offset {at}")
            if kind != "space":
                self.tokens.append((word if kind == "sign" or word in KEYWORDS else kind, word, at))
        self.tokens.append(("end", "", len(text)))
        self.kind_of, self.initial, self.rise, self.fall = {}, [], [], []
        self.name = self.clause("automaton", self.fresh)
        self.parameters = self.clause("parameters", lambda: self.listed(limits.parameters, lambda: self.place("parameter"), True))
        self.shared = self.clause("shared", lambda: self.listed(limits.shared, lambda: self.place("shared"), True))
        at, self.locations = self.at, self.clause("locations", lambda: self.listed(limits.locations, lambda: self.place("location")))
        self.note(self.initial, 12, "no initial location", at)
        self.processes = self.clause("processes", lambda: self.small(lambda: [self.sum(KINDS[:1])]))[0]
        self.resilience = self.clause("resilience", lambda: self.condition(KINDS[:1], True))
        self.rules = self.each("rule", limits.rules, self.rule)
        self.patterns = self.each("pattern", limits.patterns, self.pattern)
        self.take("end")
        need(self.first is None, self.first and self.first[2])
        self.need_no_cycle("F11 cycle with updates", lambda rule: rule.updates)

    def next(self):
        return self.tokens[self.at][0]

    def need(self, fact, fault):
        need(fact, f"{fault} at offset {self.tokens[self.at][2]}")

    def note(self, fact, code, fault, at):
        """Keeps a fault of what the tokens mean: the one with the least offset, at one offset that of the lowest code."""
        if not fact:
            found = self.tokens[at][2], code, f"F{code} {fault} at offset {self.tokens[at][2]}"
            self.faults, self.first = self.faults + 1, min(found, self.first or found)

    def take(self, *kinds):
        self.need(self.next() in kinds, "F2 syntax")
        self.at += 1
        return self.tokens[self.at - 1][1]

    def skip(self, kind):
        return self.next() == kind and self.take(kind) == kind

    def clause(self, keyword, read):
        self.take(keyword)
        found = read()
        self.take(";")
        return found

    def listed(self, most, one, may_be_absent=False, firsts=("name",)):
        """One thing or more, with commas between."""
        found = []
        while found or not (may_be_absent and self.next() == ";"):
            self.need(self.next() in firsts, "F2 syntax")
            self.need(len(found) < most, "F7 too many")
            found.append(one())
            if not self.skip(","):
                break
        return found

    def each(self, keyword, most, one):
        """Things that begin with a keyword each."""
        found = []
        while self.next() == keyword:
            self.need(len(found) < most, "F7 too many")
            self.take(keyword)
            found.append(one(found))
        return found

    def fresh(self, known=()):
        name = self.take("name")
        self.note(len(name) <= LONGEST_NAME, 6, "too large", self.at - 1)
        self.note(name not in known, 3, "duplicate name", self.at - 1)
        return name

    def used(self, kinds, once=(), kind_of=None):
        name, kind_of = self.fresh(once), self.kind_of if kind_of is None else kind_of
        self.note(name in kind_of, 4, "unknown name", self.at - 1)
        self.note(kind_of.get(name, kinds[0]) in kinds, 5, "wrong kind of name", self.at - 1)
        return name

    def number(self):
        digits = self.take("number").lstrip("0")
        number = int(digits or "0") if len(digits) <= 10 else 10 * LARGEST
        self.note(number <= LARGEST, 6, "too large", self.at - 1)
        return number

    def small(self, read):
        """The sums that are read. Notes one that passes the limit, but for one with a fault inside."""
        at, faults, sums = self.at, self.faults, read()
        is_small = all(abs(it) <= LARGEST for total in sums for it in total.values())
        self.note(is_small or self.faults > faults, 6, "too large", at)
        return sums

    def sum(self, kinds):
        total, sign = {}, -1 if self.skip("-") else 1
        while sign:
            for key, coefficient in self.small(lambda: [self.term(kinds)])[0].items():
                total[key] = total.get(key, 0) + sign * coefficient
            sign = {"+": 1, "-": -1}.get(self.next(), 0)
            self.at += bool(sign)
        return combined({}, 1, total)

    def term(self, kinds):
        number = 1
        if self.next() == "number":
            number = self.number()
            if not self.skip("*"):
                return {ONE: number}
        if self.next() != "(":
            return {self.used(kinds): number}
        self.need(self.nested < NESTED, "F8 too deep")
        self.nested += self.skip("(")
        body = self.sum(kinds)
        self.nested -= self.take(")") == ")"
        return combined({}, number, body)

    def comparison(self, kinds):
        """One row or two, each to be at least 0."""
        left = self.sum(kinds)
        relation, right = self.take("<", "<=", "==", ">=", ">"), self.sum(kinds)
        down, up, less = combined(left, -1, right), combined(right, -1, left), {ONE: -1}
        both = {"<": [combined(up, 1, less)], "<=": [up], "==": [down, up], ">=": [down], ">": [combined(down, 1, less)]}
        return both[relation]

    def condition(self, kinds=KINDS, may_be_absent=False):
        rows = self.listed(16, lambda: self.small(lambda: self.comparison(kinds)), may_be_absent, FIRSTS)
        return [row for found in rows for row in found]

    def guard(self, rule):
        """A comparison of a rule: a rise guard or a fall guard, numbered where it first appears."""
        at, faults, rows = self.at, self.faults, self.small(lambda: self.comparison(KINDS[:2]))
        signs = {it > 0 for name, it in rows[0].items() if name in self.shared}
        self.note(self.faults > faults or len(rows) == 1 and len(signs) < 2, 9, "not a threshold guard", at)
        if self.faults == faults:
            kind = "fall" if False in signs else "rise"
            guards, mine, most = (getattr(it, kind) for it in (self, rule, self.limits))
            if rows[0] not in guards:
                guards.append(rows[0])
            self.note(len(guards) <= most, 7, "too many", at)
            mine.add(guards.index(rows[0]))

    def endings(self):
        """Lets the last event of each pattern come after all its others, and gives a pattern without events one."""
        self.need_no_cycle("F14 longer cycle", lambda rule: rule.source != rule.target)
        for number, pattern in enumerate(self.patterns):
            *others, last = pattern.events or [Event("rest", set(), [])]
            self.patterns[number] = pattern._replace(events=others + [last._replace(after={it.name for it in others})])

    def quiet(self, names):
        """Tests that names may be silent: no guard subtracts them."""
        for name in names:
            need(name in self.kind_of, "F4 unknown name at offset 0")
            need(self.kind_of[name] != "location", "F5 wrong kind of name at offset 0")
        for number, row in enumerate(self.rise + self.fall):
            need(all(row.get(name, 0) >= 0 for name in names), f"F15 silent name is subtracted in guard {number}")

    def place(self, kind):
        name = self.fresh(self.kind_of)
        self.kind_of.setdefault(name, kind)
        if kind == "location" and self.skip("initial"):
            self.initial.append(name)
        return name

    def rule(self, earlier):
        name = self.fresh({it.name for it in earlier})
        self.take(":")
        source = self.used(["location"])
        self.take("->")
        rule = Rule(name, source, self.used(["location"]), set(), set(), {})
        if self.skip("when"):
            self.listed(16, lambda: self.guard(rule), firsts=FIRSTS)
        if self.skip("do"):
            self.listed(16, lambda: self.update(rule.updates))
        self.take(";")
        return rule._replace(updates={place: by for place, by in rule.updates.items() if by})

    def update(self, updates):
        name = self.used(["shared"], updates)
        self.take("+=")
        updates[name] = self.number()

    def pattern(self, earlier):
        name, start, empty = self.fresh({it.name for it in earlier}), [], set()
        self.take("{")
        if self.next() == "start":
            start = self.clause("start", self.condition)
        if self.next() == "empty":
            self.clause("empty", lambda: self.listed(self.limits.locations, lambda: empty.add(self.used(["location"], empty))))
        events = self.each("event", 8, self.event)
        self.take("}")
        return Pattern(name, start, empty, events)

    def event(self, earlier):
        known, after = dict.fromkeys((it.name for it in earlier), True), set()
        name = self.fresh(known)
        if self.skip("after"):
            self.listed(8, lambda: after.add(self.used([True], after, known)))
        self.take(":")
        rows = self.condition()
        self.take(";")
        return Event(name, after, rows)

    def need_no_cycle(self, fault, is_meant):
        for number, rule in enumerate(self.rules):
            reached = {rule.target}
            for _ in self.locations:
                reached |= {it.target for it in self.rules if it.source in reached}
            need(not is_meant(rule) or rule.source not in reached, f"{fault} at rule {number}")


# ---- the systems of a pattern
def value(row, places):
    """A row of a file as a row over unknowns, where each place is a form over these."""
    total = {ONE: row.get(ONE, 0)}
    for name in row.keys() - {ONE}:
        total = combined(total, row[name], places[name])
    return total


def fired(places, rules, counts):
    """The places when rules have fired; each count is a form."""
    places = dict(places)
    for rule, count in zip(rules, counts):
        for name, by in (rule.source, -1), (rule.target, 1), *rule.updates.items():
            places[name] = combined(places[name], by, count)
    return places


class Start:
    """The unknowns and rows of the beginning of a run. `moment` has the value of each place as a form over the unknowns;
    `moving` has the rules that can move somebody."""

    def __init__(self, automaton, pattern):
        self.automaton, self.pattern = automaton, pattern
        begins = [name for name in automaton.initial if name not in pattern.empty]
        self.unknowns = len(automaton.parameters + begins)
        self.moment = {name: {} for name in automaton.kind_of}
        self.moment.update({name: {number: 1} for number, name in enumerate(automaton.parameters + begins)})
        surplus = value(combined(automaton.processes, -1, dict.fromkeys(begins, 1)), self.moment)
        self.rows = [value(row, self.moment) for row in automaton.resilience] + [surplus, opposite(surplus)]
        self.rows += [value(row, self.moment) for row in pattern.start]
        ends = [{rule.source, rule.target} for rule in automaton.rules]
        self.moving = [rule for rule, it in zip(automaton.rules, ends) if len(it) == 2 and not it & pattern.empty]

    def fresh(self, rules):
        """A new unknown for each of some rules."""
        self.unknowns += len(rules)
        return [{number: 1} for number in range(self.unknowns - len(rules), self.unknowns)]

    def counters(self, places):
        return [places[name] for name in self.automaton.locations if name not in self.pattern.empty]


# ---- versions 1 and 2: words
def subsets(count):
    """The sets of numbers below a count, by rising mask."""
    return [{j for j in range(count) if mask >> j & 1} for mask in range(2**count)]


class System(Start):
    """The unknowns and rows of a word, but for its bounds. `moment` is at the word's end."""

    def __init__(self, automaton, pattern, start, before, rest=False):
        """The empty word, with a start set of fall guards; `before` has for each rise guard those that come first;
        `rest` tells whether a run is to have come to rest at the end of a complete word."""
        super().__init__(automaton, pattern)
        self.before, self.rest, self.events, self.rises, self.fallen = before, rest, set(), set(), start
        held = [value(row, self.moment) for row in automaton.fall]
        self.rows += [negated(row) if j in start else row for j, row in enumerate(held)] + self.at_rest()

    def at_rest(self):
        """The rows of rest at the end of a complete word: no other guard is true, and nobody can leave where he is."""
        if not self.rest or len(self.events) < len(self.pattern.events):
            return []
        held = [row for i, row in enumerate(self.automaton.rise) if i not in self.rises]
        moves = [it for it in self.automaton.rules if it.source != it.target]
        left = {it.source for it in moves if it.rise <= self.rises and not it.fall & self.fallen} - self.pattern.empty
        nobody = [opposite(self.moment[name]) for name in self.automaton.locations if name in left]
        return [negated(value(row, self.moment)) for row in held] + nobody

    def children(self, _="e"):
        """The elements that may follow, in order; none where every event has happened."""
        events = self.pattern.events
        if len(self.events) == len(events):
            return []
        ready = [("event", e) for e, it in enumerate(events) if it.name not in self.events and it.after <= self.events]
        rises = [("rise", i) for i, first in enumerate(self.before) if i not in self.rises and first <= self.rises]
        falls = [("fall", those) for those in subsets(len(self.automaton.fall)) if those and not those & self.fallen]
        return ready + rises + falls

    def longer(self, kind, which):
        """The system of the word with one more element."""
        new, fall = copy.copy(self), self.automaton.fall
        rules = [rule for rule in self.moving if rule.rise <= self.rises and not rule.fall & self.fallen]
        new.moment = fired(self.moment, rules, new.fresh(rules))
        rows = self.counters(new.moment)
        if kind == "event":
            new.events = self.events | {self.pattern.events[which].name}
            rows += [value(row, new.moment) for row in self.pattern.events[which].rows]
        elif kind == "rise":
            new.rises = self.rises | {which}
            rows.append(value(self.automaton.rise[which], new.moment))
        else:
            new.fallen = self.fallen | which
            single = {ONE: -1, **{new.unknowns + k: 1 for k in range(len(rules))}}
            rows += [value(fall[j], new.moment) for j in sorted(which)] + [single, opposite(single)]
            new.moment = fired(new.moment, rules, new.fresh(rules))
            rows += self.counters(new.moment) + [negated(value(fall[j], new.moment)) for j in sorted(which)]
        rows += [value(row, new.moment) for j, row in enumerate(fall) if j not in new.fallen]
        new.rows = self.rows + rows + new.at_rest()
        return new


# ---- version 3: questions
class Facts(Start):
    """The unknowns and rows of a list of facts about a run, but for bounds. A vector has for each moving rule a form: how
    often the rule fired before a position of the run. Guards are numbered: the rise guards, then the fall guards."""

    def __init__(self, automaton, pattern, last, silent=None):
        """No facts. `last` is the number of an event that no other comes after, or None where there is no event; the run is
        looked at up to there. Of a run that has come to rest `silent` has names, and otherwise is None."""
        super().__init__(automaton, pattern)
        self.silent, self.guards, self.asked, events = silent, automaton.rise + automaton.fall, set(), pattern.events
        self.moments = []
        for event in events:
            vector = self.fresh(self.moving)
            self.moments.append(Moment(vector, vector, False))
            self.rows += self.counters(places := self.at(vector)) + [value(row, places) for row in event.rows]
        for it, event in zip(self.moments, events):
            for other, earlier in zip(self.moments, events):
                self.rows += self.below(other.early, it.early) if earlier.name in event.after else []
        self.end = [{} for _ in self.moving] if last is None else self.moments[last].early
        for e, event in enumerate(events):
            self.rows += self.below(self.moments[e].early, self.end) if e != last and event.name not in events[last].after else []

    def at(self, vector):
        """The value of each place at a vector."""
        return fired(self.moment, self.moving, vector)

    def below(self, low, high):
        """The rows that say that one vector is at most another, but for those that can't fail."""
        rows = [combined(more, -1, less) for less, more in zip(low, high)]
        return [row for row in rows if any(it < 0 for it in row.values())]

    def guards_of(self, rule):
        return sorted(rule.rise) + sorted(len(self.automaton.rise) + j for j in rule.fall)

    def children(self, kind, one, other=0):
        """The answers of a question, in order. It is one of a guard that the file has, of two moments with the lower number
        first, or, of runs that have come to rest, of a rule by which somebody might leave; and it wasn't asked before."""
        question, count = (kind, one, other), 0
        if kind == "g" and one < len(self.guards):
            count = 2 if one < len(self.automaton.rise) else 3
        elif kind == "o" and one < other < len(self.moments):
            count = 3 if self.moments[one].is_pair and self.moments[other].is_pair else 2
        elif kind == "r" and one < len(self.automaton.rules):
            rule = self.automaton.rules[one]
            count = 1 + len(self.guards_of(rule)) if rule.source != rule.target and rule.source not in self.pattern.empty else 0
        return [(question, answer) for answer in range(count) if question not in self.asked]

    def longer(self, question, answer):
        """The facts with one more: that the question has this answer."""
        new, (kind, one, other) = copy.copy(self), question
        rows = new.of_order(one, other, answer) if kind == "o" else {"g": new.of_guard, "r": new.of_rest}[kind](one, answer)
        new.asked, new.rows = self.asked | {question}, self.rows + rows
        return new

    def of_guard(self, number, answer):
        """No rule that needs the guard fires. Or, of a rise guard: one does, and the moment is that before the first such
        firing. Of a fall guard: it holds at the end; or it doesn't, and the moment is the step of the last such firing."""
        guard, needs, end = self.guards[number], [number in self.guards_of(rule) for rule in self.moving], self.end
        if answer == 0:
            return [opposite(count) for count, it in zip(end, needs) if it]
        if answer == 1 and number >= len(self.automaton.rise):
            return [value(guard, self.at(end))]
        spared = iter(self.fresh([it for it in needs if not it]))
        early = [{} if it else next(spared) for it in needs]
        if answer == 1:
            self.moments = self.moments + [Moment(early, early, False)]
            return self.counters(self.at(early)) + [value(guard, self.at(early))] + self.below(early, end)
        fires = self.fresh([it for it in needs if it])
        steps, single = iter(fires), {ONE: -1, **{unknown: 1 for it in fires for unknown in it}}
        step = [next(steps) if it else {} for it in needs]
        early = [combined(last, -1, by) if by else count for count, last, by in zip(early, end, step)]
        late = [combined(count, 1, by) for count, by in zip(early, step)]
        self.moments = self.moments + [Moment(early, late, True)]
        rows = self.counters(self.at(early)) + [count for count, it in zip(early, needs) if it] + [value(guard, self.at(early))]
        rows += [single, opposite(single)] + self.counters(self.at(late)) + self.below(late, end)
        return rows + [negated(value(guard, self.at(end)))]

    def of_order(self, one, other, answer):
        """Two pairs are the same step; or one moment isn't after the other, or the other isn't after the one."""
        x, y = self.moments[one], self.moments[other]
        if x.is_pair and y.is_pair and answer == 0:
            pairs = (x.early, y.early), (y.early, x.early), (x.late, y.late), (y.late, x.late)
            return [row for pair in pairs for row in self.below(*pair)]
        first, then = (x, y) if answer == (x.is_pair and y.is_pair) else (y, x)
        return self.below(first.late, then.early)

    def of_rest(self, number, answer):
        """At the end nobody is at a rule's source, or one of its guards, without the terms of silent names, fails."""
        rule, places = self.automaton.rules[number], self.at(self.end)
        if answer == 0:
            return [opposite(places[rule.source])]
        guard = self.guards[self.guards_of(rule)[answer - 1]]
        return [negated(value({name: it for name, it in guard.items() if name not in self.silent}, places))]


# ---- the certificate
class Bounds:
    """The sides of the splits that are open, the last one last: as rows, and in 21 bytes each."""

    def __init__(self):
        self.unknowns, self.floors, self.sides = array("I"), array("Q"), bytearray()

    def __len__(self):
        return len(self.sides)

    def __getitem__(self, at):
        unknown, floor = self.unknowns[at], self.floors[2 * at] << 63 | self.floors[2 * at + 1]
        return {unknown: 1, ONE: -floor - 1} if self.sides[at] else {unknown: -1, ONE: floor}

    def split(self, unknown, floor):
        self.unknowns.append(unknown)
        self.floors.extend((floor >> 63, floor % 2**63))
        self.sides.append(0)

    def turn(self, kept):
        """Goes over to the other side of the last split whose low side this was; gives up those behind it, and says
        whether there is one behind the first few, which are kept."""
        while len(self) > kept and self.sides[-1]:
            self.sides.pop(), self.unknowns.pop(), self.floors.pop(), self.floors.pop()
        if len(self) > kept:
            self.sides[-1] = 1
        return len(self) > kept


def judge_leaf(system, bounds, pairs):
    """The sum of the multiplied rows has no positive coefficient and a negative constant."""
    columns, rows = {ONE: []}, system.rows
    for number, multiplier in pairs:
        need(number < len(rows) + len(bounds), f"C4 no row {number}")
        for key, coefficient in (rows[number] if number < len(rows) else bounds[number - len(rows)]).items():
            columns.setdefault(key, []).append(multiplier * coefficient)
    for key in sorted(columns.keys() - {ONE}) + [ONE]:
        total, column = 0, system.unknowns if key == ONE else key
        for product in columns[key]:
            total += product
            need(max(abs(product), abs(total)) < RANGE, f"C7 outside 128 bits in column {column}")
        need(key == ONE or total <= 0, f"C5 positive at unknown {key}")
        need(key != ONE or total < 0, "C6 constant not negative")


FORMS = {"pattern": b"pattern N", "e": b"e", "s": b"s N N", "f": b"f(?: N:N)+", "end": b"end", "o": b"o N N", "g": b"g N", "r": b"r N"}
FORMS = {kind: re.compile(form.replace(b"N", b"(?:0|[1-9][0-9]{0,38})")) for kind, form in FORMS.items()}


def fits(kind, numbers):
    if kind != "f":
        return all(number < limit for number, limit in zip(numbers, (2**32, 2**126 if kind == "s" else 2**32)))
    rows = numbers[::2] + [2**32]
    return all(one < other for one, other in zip(rows, rows[1:])) and all(0 < it < RANGE for it in numbers[1::2])


class Lines:
    """The lines of a certificate, read one after another."""

    def __init__(self, file, longest):
        self.file, self.longest, self.number, self.left = file, longest, 0, LONGEST_CERTIFICATE

    def line(self):
        self.number += 1
        line = self.file.readline(self.longest + 1)
        self.left -= len(line)
        need(self.left >= 0, f"longer than {LONGEST_CERTIFICATE} bytes")
        need(line.endswith(b"\n"), "C1 malformed" if len(line) > self.longest else "C2 truncated")
        return line[:-1]

    def take(self, *kinds):
        """A line of one of these kinds, and its numbers."""
        line = self.line()
        for kind in kinds:
            if FORMS[kind].fullmatch(line):
                numbers = [int(digits) for digits in re.findall(b"[0-9]+", line)]
                if fits(kind, numbers):
                    return kind, numbers
        raise Fault("C1 malformed")


def order(automaton, before, lines, one, other):
    """Puts guard one before guard other. The leaf says that no numbers meet the resilience condition and the row of the
    other, and not that of the one: so in a run the one is true from the same moment on, or earlier."""
    guards, first = automaton.rise, [one]
    need(max(one, other) < len(guards), "C14 no such order")
    for guard in first:
        first += before[guard] - set(first)
    need(other not in first and one not in before[other], "C14 no such order")
    places = automaton.parameters + automaton.shared
    rows = automaton.resilience + [guards[other], negated(guards[one])]
    numbered = [{ONE if key == ONE else places.index(key): it for key, it in row.items()} for row in rows]
    numbers = lines.take("f")[1]
    judge_leaf(PairSystem(len(places), numbered), (), zip(numbers[::2], numbers[1::2]))
    before[other].add(one)


def follow(root, kinds, lines):
    """Reads a tree, its nodes in preorder. On the path to a node stand the nodes whose cases it is one of, each with the number
    of bounds that it had and the cases that are to come. Behind the cases of a node come the other sides of its splits."""
    path, bounds = [(root, 0, [])], Bounds()
    while path:
        (system, kept, cases), (kind, numbers) = path[-1], lines.take(*kinds)
        if kind == "s":
            need(numbers[0] < system.unknowns, "C9 no such unknown")
            bounds.split(*numbers)
            continue
        if kind == "f":
            judge_leaf(system, bounds, zip(numbers[::2], numbers[1::2]))
        else:
            cases.extend(reversed(system.children(kind, *numbers)))
            need(cases, "C8 extension of a complete word" if kind == "e" else "C15 no such question")
        while path and not cases and not bounds.turn(kept):
            path.pop()
            system, kept, cases = path[-1] if path else (None, 0, [])
        if cases:
            path.append((system.longer(*cases.pop()), len(bounds), []))


def lasts(pattern):
    """The events that no other comes after; None where there is no event."""
    earlier = set().union(*(event.after for event in pattern.events))
    return [e for e, event in enumerate(pattern.events) if event.name not in earlier] or [None]


def judge(automaton, lines, rest=False, silent=()):
    """The numbers of the patterns that a certificate proves. One of rest has no orders, and with silent names version 3."""
    proved, before = set(), [set() for _ in automaton.rise]
    is_wide = any(len(getattr(automaton, kind)) > getattr(NARROW, kind) for kind in NARROW._fields[3:])
    first, allowed = lines.line(), (3,) if silent or is_wide else (1, 3) if rest else (1, 2, 3)
    version = next((it for it in allowed if first == b"threshold-certificate %d" % it), None)
    need(version, "C1 malformed")
    kinds = ("s", "f", "g", "o", *("r" if rest else "")) if version == 3 else ("s", "f", "e")
    kind, numbers = lines.take(*("o",) if version == 2 else ("pattern", "end"))
    while kind == "o":
        order(automaton, before, lines, *numbers)
        kind, numbers = lines.take("o", "pattern", "end")
    while kind == "pattern":
        number = numbers[0]
        need(number < len(automaton.patterns), "C3 unknown pattern")
        need(number not in proved, "C11 repeated pattern")
        pattern, starts = automaton.patterns[number], subsets(len(automaton.fall)) if version < 3 else ()
        for start in starts:
            follow(System(automaton, pattern, start, before, rest), kinds, lines)
        for last in lasts(pattern) if version == 3 else ():
            follow(Facts(automaton, pattern, last, silent if rest else None), kinds, lines)
        proved.add(number)
        kind, numbers = lines.take("pattern", "end")
    lines.number += 1
    need(not lines.file.read(1), "C10 trailing text" if lines.left else f"longer than {LONGEST_CERTIFICATE} bytes")
    return proved


# ---- the command
def told_of(words):
    """The options and the names of the two files, or None for other words."""
    try:
        pairs, names = getopt.gnu_getopt(words, "", ["rest", "silent=", "parameters", "all", "wide"])
    except getopt.GetoptError:
        return None
    options = dict(pairs)
    silent = options["--silent"].split(",") if "--silent" in options else []
    is_legal = all(re.fullmatch(NAME, it) and it not in KEYWORDS for it in silent) and ("--rest" in options or not silent)
    return (options, silent, *names) if is_legal and len(names) == 2 and len(options) == len(pairs) else None


def judged(options, silent, name, cert):
    """The lines of standard output, the line of standard error, and the status."""
    status, lines, rest, limits = 3, None, "--rest" in options, WIDE if "--wide" in options else NARROW
    try:
        with open(name, "rb") as it:
            text = it.read(limits.bytes + 1)
        need(len(text) <= limits.bytes, f"longer than {limits.bytes} bytes")
        automaton = Automaton(text, limits)
        if rest:
            automaton.endings()
            automaton.quiet(silent)
        name, status = cert, 4
        with open(name, "rb") as it:
            lines = Lines(it, limits.line)
            proved = judge(automaton, lines, rest, silent)
        sys.path.insert(0, os.path.dirname(os.path.abspath(__file__)))
        is_asked = {"--parameters", "--all"} & options.keys()
        parameters = importlib.import_module("parameters").line_of(automaton) if is_asked else ""
        report = [f"automaton {automaton.name}"] + ([parameters] if "--parameters" in options else [])
        for number, pattern in enumerate(automaton.patterns):
            report.append(f"pattern {pattern.name}: {'' if number in proved else 'not '}{'rest ' if rest else ''}proved")
        is_whole = 0 < len(proved) == len(automaton.patterns) and parameters.startswith("parameters: sample")
        return report, None, 2 if "--all" in options and not is_whole else 0
    except (Fault, OSError) as fault:
        told = f"{fault} at line {lines.number}" if lines and not str(fault).startswith("longer") else fault
        why = told if isinstance(fault, Fault) else "missing" if isinstance(fault, FileNotFoundError) else "read failed"
        return [], f"tav: {name}: {why}", 6 if why == "read failed" else status
    except MemoryError:
        return [], "tav: out of memory", 7


def main(words):
    usage = ([__doc__.strip()], None, 0) if {"-h", "--help"} & set(words) else ([], __doc__.strip(), 5)
    told = told_of(words)
    lines, fault, status = judged(*told) if told else usage
    try:
        print("".join(line + "\n" for line in lines), end="", flush=True)
    except OSError:
        fault, status = "tav: output failed", 6
        os.dup2(os.open(os.devnull, os.O_WRONLY), 1)
    if fault:
        print(fault, file=sys.stderr)
    return status


if __name__ == "__main__":
    sys.exit(main(sys.argv[1:]))
