"""What the scripts for users share: files read by the second judge's reader, the words of a file as it has them, runs,
and `tav` itself. No script: it is imported by those that lie beside it.

A script is a function of its words that returns its status; whatever goes wrong on the way is a `Stop` with a status
as `tav`'s: 3 where FILE is at fault, 4 where another input is, 5 for other words, 6 where reading or writing fails.
"""

import importlib.machinery
import importlib.util
import os
import re
import shutil
import subprocess
import sys

sys.dont_write_bytecode = True
TOOLS = os.path.dirname(os.path.abspath(__file__))
sys.path.insert(0, TOOLS)
import check_certificate as judge  # noqa: E402  (it lies beside this file)

Fault = judge.Fault
ONE = judge.ONE
KEYWORDS = (
    "automaton parameters shared locations initial processes resilience rule when do pattern start empty event after".split()
)


class Stop(Exception):
    """Ends a script with a status and a line on standard error."""

    def __init__(self, status, told):
        super().__init__(told)
        self.status, self.told = status, told


def script(name):
    """A script of this folder, as a module."""
    path = os.path.join(TOOLS, name)
    found = importlib.util.spec_from_loader(name, importlib.machinery.SourceFileLoader(name, path))
    module = importlib.util.module_from_spec(found)
    found.loader.exec_module(module)
    return module


def perform(tool, help_text, main):
    """Runs a script, and ends the process."""
    words = sys.argv[1:]
    if "-h" in words or "--help" in words:
        print(help_text.strip())
        sys.exit(0)
    try:
        status = main(words)
        sys.stdout.flush()
    except Stop as stop:
        status = stop.status
        print(help_text.strip() if status == 5 and not stop.told else f"tools/{tool}: {stop.told}", file=sys.stderr)
    except BrokenPipeError:
        status = 6
        os.dup2(os.open(os.devnull, os.O_WRONLY), 1)
    except OSError as fault:
        status = 6
        print(f"tools/{tool}: {fault.filename}: {fault.strerror}", file=sys.stderr)
    sys.exit(status)


def options_of(words, valued=(), plain=()):
    """The options at any place, and the other words. A valued one takes the next word, or what stands behind `=`."""
    given, others, rest = {}, [], list(words)
    while rest:
        word = rest.pop(0)
        name, sign, value = word.partition("=")
        if word in plain:
            given[word] = True
        elif name in valued and (sign or rest):
            given[name] = value if sign else rest.pop(0)
        elif word.startswith("--"):
            raise Stop(5, "")
        else:
            others.append(word)
    return given, others


def number_of(text, least=1, most=10**9):
    if not re.fullmatch("[0-9]{1,10}", text) or not least <= int(text) <= most:
        raise Stop(5, "")
    return int(text)


# ---- files
def bytes_of(name, status, limit):
    """All bytes of a file; one that isn't there, or is too long, ends the script with this status."""
    try:
        with open(0 if name == "-" else name, "rb") as it:
            text = it.read(limit + 1)
    except FileNotFoundError:
        raise Stop(status, f"{name}: missing") from None
    except OSError as fault:
        raise Stop(6, f"{name}: {fault.strerror}") from None
    if len(text) > limit:
        raise Stop(status, f"{name}: longer than {limit} bytes")
    return text


def automaton_of(text, name, limits=judge.NARROW):
    try:
        return judge.Automaton(text, limits)
    except Fault as fault:
        raise Stop(3, f"{name}: {fault}") from None
    except RecursionError:
        raise Stop(3, f"{name}: F8 too deep") from None


def read_automaton(name, limits=judge.NARROW):
    """The bytes of a FILE, and its automaton."""
    text = bytes_of(name, 3, limits.bytes)
    return text, automaton_of(text, name, limits)


def pattern_of(automaton, name):
    for pattern in automaton.patterns:
        if pattern.name == name:
            return pattern
    raise Stop(4, f"no pattern {name} in the file: it has {', '.join(it.name for it in automaton.patterns) or 'none'}")


# ---- comments for scripts
COMMENTS = ("expect", "silent", "never", "next", "sums", "own", "across")
COMMENT = re.compile(r"#:[ \t]*(\w*)[ \t]*(.*?)[ \t\r]*$")


def told_in(text, name, word):
    """What the comments `#: WORD ..` of a file say: (the number of the line, what stands behind the word). No other words are taken."""
    found = []
    for number, line in enumerate(text.decode(errors="replace").split("\n"), 1):
        told = COMMENT.search(line)
        if told and told[1] not in COMMENTS:
            kinds = "`#:` begins an expectation: #: expect PATTERN safe; or names: #: silent f; or #: never rule r; or rounds: #: next E -> J"
            raise Stop(3, f"{name}:{number}: {kinds}")
        if told and told[1] == word:
            found.append((number, told[2]))
    return found


def listed_in(text, name, word):
    """What these comments list, with commas between and each once -> the number of its line."""
    found = {}
    for number, told in told_in(text, name, word):
        for part in (" ".join(it.split()) for it in told.split(",")):
            if not part or part in found:
                raise Stop(3, f"{name}:{number}: nothing, or a second time: #: {word} {part}")
            found[part] = number
    return found


# ---- the words of a legal file
PIECE = re.compile(r"#[^\n]*|[A-Za-z_][A-Za-z0-9_]*|[0-9]+|\+=|->|<=|==|>=|\S")


class Written:
    """What stands in a legal file, clause by clause, with single spaces and without comments: the text of each guard and
    update of a rule, and of each condition of a pattern."""

    def __init__(self, text):
        self.text = text.decode(errors="replace")
        self.pieces = [it for it in PIECE.finditer(self.text) if not it[0].startswith("#")]
        self.at, self.clauses = 0, {}
        self.rules, self.patterns, self.lines = {}, {}, {}
        while self.at < len(self.pieces):
            word = self.pieces[self.at][0]
            (self.pattern if word == "pattern" else self.clause)()

    def until(self, *ends):
        """The parts between commas, up to one of these signs."""
        parts, first = [], self.at
        while True:
            word = self.pieces[self.at][0]
            if word == "," or word in ends:
                if self.at > first:
                    parts.append(self.between(first, self.at - 1))
                first = self.at + 1
            self.at += 1
            if word in ends:
                return parts, word

    def between(self, first, last):
        text = self.text[self.pieces[first].start() : self.pieces[last].end()]
        return " ".join(re.sub(r"#[^\n]*", " ", text).split())

    def clause(self):
        keyword, start = self.pieces[self.at][0], self.pieces[self.at].start()
        self.at += 1
        if keyword != "rule":
            self.clauses[keyword] = self.until(";")[0]
            return
        name, head, end = self.pieces[self.at][0], *self.until("when", "do", ";")
        self.lines[name] = self.text.count("\n", 0, start) + 1
        when, do = [], []
        if end == "when":
            when, end = self.until("do", ";")
        if end == "do":
            do, end = self.until(";")
        self.rules[name] = (head[0].partition(":")[2].strip(), when, do)

    def pattern(self):
        start, name = self.pieces[self.at].start(), self.pieces[self.at + 1][0]
        self.at += 3
        found = {"start": [], "empty": [], "events": {}, "line": self.text.count("\n", 0, start) + 1}
        while self.pieces[self.at][0] != "}":
            keyword = self.pieces[self.at][0]
            self.at += 1
            if keyword == "event":
                event, after = self.pieces[self.at][0], []
                self.at += 1
                if self.until("after", ":")[1] == "after":
                    after = self.until(":")[0]
                found["events"][event] = (after, self.until(";")[0])
            else:
                found[keyword] = self.until(";")[0]
        self.at += 1
        self.patterns[name] = found


def guards_of(automaton, written):
    """The distinct guards, in order: (`rise` or `fall`, the number, the text where it first appears, the name of that rule)."""
    found = {}
    names = f"parameters {', '.join(automaton.parameters)}; shared {', '.join(automaton.shared)};"
    for rule in automaton.rules:
        for text in written.rules[rule.name][1]:
            alone = f"automaton a; {names} locations a_ initial, b_; processes 0; resilience; rule r: a_ -> b_ when {text};"
            guard = judge.Automaton(alone.encode())
            for kind, number in [("rise", i) for i in rule.rise] + [("fall", j) for j in rule.fall]:
                if getattr(automaton, kind)[number] in getattr(guard, kind):
                    found.setdefault((kind, number), (kind, number, text, rule.name))
    return [found[key] for key in sorted(found, key=lambda it: (it[0] == "fall", it[1]))]


# ---- runs
class Moment:
    """A configuration: the rule and the factor that led to it, the number of each place, and the events that are marked."""

    def __init__(self, rule, factor, numbers):
        self.rule, self.factor, self.numbers, self.marks = rule, factor, dict(numbers), []


def value_of(row, numbers):
    return sum(by * (1 if name == ONE else numbers[name]) for name, by in row.items())


class Run:
    """A run text, followed step by step as `tav replay` does, with its pattern and its moments."""

    def __init__(self, automaton, lines, name, first=1):
        self.automaton, self.name, self.lines = automaton, name, lines
        self.line, self.last = first, first + len(lines) - 1
        self.pattern = pattern_of(automaton, lines[0][4:])
        self.rules = {rule.name: rule for rule in automaton.rules}
        self.events = {event.name: event for event in self.pattern.events}
        self.numbers, self.marked, self.moments = dict.fromkeys(automaton.kind_of, 0), set(), []
        due = [("parameter", it) for it in automaton.parameters] + [("start", it) for it in automaton.initial]
        for text in lines[1:-1]:
            self.line += 1
            kind, word, number = self.words(text)
            if due:
                self.need((kind, word) == due[0], f"`{' '.join(due[0])}` is due, not `{text}`")
                self.numbers[due.pop(0)[1]] = number
                if not due:
                    self.begin()
            elif kind == "step":
                self.step(word, number)
            else:
                self.need(kind == "mark", f"out of its place: {text}")
                self.mark(word)
        self.line = self.last
        self.need(not due, "the run ends too early")
        left = [it for it in self.events if it not in self.marked]
        self.need(not left, f"no mark of {', '.join(left)}")

    def need(self, fact, why):
        if not fact:
            raise Stop(4, f"{self.name}:{self.line}: {why}")

    def words(self, text):
        """The kind of a line, its name and its number."""
        form = re.fullmatch(r"(parameter|start|step) (\w+) (0|[1-9][0-9]{0,38})|(mark) (\w+)", text, re.ASCII)
        self.need(form, f"no line of a run: {text}")
        return (form[1], form[2], int(form[3])) if form[1] else (form[4], form[5], None)

    def all_hold(self, rows, numbers):
        return all(value_of(row, numbers) >= 0 for row in rows)

    def begin(self):
        file, total = self.automaton, value_of(self.automaton.processes, self.numbers)
        self.need(self.all_hold(file.resilience, self.numbers), "the resilience condition is false")
        self.need(sum(self.numbers[it] for it in file.initial) == total, f"the start counts don't add up to {total}")
        self.need(self.all_hold(self.pattern.start, self.numbers), "the start condition is false")
        self.go_on(None, 0)

    def go_on(self, rule, factor):
        self.need(not any(self.numbers[it] for it in self.pattern.empty), "a location of `empty` isn't empty")
        self.moments.append(Moment(rule, factor, self.numbers))

    def step(self, name, factor):
        self.need(name in self.rules and factor, f"no rule {name}, or no factor above 0")
        rule = self.rules[name]
        several = factor if rule.source != rule.target else 1
        self.need(self.numbers[rule.source] >= several, f"too few processes in {rule.source}")
        before_last = {**self.numbers, **{it: self.numbers[it] + by * (factor - 1) for it, by in rule.updates.items()}}
        self.need(self.all_hold([self.automaton.rise[i] for i in rule.rise], self.numbers), f"a guard of {name} is false")
        self.need(self.all_hold([self.automaton.fall[j] for j in rule.fall], before_last), f"a guard of {name} is false")
        for place, by in (rule.source, -1), (rule.target, 1), *rule.updates.items():
            self.numbers[place] += by * factor
        self.go_on(rule, factor)

    def mark(self, name):
        self.need(name in self.events and name not in self.marked, f"no event {name}, or it is marked already")
        self.need(self.events[name].after <= self.marked, f"{name} is marked before an event that it comes after")
        self.need(self.all_hold(self.events[name].rows, self.numbers), f"event {name} is false here")
        self.marked.add(name)
        self.moments[-1].marks.append(name)


def runs_in(text):
    """The runs in a text, a run text or a report: (the lines of each, the number of its first line)."""
    lines, at, found = text.split("\n"), 0, []
    while at < len(lines):
        if lines[at].startswith("run ") and "end" in lines[at:]:
            end = lines.index("end", at)
            found.append((lines[at : end + 1], at + 1))
            at = end
        at += 1
    return found


def read_run(automaton, name, pattern=None):
    """The run of a pattern in a file, or its first run, followed."""
    for lines, first in runs_in(bytes_of(name, 4, 2**24).decode(errors="replace")):
        if pattern in (None, lines[0][4:]):
            return Run(automaton, lines, name, first)
    raise Stop(4, f"{name}: no run of {pattern} in it" if pattern else f"{name}: no run in it")


# ---- tav
def program_of(given):
    """The program: the one that is given, `tav` on the path, or the one that `rt ci` built."""
    built = os.path.join(os.path.dirname(TOOLS), "crates/tav/out/tav")
    found = given or shutil.which("tav") or (built if os.access(built, os.X_OK) else None)
    if not found or not shutil.which(found):
        raise Stop(6, f"no program {found or 'tav'}: put `tav` on the path, or say --tav PROGRAM")
    return found


def ask(program, *words):
    """The status, the standard output and the standard error of a command of `tav`."""
    ended = subprocess.run([program, *words], capture_output=True, text=True, errors="replace", check=False)
    return ended.returncode, ended.stdout, ended.stderr


VERDICT = re.compile(r"(?m)^pattern (\w+): (rest )?(safe|unsafe|unknown)\b(.*)$")


def verdicts_of(report):
    """(pattern -> verdict) of a report of `verify` or of `rest`."""
    return {name: verdict for name, _, verdict, _ in VERDICT.findall(report)}
