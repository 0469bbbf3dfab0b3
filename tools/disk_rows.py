"""What happens to files when things go wrong around `tav`: rows of tools/hostile over the real disk. No command.

OUT holds an old certificate. Whatever goes wrong, it holds afterwards the old one or the new one, whole, and nothing else is
left beside it; a process that is killed alone may leave a file OUT.tav-K. Where the status is 0 it is the new one; where it is
6 and OUT can't be begun nothing was printed, and else the report is whole.
"""

import os
import re
import resource
import shutil
import signal
import stat
import subprocess
import tempfile
import threading
import time

TOP = os.path.dirname(os.path.dirname(os.path.abspath(__file__)))
SECONDS = 20
# the calls of the system that a file in the making needs, or may need
CALLS = """openat read write close fsync fdatasync rename renameat renameat2 unlink unlinkat newfstatat fstat statx lseek
readlink readlinkat ftruncate fchmod fchmodat link linkat""".split()
SMALL = "examples/reliable_broadcast.ta"


class Tried:
    """What a part of the table tried, what it saw, and what was wrong."""

    def __init__(self, what, seconds):
        self.what, self.tried, self.faults, self.seen = what, 0, [], {}
        self.until = time.monotonic() + seconds
        self.ended = False

    def goes_on(self):
        if time.monotonic() > self.until:
            self.ended = True
        return not self.ended

    def take(self, label, good, text):
        self.tried += 1
        self.seen[label] = self.seen.get(label, 0) + 1
        if not good:
            self.faults.append(text)


def answer(words, prefix=(), **how):
    """Status, standard output and standard error; a run that takes too long has status None."""
    try:
        ended = subprocess.run([*prefix, *words], cwd=TOP, capture_output=True, timeout=SECONDS, check=False, **how)
    except subprocess.TimeoutExpired:
        return None, b"", b""
    return ended.returncode, ended.stdout, ended.stderr


def written(path, content):
    with open(path, "wb") as it:
        it.write(content)
    return path


def content_of(name):
    with open(os.path.join(TOP, name), "rb") as it:
        return it.read()


class Room:
    """A folder in which a command writes OUT, with what it held, what it will hold, and the right answer."""

    def __init__(self, program, folder, file, command="verify"):
        self.program, self.folder, self.file = program, folder, file
        os.makedirs(folder, exist_ok=True)
        self.out, self.old = os.path.join(folder, "out.cert"), content_of("examples/kept.cert")
        self.words = [program, command, file, "--certificate", self.out]
        begun = time.monotonic()
        self.right = answer(self.words)
        self.seconds = time.monotonic() - begun
        self.new = self.held()
        if self.right[0] != 0 or self.new in (None, self.old):
            raise SystemExit(f"tools/hostile: {program} makes no certificate of {file}: {self.right}")
        self.reset()

    def reset(self):
        for name in os.listdir(self.folder):
            path = os.path.join(self.folder, name)
            if os.path.isdir(path) and not os.path.islink(path):
                shutil.rmtree(path)
            else:
                os.remove(path)
        written(self.out, self.old)

    def held(self, path=None):
        try:
            with open(path or self.out, "rb") as it:
                return it.read()
        except OSError:
            return None

    def left(self):
        return [name for name in os.listdir(self.folder) if ".tav-" in name]

    def fits(self, ended, may_leave=False):
        """Whether what stands after a status may stand there."""
        status, out, err = ended
        err = re.sub(rb"(?m)^==.*\n", b"", err)  # what a program with checks of its own says where it can't find its name
        ended, held, left = (status, out, err), self.held(), self.left()
        if left and not may_leave:
            return False
        if status == self.right[0]:
            return ended == self.right and held == self.new
        if status == 127 and b"error while loading" in err:
            return held == self.old and out == b""
        if status == 7:
            return held == self.old and out == b"" and err in (b"", b"tav: out of memory\n")
        if status != 6 or held not in (self.old, self.new):
            return False
        if err == b"tav: output failed\n":
            return self.right[1].startswith(out)
        if err == b"tav: %s: write failed\n" % os.fsencode(self.out):
            return out in (b"", self.right[1])
        return re.fullmatch(rb"tav: [^\n]*: read failed\n", err) is not None and out == b""

    def told(self, ended):
        """What was seen, in short."""
        held = self.held()
        said = "old" if held == self.old else "new" if held == self.new else f"torn {len(held)}" if held is not None else "gone"
        return f"{ended}, OUT is {said}, left {self.left()}"


def guards(folder, count):
    """The automaton of some of the guards of examples/seven_guards.ta."""
    more = "".join(str(number) for number in range(count + 1, 8))
    text = content_of("examples/seven_guards.ta")
    if more:
        text = re.sub(rb"rule [sg][%s]:.*\n|, x[%s]" % (more.encode(), more.encode()), b"", text)
    return written(os.path.join(folder, f"guards{count}.ta"), text)


def slow_room(program, folder):
    """A room whose command takes a tenth of a second at least, so that one can come between."""
    for count in range(3, 8):
        room = Room(program, os.path.join(folder, "slow"), guards(folder, count))
        if room.seconds > 0.1:
            break
    return room, count


# ---- killed
def killed(program, folder, pick, tried, count):
    """A program that is killed at a random moment: OUT is the old one or the new one. What it left is in nobody's way."""
    room, _ = slow_room(program, folder)
    while tried.tried < count and tried.goes_on():
        if tried.tried % 10 == 0:
            room.reset()
        written(room.out, room.old)
        child = subprocess.Popen(room.words, cwd=TOP, stdout=subprocess.DEVNULL, stderr=subprocess.DEVNULL)
        time.sleep(pick.random() * 1.2 * room.seconds)
        child.send_signal(pick.choice((signal.SIGKILL, signal.SIGTERM, signal.SIGINT)))
        child.wait()
        held = room.held()
        label = "old" if held == room.old else "new" if held == room.new else "torn"
        tried.take(label, label != "torn", f"killed: {room.told(child.returncode)}")
    room.reset()


def strace(words, call, rule):
    """Whether a call of a name was met by a rule, and the answer."""
    with tempfile.NamedTemporaryFile() as log:
        ended = answer(words, ["strace", "-f", "-qq", "-o", log.name, "-e", f"trace={call}", "-e", f"inject={call}:{rule}"])
        said = log.read()
    return b"(INJECTED)" in said or b"killed by" in said, ended


def each_call(tried, room, rule, take, calls=CALLS):
    """Tries a rule on each call of the system in turn."""
    if shutil.which("strace") is None:
        tried.seen["no strace here"] = 1
        return
    for call in calls:
        for number in range(1, 200):
            if not tried.goes_on():
                return
            room.reset()
            met, ended = strace(room.words, call, f"{rule}:when={number}")
            if not met:
                break
            take(call, number, ended)


def killed_at_calls(program, folder, tried, file, command):
    """A program that is killed at a call of the system: OUT is the old one or the new one."""
    room = Room(program, os.path.join(folder, "calls"), file, command)

    def take(call, number, ended):
        held = room.held()
        label = "old" if held == room.old else "new" if held == room.new else "torn"
        tried.take(label, label != "torn", f"{command} killed at {call} {number}: {room.told(ended)}")

    each_call(tried, room, "signal=KILL", take)


def search_room(program, folder):
    """A room whose command is a search with OUT and OUT2, and a function that says what these hold."""
    room = Room(program, os.path.join(folder, "calls"), "examples/echo_threshold.template", "search")
    filled = os.path.join(room.folder, "filled.ta")
    room.words += ["--filled", filled]
    answer(room.words)
    new = room.held(filled)
    return room, lambda: [
        {room.old: "old", room.new: "new"}.get(room.held(), "torn"),
        {None: "none", new: "new"}.get(room.held(filled), "torn"),
    ]


def killed_searches(program, folder, tried):
    """A search that is killed at a call of the system: OUT and OUT2 are old or new, and OUT2 is new before OUT is."""
    room, held = search_room(program, folder)

    def take(call, number, ended):
        both = held()
        good = "torn" not in both and (both[0] == "old" or both[1] == "new")
        tried.take(f"{both[0]} and {both[1]}", good, f"search killed at {call} {number}: {both} {ended}")

    each_call(tried, room, "signal=KILL", take)


def failing_searches(program, folder, tried):
    """Each call of the system fails in turn in a search: with status 6 OUT and OUT2 are as before, or OUT2 is new, or both are, where
    the last steps failed; nothing is left beside them."""
    room, held = search_room(program, folder)

    def take(call, number, ended):
        status, out, err = ended
        ended = status, out, re.sub(rb"(?m)^==.*\n", b"", err)
        both, left = held(), room.left() if not call.startswith("unlink") else []
        fits = "torn" not in both and (both[0] == "old" or both[1] == "new") and room.right[1].startswith(out)
        good = ended == room.right and both == ["new", "new"] or status == 6 and fits or status == 127 and both == ["old", "none"]
        tried.take(f"status {status}", good and not left, f"search, {call} {number} fails: {both} {left} {ended}")

    each_call(tried, room, "error=EIO", take)


# ---- calls that fail
def failing(program, folder, tried, error):
    """Each call of the system fails in turn: status 6, and OUT is the old one, or the new one where publishing failed."""
    room = Room(program, os.path.join(folder, "calls"), SMALL)

    def take(call, number, ended):
        good = room.fits(ended, may_leave=call.startswith("unlink"))
        tried.take(f"status {ended[0]}", good, f"{call} {number} fails by {error}: {room.told(ended)}")

    each_call(tried, room, f"error={error}", take)


def interrupted(program, folder, tried):
    """A read or a write that a signal interrupts is tried again: the whole answer."""
    room = Room(program, os.path.join(folder, "calls"), SMALL)

    def take(call, number, ended):
        good = ended[0] in (room.right[0], 127) and room.fits(ended)
        tried.take(f"status {ended[0]}", good, f"{call} {number} is interrupted: {room.told(ended)}")

    each_call(tried, room, "error=EINTR", take, ("read", "write"))


# ---- no room
def small_disk(program, folder, tried):
    """A disk of 16 KB, more or less of it taken: status 6, the report whole, OUT as before and nothing beside it."""
    room, place = Room(program, os.path.join(folder, "slow"), guards(folder, 5)), os.path.join(folder, "disk")
    os.makedirs(place, exist_ok=True)
    script = """mount -t tmpfs -o size=16k none "$1" || exit 99
cp "$2" "$1/out.cert" || exit 98
head -c "$3" /dev/zero > "$1/more"
"$4" verify "$5" --certificate "$1/out.cert" > "$6/said" 2> "$6/told"; echo $? > "$6/status"
cp "$1/out.cert" "$6/held"; ls "$1" > "$6/listed"
"""
    results = os.path.join(folder, "results")
    os.makedirs(results, exist_ok=True)
    for taken in (0, 4096, 8000, 12000, 20000):
        old = written(os.path.join(folder, "old.cert"), room.old)
        words = ["unshare", "-rm", "sh", "-c", script, "sh", place, old, str(taken), program, room.file, results]
        if shutil.which("unshare") is None or answer(words)[0] in (99, 98, 1):
            tried.seen["no small disk here"] = 1
            return
        said, told, status, held, listed = (room.held(os.path.join(results, it)) for it in ("said", "told", "status", "held", "listed"))
        whole = status == b"0\n" and held == room.new
        failed = status == b"6\n" and held == room.old and told == b"tav: %s/out.cert: write failed\n" % os.fsencode(place)
        good = (whole and said == room.right[1] or failed and said in (b"", room.right[1])) and b".tav-" not in listed
        tried.take(f"status {status.decode().strip()}", good, f"{taken} bytes taken: {status} {said} {told} {listed}, OUT has {len(held)} bytes")


def short_files(program, folder, pick, tried, count):
    """Files may have a few bytes alone, and OUT is as before: the signal SIGXFSZ ends the program, before anything is printed, and may
    leave a file beside OUT, as docs/FORMATS.md says; where it is ignored the status is 6, and the report whole."""
    room = Room(program, os.path.join(folder, "calls"), SMALL)
    for number in range(count):
        if not tried.goes_on():
            return
        room.reset()
        limit, ignored = pick.randrange(len(room.new)), number % 2 == 1
        limits = lambda: resource.setrlimit(resource.RLIMIT_FSIZE, (limit, limit))
        ended = answer(room.words, preexec_fn=limits, restore_signals=not ignored)  # this script ignores it, as Python does
        told = ended[0], ended[1], re.sub(rb"(?m)^==.*\n", b"", ended[2])
        right = told == (6, room.right[1], b"tav: %s: write failed\n" % os.fsencode(room.out)) and not room.left()
        killed = not ignored and told == (-signal.SIGXFSZ, b"", b"")
        tried.take(f"status {ended[0]}", (right or killed) and room.held() == room.old, f"{limit} bytes: {room.told(ended)}")


# ---- other processes
def two_processes(program, folder, tried, count):
    """Two processes with one OUT: it is the one's or the other's."""
    room, number = slow_room(program, folder)
    other = Room(program, room.folder, guards(folder, number - 1))
    for _ in range(count):
        if not tried.goes_on():
            break
        room.reset()
        pair = [subprocess.Popen(it.words, cwd=TOP, stdout=subprocess.PIPE, stderr=subprocess.PIPE) for it in (room, other)]
        ended = [(*child.communicate(timeout=10 * SECONDS), child.returncode) for child in pair]
        good = all(it == (*one.right[1:], one.right[0]) for it, one in zip(ended, (room, other)))
        held = room.held()
        label = "the one's" if held == room.new else "the other's" if held == other.new else "torn"
        tried.take(label, good and label != "torn" and not room.left(), f"two processes: {ended} {room.told('')}")
    room.reset()


def renamed(program, folder, pick, tried, count):
    """OUT is renamed away while it is written: each name holds one certificate, whole."""
    room, _ = slow_room(program, folder)
    away = os.path.join(room.folder, "away.cert")
    for _ in range(count):
        if not tried.goes_on():
            break
        room.reset()
        child = subprocess.Popen(room.words, cwd=TOP, stdout=subprocess.PIPE, stderr=subprocess.PIPE)
        time.sleep(1.3 * pick.random() * room.seconds)
        os.rename(room.out, away)
        said, told = child.communicate(timeout=10 * SECONDS)
        ended, both = (child.returncode, said, told), (room.held(), room.held(away))
        good = both in ((room.new, room.old), (None, room.new)) and ended == room.right and not room.left()
        tried.take("before it was put" if both[0] else "behind it", good, f"renamed: {room.told(ended)}, away {len(both[1])} bytes")
    room.reset()


# ---- names
def names(program, folder, tried):
    """What OUT is another name of: what was read stays; a link stays one; what is no regular file takes the bytes at the end."""
    text = content_of(SMALL)
    room = Room(program, os.path.join(folder, "names"), written(os.path.join(folder, "a.ta"), text))
    inside = lambda name: os.path.join(room.folder, name)
    verify = lambda out: [program, "verify", inside("a.ta"), "--certificate", out]

    def fresh():
        room.reset()
        written(inside("a.ta"), text)
        os.symlink("a.ta", inside("link.ta"))
        os.link(inside("a.ta"), inside("hard.ta"))
        written(inside("copy.ta"), text)
        os.mkdir(inside("sub"))
        os.symlink("../out.cert", inside("sub/way.cert"))
        os.chmod(room.out, 0o640)

    def take(name, ended, wanted, held=room.old, **more):
        good = ended == wanted and room.held() == held and room.held(inside("a.ta")) == text == room.held(inside("copy.ta"))
        good = good and not room.left() and not [it for it in os.listdir(inside("sub")) if ".tav-" in it] and all(more.values())
        tried.take(f"status {ended[0]}", good, f"{name}: {room.told(ended)}, wanted {wanted} {more}")

    for out in ("link.ta", "hard.ta", "copy.ta", "sub/../a.ta", "./a.ta"):
        fresh()
        told = b"tav: %s: holds what was read\n" % os.fsencode(inside(out))
        take(f"OUT is FILE as {out}", answer(verify(inside(out))), (4, b"", told))
    fresh()
    ended = answer(verify(inside("a.ta")))
    take("OUT is FILE by its name", ended[:2], (ended[0] if ended[0] in (4, 5) else 5, b""))
    for out in ("nowhere/x.cert", "sub", "a.ta/x.cert"):
        fresh()
        told = b"tav: %s: write failed\n" % os.fsencode(inside(out))
        take(f"OUT can't be begun, {out}", answer(verify(inside(out))), (6, b"", told))
    fresh()
    ended = answer(verify(inside("sub/way.cert")))
    mode, is_link = stat.S_IMODE(os.stat(room.out).st_mode), os.path.islink(inside("sub/way.cert"))
    take("OUT is a link", ended, room.right, room.new, link=is_link, mode=mode == 0o640)
    fresh()
    take("OUT is there", answer(verify(room.out)), room.right, room.new, mode=stat.S_IMODE(os.stat(room.out).st_mode) == 0o640)
    fresh()
    take("OUT is full", answer(verify("/dev/full")), (6, room.right[1], b"tav: /dev/full: write failed\n"))
    fresh()
    take("OUT is standard output", answer(verify("/dev/stdout")), (room.right[0], room.right[1] + room.new, b""))
    fresh()
    os.mkfifo(inside("pipe"))
    came = []
    reader = threading.Thread(target=lambda: came.append(content_of(inside("pipe"))), daemon=True)
    reader.start()
    ended = answer(verify(inside("pipe")))
    reader.join(1)
    take("OUT is a pipe", ended, room.right, came=came == [room.new])
    fresh()
    with open("/dev/full", "wb") as full:
        child = subprocess.run(verify(room.out), cwd=TOP, stdout=full, stderr=subprocess.PIPE, timeout=SECONDS, check=False)
    take("the report can't be printed", (child.returncode, b"", child.stderr), (6, b"", b"tav: output failed\n"))
    for name, words, status in (
        ("FILE is at fault", [program, "verify", "examples/kept.cert", "--certificate", room.out], 3),
        ("FILE is missing", [program, "verify", inside("no.ta"), "--certificate", room.out], 3),
        ("other words", [program, "verify", inside("a.ta"), "--certificate", room.out, "--more"], 5),
    ):
        fresh()
        ended = answer(words)
        take(name, ended[:2], (status, b""))
    searches(program, room, inside, fresh, take)
    leftovers(program, folder, room, inside, fresh, tried)


def searches(program, room, inside, fresh, take):
    """`search` with OUT and OUT2: neither is the template, and they don't lead to one place."""
    template = "examples/echo_threshold.template"
    fresh()
    search = lambda filled, out: [program, "search", template, "--filled", filled, "--certificate", out]
    right = answer(search(inside("filled.ta"), room.out))
    filled, new = room.held(inside("filled.ta")), room.held()
    fresh()
    take("search", answer(search(inside("filled.ta"), room.out)), right, new, filled=room.held(inside("filled.ta")) == filled and bool(filled))
    # OUT and OUT2 lead to one place, whether a file is there or not: each is as before
    for there in (True, False):
        for out in ("same", "./filled.ta", "sub/../filled.ta", "way/filled.ta", "way/same", "twice"):
            fresh()
            os.symlink("filled.ta", inside("same"))
            os.symlink("same", inside("twice"))
            os.symlink(".", inside("way"))
            if there:
                written(inside("filled.ta"), b"old\n")
            told = b"tav: %s: holds what was written\n" % os.fsencode(inside(out))
            ended, held = answer(search(inside("filled.ta"), inside(out))), b"old\n" if there else None
            take(f"OUT is OUT2 as {out}", ended, (4, b"", told), filled=room.held(inside("filled.ta")) == held)
            ended = answer(search(inside(out), inside("filled.ta")))
            told = b"tav: %s: holds what was written\n" % os.fsencode(inside("filled.ta"))
            take(f"OUT2 is OUT as {out}", ended, (4, b"", told), filled=room.held(inside("filled.ta")) == held)
    # a hard link is another name in the folder: both texts stand
    fresh()
    written(inside("filled.ta"), b"old\n")
    os.link(inside("filled.ta"), inside("hard.cert"))
    ended = answer(search(inside("filled.ta"), inside("hard.cert")))
    take("OUT is OUT2 by a hard link", ended, right, filled=room.held(inside("filled.ta")) == filled, out=room.held(inside("hard.cert")) == new)
    # what is no regular file takes both, OUT2 first
    fresh()
    ended = answer(search("/dev/stdout", "/dev/fd/1"))
    take("OUT and OUT2 are standard output", ended, (right[0], right[1] + filled + new, b""))
    for which in ("filled", "out"):
        fresh()
        here, there = written(inside("t.template"), content_of(template)), inside("l.template")
        os.symlink("t.template", there)
        words = [program, "search", here, "--filled", there if which == "filled" else inside("f.ta")]
        words += ["--certificate", room.out if which == "filled" else there]
        told = b"tav: %s: holds what was read\n" % os.fsencode(there)
        take(f"the template is {which}", answer(words), (4, b"", told), template=room.held(here) == content_of(template))


def leftovers(program, folder, room, inside, fresh, tried):
    """What a killed process left stays, and another name is taken; a certificate has the safe patterns' trees alone."""
    fresh()
    written(room.out + ".tav-0", b"left\n")
    ended = answer([program, "verify", inside("a.ta"), "--certificate", room.out])
    good = ended == room.right and room.held() == room.new and room.left() == ["out.cert.tav-0"]
    tried.take(f"status {ended[0]}", good and room.held(room.out + ".tav-0") == b"left\n", f"OUT.tav-0 is taken: {room.told(ended)}")
    for file in ("examples/quorum.ta", "examples/two_phase_commit.ta", "examples/retry.ta"):
        for nodes in (1, 2, 3, 5, 8, 13, 21, 1000):
            if not tried.goes_on():
                return
            fresh()
            status, said, _ = answer([program, "verify", file, "--nodes", str(nodes), "--certificate", room.out])
            safe = re.findall(rb"(?m)^pattern (\w+): safe", said)
            judged = answer([os.path.join(TOP, "tools/check_certificate.py"), file, room.out])
            proved = re.findall(rb"(?m)^pattern (\w+): proved", judged[1])
            good = status in (0, 1, 2) and judged[0] == 0 and proved == safe
            tried.take(f"status {status}", good, f"{file} with {nodes} nodes: {status} {said} {judged}")


# ---- inputs that once went wrong
def kept_inputs(program, tried):
    """The cases of tools/kept: the words (a name behind @ is of that folder), the status, and what is told."""
    folder = os.path.join(TOP, "tools", "kept")
    for name in sorted(os.listdir(folder)):
        if name.endswith(".case") and tried.goes_on():
            words, status, *told = content_of(os.path.join(folder, name)).decode().rstrip("\n").split("\n")
            ended = answer([program, *(re.sub("^@", folder + "/", word) for word in words.split())])
            said = (ended[1] + ended[2]).decode(errors="replace").replace(folder + "/", "@").rstrip("\n").split("\n")
            tried.take(f"status {ended[0]}", (str(ended[0]), said) == (status, told or [""]), f"{name}: {ended}")
