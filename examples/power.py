#!/usr/bin/env python3
"""Runs random scripts one after another over a folder, kills half of the runs, and looks for what was lost.

usage: examples/power.py PROGRAM [CHECKER] [--count N] [--seed S] [--only K] [--cuts F]

PROGRAM is `tiered`, CHECKER is `trace_check`. There are N sequences (2,000), numbered from 0; each is
2 to 5 runs over one folder and depends on S (1), F and its number alone. K runs one of them.

Every run's script is written after the run before it ended. It begins by starting each broker,
electing the registry's leader and fetching each committed offset; then random commands come; at the
end it fetches each offset from each broker. Half of the runs are killed: the process is traced, and
killed by its number as it enters a random one of the calls that change files. What it would have
answered is known from a run of the same script over a copy of the folder. The part F of the kills (0.5)
are power cuts: names and bytes that weren't synced by then are lost, each with a chance of one half.

After each run:

- The registry's epoch, high watermark and log start offset haven't fallen, and a killed run's are
  no higher than those of the same run to its end.
- The next run answers as it must: each broker is down, and comes up with at least the log that it
  acknowledged; the registry's leader leads the next epoch; each offset from the log start offset to
  the high watermark is fetched, in batches that are byte for byte those that a finished run fetched.
- `audit` finds each tier sound: what a killed copy or deletion leaves is in progress for it.
  Now and then, and after the last run, `sweep` and another `audit` follow.
- CHECKER, if given, finds the traces of the runs before the first killed one to be complete runs of
  the model, one after another.

At the first loss the folder is kept, with the script and the trace of each run, and a copy of what the
last run began with. The exit status is 1 then. Needs Linux on x86-64, and leave to trace a child.
"""
import argparse
import ctypes
import os
import random
import shutil
import signal
import struct
import subprocess
import sys
import tempfile

TIMEOUT = 120
CHANGING = {1: "write", 18: "pwrite64", 20: "writev", 74: "fsync", 75: "fdatasync", 76: "truncate", 77: "ftruncate"}
CHANGING |= {82: "rename", 83: "mkdir", 84: "rmdir", 85: "creat", 87: "unlink", 258: "mkdirat", 263: "unlinkat"}
CHANGING |= {264: "renameat", 316: "renameat2"}
OPENING = {2: (14, "rsi"), 257: (13, "rdx")}  # open and openat, and the register that holds the flags
CREATES = os.O_CREAT | os.O_TRUNC
TRACEME, CONT_TO_CALL, GETREGS, SETOPTIONS = 0, 24, 12, 0x4200
SYSGOOD, EXITKILL = 1, 0x100000
REGISTERS = ["r15", "r14", "r13", "r12", "rbp", "rbx", "r11", "r10", "r9", "r8", "rax", "rcx", "rdx", "rsi", "rdi"]
REGISTERS += ["orig_rax", "rip", "cs", "eflags", "rsp", "ss", "fs_base", "gs_base", "ds", "es", "fs", "gs"]
LIBC = ctypes.CDLL(None, use_errno=True)
LIBC.ptrace.argtypes = [ctypes.c_long, ctypes.c_long, ctypes.c_void_p, ctypes.c_void_p]
LIBC.ptrace.restype = ctypes.c_long


class Registers(ctypes.Structure):
    """The registers of a process that stands still."""

    _fields_ = [(name, ctypes.c_ulonglong) for name in REGISTERS]


class Loss(Exception):
    """Something that isn't as it must be."""


def must(holds, told):
    """Ends the sequence where something doesn't hold."""
    if not holds:
        raise Loss(told)


def trace(request, pid, data=0):
    """A request about a traced child."""
    if LIBC.ptrace(request, pid, None, data) < 0:
        sys.exit(f"power.py: a child can't be traced: {os.strerror(ctypes.get_errno())}")


def changes_files(pid):
    """Whether the call that a child enters changes files."""
    at = Registers()
    trace(GETREGS, pid, ctypes.addressof(at))
    if at.orig_rax in OPENING:
        return bool(getattr(at, OPENING[at.orig_rax][1]) & CREATES)
    return at.orig_rax in CHANGING


def syncs(pid):
    """The path that the call that a child enters syncs, if it does."""
    at = Registers()
    trace(GETREGS, pid, ctypes.addressof(at))
    return os.readlink(f"/proc/{pid}/fd/{at.rdi}") if CHANGING.get(at.orig_rax) in ("fsync", "fdatasync") else None


class Medium:
    """What of a folder's files is synced: the names of each folder, and the bytes of each file by its inode."""

    def __init__(self, folder):
        self.names, self.bytes, self.held = {}, {}, {}
        for path, _, files in os.walk(folder):
            self.sync(path)
            for name in files:
                self.sync(os.path.join(path, name))

    @staticmethod
    def listed(path):
        return {entry.name: entry.inode() for entry in os.scandir(path)} if os.path.isdir(path) else {}

    def hold(self, path):
        """Keeps a file open, so that no other one gets its inode. Gives the inode."""
        inode = os.stat(path).st_ino
        if inode not in self.held:
            self.held[inode] = os.open(path, os.O_RDONLY)
        return inode

    def sync(self, path):
        """A file or a folder is synced."""
        if os.path.isdir(path):
            self.names[path] = {name: self.hold(os.path.join(path, name)) for name in os.listdir(path)}
        elif os.path.isfile(path):
            with open(path, "rb") as f:
                self.bytes[self.hold(path)] = f.read()

    def close(self):
        for file in self.held.values():
            os.close(file)

    def lose(self, r, path):
        """Loses at random what isn't synced: new names, removals and bytes."""
        synced, now = self.names.get(path, {}), self.listed(path)
        for name in sorted(synced.keys() | now.keys()):
            whole = os.path.join(path, name)
            if synced.get(name) != now.get(name) and r.random() < 0.5:
                shutil.rmtree(whole) if os.path.isdir(whole) else name in now and os.remove(whole)
                if name in synced:
                    self.write(whole, self.bytes.get(synced[name], b""))
            elif os.path.isdir(whole):
                self.lose(r, whole)
            elif name in now:
                self.forget(r, whole, self.bytes.get(now[name], b""))

    def forget(self, r, path, synced):
        """A file has its synced bytes, those that were written since, or a part of what was appended."""
        with open(path, "rb") as f:
            now = f.read()
        if now.startswith(synced):
            self.write(path, now[: r.choice([len(synced), len(now), r.randint(len(synced), len(now))])])
        elif r.random() < 0.5:
            self.write(path, synced)

    @staticmethod
    def write(path, data):
        with open(path, "wb") as f:
            f.write(data)


def traced(words, script, out, last=None, medium=None):
    """Runs words over a script, and kills the process as it enters the call of number `last` that changes files.

    Gives its status, none where it was killed, and how many such calls it entered."""
    pid = os.fork()
    if pid == 0:
        os.dup2(os.open(script, os.O_RDONLY), 0)
        os.dup2(os.open(out, os.O_WRONLY | os.O_CREAT | os.O_TRUNC, 0o600), 1)
        os.dup2(os.open(out + ".err", os.O_WRONLY | os.O_CREAT | os.O_TRUNC, 0o600), 2)
        LIBC.ptrace(TRACEME, 0, None, None)
        os.execv(words[0], words)
    os.waitpid(pid, 0)
    trace(SETOPTIONS, pid, SYSGOOD | EXITKILL)
    calls, entering, passed, synced = 0, True, 0, None
    while True:
        trace(CONT_TO_CALL, pid, passed)
        _, how = os.waitpid(pid, 0)
        if os.WIFEXITED(how):
            return os.WEXITSTATUS(how), calls
        if os.WIFSIGNALED(how):
            return -os.WTERMSIG(how), calls
        stop = os.WSTOPSIG(how)
        passed = 0 if stop in (signal.SIGTRAP | 0x80, signal.SIGTRAP) else stop
        if stop != signal.SIGTRAP | 0x80:
            continue
        if entering and changes_files(pid):
            calls += 1
            if calls == last:
                os.kill(pid, signal.SIGKILL)
                os.waitpid(pid, 0)
                return None, calls
        if medium:
            if synced and not entering:
                medium.sync(synced)
            synced = syncs(pid) if entering else None
        entering = not entering


class Registry:
    """What a partition's registry file says."""

    def __init__(self, data):
        must(data[:4] == b"TLR1", f"a registry begins with {data[:4]!r}")
        count, self.epoch, self.leader, self.mark, self.start, bits = struct.unpack(">HIHQQB", data[4:29])
        must(len(data) == 29 + 8 * count, f"a registry of {count} brokers has {len(data)} bytes")
        self.acked = struct.unpack(f">{count}Q", data[29:])
        self.in_sync = [b for b in range(count) if bits >> b & 1]
        must(self.leader in self.in_sync, "the registry's leader isn't in sync")

    def follows(self, other):
        """Whether it may come after another one. No election of these scripts is unclean."""
        return self.epoch >= other.epoch and self.mark >= other.mark and self.start >= other.start


def registry(folder, partition):
    """A partition's registry, or none where it has no file."""
    try:
        with open(os.path.join(folder, f"p{partition}", "reg", "registry"), "rb") as f:
            return Registry(f.read())
    except FileNotFoundError:
        return None


def batches(data):
    """The record batches of a fetched run: base offset, last offset and bytes."""
    while data:
        base, length = struct.unpack(">QI", data[:12])
        last = base + struct.unpack(">I", data[23:27])[0]
        yield base, last, data[: 12 + length]
        data = data[12 + length :]


class Lines:
    """A script in the making, and of each command where it stands."""

    def __init__(self, options):
        self.lines, self.counts, self.wanted = list(options), {}, []

    def give(self, actor, partition, broker, command, later=False):
        """A command's line. Gives its place in the trace: partition, actor, number."""
        number = self.counts.get(actor, 0)
        self.counts[actor] = number + 1
        self.lines.append(f"{'later ' if later else ''}{actor} {partition} {broker} {command}")
        return partition, actor, number

    def want(self, place, told, test):
        """What an answer must be."""
        self.wanted.append((place, told, test))

    def text(self):
        return "\n".join(self.lines) + "\n"


class Partition:
    """What is known of a partition: its registry, and each batch that a finished run fetched, by offset."""

    def __init__(self, number):
        self.number, self.registry, self.committed, self.end = number, None, {}, 0

    def opening(self, lines, brokers):
        """How a run begins: each broker comes up, and the registry's leader takes the next epoch."""
        p, known = self.number, self.registry
        if known is None:
            return
        for b in range(brokers):
            acked = known.acked[b]
            lines.want(lines.give(p, p, b, "flush"), f"broker {b} is down", lambda a: a == ["Down"])
            up = lines.give(p, p, b, "up")
            lines.want(up, f"broker {b} is up with {acked}", lambda a, n=acked: a[0] == "Up" and int(a[1]) >= n)
        leader, epoch = known.leader, known.epoch
        learn = lines.give(p, p, leader, "learn")
        lines.want(learn, "the leader has its epoch", lambda a: a in (["NeedsElection", f"{epoch}"], ["Leads", f"{epoch}"]))
        lines.want(lines.give(p, p, leader, "elect"), "it is elected", lambda a: a == ["Ok", f"{epoch + 1}"])
        lines.want(lines.give(p, p, leader, "learn"), "it leads", lambda a: a == ["Leads", f"{epoch + 1}"])
        for offset in range(known.start, known.mark):
            fetch = lines.give(p, p, leader, f"fetch {offset} 1")
            lines.want(fetch, f"offset {offset} is there", lambda a, o=offset: self.is_batch_of(a, o))
        for b in range(brokers):
            if b != leader:
                lines.give(p, p, b, "learn")
                lines.give(p, p, b, "join")

    def is_batch_of(self, answer, offset):
        """Whether an answer is a run that begins with the batch that holds the offset, the same as before."""
        if answer[0] != "Run":
            return False
        base, last, data = next(batches(bytes.fromhex(answer[5])))
        return base <= offset <= last and self.committed.get(base, data) == data

    def learn(self, folder, answers, finished):
        """Takes in what a run left and, where it finished, what it fetched."""
        now = registry(folder, self.number)
        if self.registry is not None:
            must(now is not None, f"partition {self.number} has no registry any more")
            must(now.follows(self.registry), f"the registry of partition {self.number} fell back")
        must(not finished or now is not None, f"partition {self.number} ran, and has no registry")
        self.registry = now
        for (partition, _, _), answer in answers.items() if finished else ():
            if partition == self.number and answer[0] == "Run":
                for base, last, data in batches(bytes.fromhex(answer[5])):
                    must(last < now.mark, f"offset {last} was fetched above the high watermark {now.mark}")
                    must(self.committed.get(base, data) == data, f"the batch at offset {base} is another one")
                    self.committed[base] = data


def random_command(r, p, brokers, values):
    """A command with its broker."""
    b = r.randrange(brokers)
    kind = r.choice(
        ["append"] * 8 + ["flush", "ack"] * 6 + ["copy"] * 5 + ["follow"] * 4 + ["trim"] * 3 + ["join", "learn", "roll"] * 2
        + ["expire", "raise", "elect", "stop", "up", "up", "shrink", "expand", "fetch", "offset", "clock", "pack", "copying"]
    )
    if kind == "append":
        records = [f"{r.choice([0, 1000, 2000, 5000])},-,:{next(values)}" for _ in range(r.choice([1, 1, 1, 2]))]
        return b, f"append {' '.join(records)}"
    more = {
        "clock": lambda: r.choice([0, 1000, 3000, 9000]),
        "follow": lambda: r.choice([1, 200, 1000]),
        "raise": lambda: r.randrange(12),
        "fetch": lambda: f"{r.randrange(12)} {r.choice([0, 100, 1000])}",
        "offset": lambda: r.choice(["earliest", "latest", "earliest_local", "latest_tiered", "at 1000", "at 3000"]),
        "pack": lambda: r.randrange(2),
        "copying": lambda: r.choice([0, 1, 1]),
    }
    broker = "-" if kind in ("clock", "pack", "copying") else b
    return broker, f"{kind} {more[kind]()}" if kind in more else kind


def options(r, brokers, partitions):
    """The options of a script."""
    yield f"brokers {brokers}"
    yield f"partitions {partitions}"
    yield f"segment_bytes {r.choice([100, 150, 200, 300, 1000])}"
    yield f"index_interval_bytes {r.choice([0, 100, 4096])}"
    yield f"local_retention_bytes {r.choice([-1, 0, 0, 100, 300])}"
    if r.random() < 0.3:
        yield f"retention_bytes {r.choice([0, 200, 500])}"
    if r.random() < 0.2:
        yield f"retention_ms {r.choice([0, 1000, 5000])}"


def script(r, parts, brokers, values):
    """The script of a run: its beginning, random commands, and a fetch of each offset from each broker."""
    lines = Lines(options(r, brokers, len(parts)))
    for part in parts:
        part.opening(lines, brokers)
    ends = [part.end for part in parts]
    for _ in range(r.choice([3, 10, 20, 40])):
        p = r.randrange(len(parts))
        broker, command = random_command(r, p, brokers, values)
        # Records go to the leader that the run began with, mostly: another one refuses them.
        if parts[p].registry and command.split()[0] in ("append", "flush", "ack", "copy") and r.random() < 0.6:
            broker = parts[p].registry.leader
        ends[p] += command.count(",:")
        actor = p + 8 * r.choice([0, 0, 0, 1, 2])
        lines.give(actor, p, broker, command, r.random() < 0.2)
        if r.random() < 0.2:
            lines.lines.append(f"turn {actor} {r.randint(1, 3)}")
    for part, end in zip(parts, ends):
        for b in range(brokers):
            for offset in range(end + 1):
                lines.give(part.number + 16, part.number, b, f"fetch {offset} 1")
        part.end = end
    return lines


def answers_of(path):
    """The answers of a trace by their places."""
    found = {}
    with open(path, encoding="ascii") as f:
        for line in f:
            words = line.split()
            if words[3] == "=":
                found[tuple(map(int, words[:3]))] = words[4:]
    return found


class Sequence:
    """Runs over one folder."""

    def __init__(self, program, checker, cuts, seed, number, room):
        self.program, self.checker, self.cuts, self.room = program, checker, cuts, room
        self.r = random.Random(f"{seed} {number}")
        self.folder = os.path.join(room, "folder")
        self.parts, self.finished, self.told = [], [], []

    def path(self, name):
        return os.path.join(self.room, name)

    def word(self, *words):
        """Runs an audit or a sweep."""
        done = subprocess.run([self.program, *words], capture_output=True, text=True, timeout=TIMEOUT)
        return done.returncode, done.stdout.split("\n")[:-1], done.stderr.strip()

    def audit(self, when):
        status, lines, error = self.word("audit", self.folder)
        bad = [line for line in lines if line.split()[1] != "sound"]
        must(status == 0 and not bad, f"{when}: the audit ends with {status} {bad} {error}")
        self.told.append(f"audit: {lines}")

    def sweep(self, when):
        status, lines, error = self.word("sweep", self.folder)
        must(status == 0, f"{when}: the sweep ends with {status} {error}")
        self.told.append(f"sweep: {lines}")
        self.audit(f"{when}, after a sweep")

    def whole(self, lines, folder, name):
        """A run to its end: its answers, and how many calls it made. They must be as the script wants them."""
        out = self.path(f"{name}.trace")
        status, calls = traced([self.program, "run", folder], self.path(f"{name}.script"), out)
        with open(out + ".err", encoding="utf-8", errors="replace") as f:
            error = f.read().strip()
        os.remove(out + ".err")
        must(status == 0, f"{name} ends with status {status}: {error}")
        answers = answers_of(out)
        for place, told, test in lines.wanted:
            answer = answers.get(place, ["nothing"])
            must(test(answer), f"{name}, command {place}: {' '.join(answer)[:80]}, and {told}")
        return answers, calls

    def run(self, number, brokers, partitions, values):
        """A run, killed or not."""
        name, kill = f"run{number}", self.r.random() < 0.5
        while len(self.parts) < partitions:
            self.parts.append(Partition(len(self.parts)))
        parts = self.parts[:partitions]
        lines = script(self.r, parts, brokers, values)
        with open(self.path(f"{name}.script"), "w", encoding="ascii") as f:
            f.write(lines.text())
        before = self.path("before")
        shutil.rmtree(before, ignore_errors=True)
        os.makedirs(self.folder, exist_ok=True)
        shutil.copytree(self.folder, before)
        if not kill:
            answers, calls = self.whole(lines, self.folder, name)
            self.told.append(f"{name}: finished, {calls} calls")
        else:
            copy = self.path("copy")
            shutil.copytree(self.folder, copy)
            answers, calls = self.whole(lines, copy, name)
            os.rename(self.path(f"{name}.trace"), self.path(f"{name}.uncut"))
            last = self.r.randint(1, calls)
            out = self.path(f"{name}.killed")
            medium = Medium(self.folder) if self.r.random() < self.cuts else None
            status, _ = traced([self.program, "run", self.folder], self.path(f"{name}.script"), out, last, medium)
            must(status is None, f"{name}: call {last} of {calls} wasn't reached: status {status}")
            if medium:
                medium.lose(self.r, self.folder)
                medium.close()
            self.told.append(f"{name}: {'power cut' if medium else 'killed'} at call {last} of {calls}")
            for part in parts:
                uncut, now = registry(copy, part.number), registry(self.folder, part.number)
                must(now is None or uncut.follows(now), f"{name}: the cut run's registry is ahead")
            shutil.rmtree(copy)
        for part in parts:
            part.learn(self.folder, answers, not kill)
        return not kill

    def chain(self):
        """Checks the traces of the runs before the first killed one."""
        if self.checker and self.finished:
            words = [self.path(f"{name}.{kind}") for name in self.finished for kind in ("script", "trace")]
            done = subprocess.run([self.checker, *words], capture_output=True, text=True, timeout=TIMEOUT)
            must(done.returncode == 0, f"the checker: {(done.stdout + done.stderr).strip()}")

    def go(self):
        """All runs. Gives how many, and how many of them were killed."""
        r = self.r
        brokers, runs, killed = r.choice([1, 1, 2, 3]), r.randint(2, 5), 0
        values = (f"v{n}" for n in range(1 << 20))
        for number in range(runs):
            whole = self.run(number, brokers, r.choice([1, 1, 2]), values)
            killed += not whole
            if whole and not killed:
                self.finished.append(f"run{number}")
            self.audit(f"run{number}")
            if number == runs - 1 or r.random() < 0.3:
                self.sweep(f"run{number}")
        # What the last run left is looked at once more, by a run of no commands but its beginning.
        lines = Lines([f"brokers {brokers}", f"partitions {len(self.parts)}"])
        for part in self.parts:
            part.opening(lines, brokers)
        with open(self.path("last.script"), "w", encoding="ascii") as f:
            f.write(lines.text())
        self.whole(lines, self.folder, "last")
        self.audit("last")
        self.chain()
        return runs, killed


def tell(done, runs, killed):
    print(f"{done} sequences, {runs} runs, {killed} of them killed, no loss", flush=True)


def main():
    words = argparse.ArgumentParser(usage=__doc__.split("\n\n")[1].removeprefix("usage: "))
    words.add_argument("program")
    words.add_argument("checker", nargs="?")
    words.add_argument("--count", type=int, default=2000)
    words.add_argument("--seed", type=int, default=1)
    words.add_argument("--only", type=int)
    words.add_argument("--cuts", type=float, default=0.5)
    given = words.parse_args()
    program, checker = os.path.abspath(given.program), given.checker and os.path.abspath(given.checker)
    numbers = range(given.count) if given.only is None else [given.only]
    done, runs, killed = 0, 0, 0
    for number in numbers:
        room = tempfile.mkdtemp(prefix=f"power-{given.seed}-{number}-")
        sequence = Sequence(program, checker, given.cuts, given.seed, number, room)
        try:
            ran, cut = sequence.go()
        except Loss as loss:
            print(f"sequence {number} of seed {given.seed}: {loss}")
            for line in sequence.told:
                print(f"  {line}")
            print(f"  kept: {room}", flush=True)
            return 1
        shutil.rmtree(room)
        done, runs, killed = done + 1, runs + ran, killed + cut
        if done % 100 == 0:
            tell(done, runs, killed)
    if done % 100:
        tell(done, runs, killed)
    return 0


sys.exit(main())
