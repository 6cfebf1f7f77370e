"""The toolchain's gate, run with the time before each of its lines, and the processor time of its parts by crates.

The gate is one process; each proof, edit, test, build and run is a child of it. When a child ends, the system adds its time to
the gate's count of ended children. That count and the living children are read twice a second. So nothing is lost: a child gets
what it was last seen to have taken, and those that ended between two readings share what the count grew by besides. What no
child was seen to take is called other: the gate itself, and commands shorter than that.
"""
import collections
import os
import re
import resource
import subprocess
import threading
import time

PARTS = ("proofs", "edits", "tests", "builds", "runs", "other")
TABLE = "out/times"
SECONDS = 0.5
TICKS = os.sysconf("SC_CLK_TCK")
BEGUN = time.monotonic()


def run(words):
    """Runs the gate and prints its lines but the last. Gives its status, its last line and the seconds of its crates and parts."""
    before = processor_time()
    try:
        gate = subprocess.Popen(words, stdin=subprocess.DEVNULL, stdout=subprocess.PIPE, stderr=subprocess.STDOUT)
    except OSError as fault:
        print(f"{words[0]}: {fault.strerror}")
        return 127, "0 passed, 1 failed", collections.Counter()
    with gate:
        meter = Meter(gate.pid)
        meter.start()
        last = said_at = None
        for line in gate.stdout:
            if last is not None:
                print(said_at, last, flush=True)
            last, said_at = line.decode("utf-8", "backslashreplace").rstrip("\n"), time.strftime("%H:%M:%S")
        meter.has_ended.set()
        meter.join()
    return gate.returncode, last or "", meter.shares(processor_time() - before)


def processor_time():
    """The seconds of processor that all commands took which have ended."""
    used = resource.getrusage(resource.RUSAGE_CHILDREN)
    return used.ru_utime + used.ru_stime


class Meter(threading.Thread):
    """Reads what the gate's children take, until it has ended."""

    def __init__(self, gate):
        super().__init__()
        self.gate, self.has_ended = gate, threading.Event()
        self.taken = collections.Counter()
        self.living, self.work = {}, {}
        self.counted = self.unshared = 0.0

    def run(self):
        while not self.has_ended.wait(SECONDS):
            self.read()

    def read(self):
        # The gate's count is read first, so that no child is both counted and living.
        found = processes()
        if self.gate not in found:
            return
        counted = found[self.gate].ended
        living = {(pid, each.begun): time_below(pid, found) for pid, each in found.items() if each.parent == self.gate}
        for child in living:
            if self.work.get(child, OTHER) == OTHER:
                self.work[child] = work_of(child[0])
        ended = [child for child in self.living if child not in living]
        self.unshared += counted - self.counted - sum(self.living[child] for child in ended)
        for child in ended:
            self.taken[self.work.pop(child)] += self.living[child] + max(self.unshared, 0.0) / len(ended)
        self.unshared = min(self.unshared, 0.0)
        self.counted, self.living = counted, living

    def shares(self, whole):
        """The seconds of each crate and part, of so many in all."""
        for child, seconds in self.living.items():
            self.taken[self.work[child]] += seconds
        self.taken[OTHER] += whole - sum(self.taken.values())
        return self.taken


OTHER = ("", "other")
Process = collections.namedtuple("Process", "parent begun own ended")


def processes():
    """Each process: its parent, when it began, the seconds that it took, and those of its children that ended."""
    found = {}
    for pid in filter(str.isdigit, os.listdir("/proc")):
        try:
            with open(f"/proc/{pid}/stat", encoding="utf-8", errors="replace") as file:
                fields = file.read().rpartition(")")[2].split()
        except OSError:
            continue
        own, ended = (sum(map(int, fields[at:at + 2])) / TICKS for at in (11, 13))
        found[int(pid)] = Process(int(fields[1]), fields[19], own, ended)
    return found


def time_below(pid, found):
    """What a process, its children and theirs have taken."""
    below = [other for other, each in found.items() if each.parent == pid]
    return found[pid].own + found[pid].ended + sum(time_below(other, found) for other in below)


def work_of(pid):
    """The crate and the part that a child of the gate works for, by its words and its folder."""
    try:
        with open(f"/proc/{pid}/cmdline", encoding="utf-8", errors="replace") as file:
            words = file.read().split("\0")
        folder = os.readlink(f"/proc/{pid}/cwd")
    except OSError:
        return OTHER
    ran = re.search(r"/rt-run-[^/]+/bin/(\w+?)(_tests)?\0", "\0".join(words))
    if ran:
        return ran[1], "runs"
    is_crates = os.path.dirname(folder) == os.path.abspath("crates")
    if "--crate-name" not in words:
        is_linker = any(os.path.basename(word) in ("rattle-link", "llvm-nm") for word in words)
        return (os.path.basename(folder), "builds") if is_crates and is_linker else OTHER
    name = words[words.index("--crate-name") + 1]
    if not is_crates:
        return name, "edits"
    return name, "tests" if "--test" in words else "builds" if "--crate-checked" in words else "proofs"


def report(times):
    """Prints what each crate took, all and the parts, and writes the table of the crates, in seconds of a processor."""
    parts = {part: sum(seconds for (_, each), seconds in times.items() if each == part) for part in PARTS}
    crates = collections.defaultdict(dict)
    for (name, part), seconds in times.items():
        if name:
            crates[name][part] = seconds
    lines = ["| Crate | " + " | ".join(part.capitalize() for part in PARTS[:-1]) + " |", "|---" * len(PARTS) + "|"]
    for name, row in sorted(crates.items(), key=lambda each: -sum(each[1].values())):
        lines.append(f"| `{name}` | " + " | ".join(f"{row[part]:.0f}" if row.get(part, 0) >= 0.5 else "" for part in PARTS[:-1]) + " |")
    os.makedirs(os.path.dirname(TABLE), exist_ok=True)
    with open(TABLE, "w", encoding="utf-8") as file:
        file.write("\n".join(lines) + "\n")
    print(*lines, sep="\n")
    print(f"in all {minutes(time.monotonic() - BEGUN)} of wall time, {minutes(sum(parts.values()))} of processor time")
    print("processor time: " + ", ".join(f"{part} {minutes(seconds)}" for part, seconds in parts.items()) + f"; by crates in {TABLE}")


def minutes(seconds):
    return "%d min %02d s" % divmod(round(seconds), 60)
