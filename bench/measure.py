"""Runs each workload through the program and each peer, one after another and again, and prints tables of medians that docs/PERFORMANCE.md takes as they are."""

import array
import contextlib
import datetime
import os
import platform
import re
import shutil
import sqlite3
import statistics
import subprocess
import sys
import tempfile
import time

import floor
import workloads
from kinds import KINDS
from peers import STEPS

PART = int(os.environ.get("BENCH_PART", "1"))
TIMES = int(os.environ.get("BENCH_TIMES", "5"))
ONLY = os.environ.get("BENCH_ONLY", "")
HERE = os.path.dirname(os.path.abspath(__file__))
PEERS = ("sqlite-wal", "sqlite-off", "files")

# Those that keep what was written where their process is killed.
KEEPERS = ("sqlite-wal", "files")

# What is wanted at the most: of the floor's calls and of its seconds, of the seconds of `cat` for an opening, and of those of the best peer for large entries.
MOST_CALLS, MOST_SECONDS, MOST_OF_CAT, MOST_OF_PEER = 1.3, 1.5, 2, 1

HEADINGS = (
    "Workload",
    "Who",
    "Seconds",
    "of the processor",
    "System calls",
    "Peak MiB",
    "MiB on disk",
    "to the best peer",
    "pwrites",
    "preads",
    "calls to the floor",
    "time to the floor",
)

# Of which workloads LMDB does a part by its commands: it loads the entries, or it dumps all of them.
LMDB = {"1 small writes": "load", "2 reads": "dump", "3 large writes": "load"}


def ran(words, script, out):
    """Runs words with a script as input. Gives seconds, and seconds of the processor."""
    with open(script, "rb") as given, open(out, "wb") as said:
        start = time.perf_counter()
        child = subprocess.Popen(words, stdin=given, stdout=said)
        _, status, used = os.wait4(child.pid, 0)
        took = time.perf_counter() - start
        child.returncode = os.waitstatus_to_exitcode(status)
    if child.returncode not in (0, 1):
        sys.exit(f"status {child.returncode}: {' '.join(words)}")
    return took, used.ru_utime + used.ru_stime


def peak_of(words, script):
    """The most memory in kB, in a run of its own that is looked at every two milliseconds. What wait4 tells has that of the process which started it."""
    peak = 0
    with open(script, "rb") as given:
        child = subprocess.Popen(words, stdin=given, stdout=subprocess.DEVNULL)
        while child.poll() is None:
            with contextlib.suppress(OSError):
                found = re.search(r"VmHWM:\s+(\d+)", open(f"/proc/{child.pid}/status", encoding="ascii").read())
                peak = int(found[1]) if found else peak
            time.sleep(0.002)
    return peak


def system_calls(words, script, room):
    """The number of system calls by name, in a run of its own; nothing where strace is missing."""
    if not shutil.which("strace"):
        return {}
    with open(script, "rb") as given:
        subprocess.run(["strace", "-f", "-c", "-o", f"{room}/calls", *words], stdin=given, stdout=subprocess.DEVNULL, check=False)
    counts = {}
    for line in open(f"{room}/calls", encoding="ascii"):
        found = re.match(r" *[\d.]+ +[\d.]+ +\d+ +(\d+) +(?:\d+ +)?(\w+)$", line)
        if found and found[2] != "total":
            counts[found[2]] = int(found[1])
    return counts


def size_of(folder):
    """The bytes that the files of a folder take on the disk."""
    return sum(512 * os.stat(f"{at}/{name}").st_blocks for at, _, names in os.walk(folder) for name in names if name != "steps")


def write_dump(script, path, room_bytes):
    """Writes the entries of a script as mdb_load reads them."""
    with open(path, "w", encoding="ascii") as out:
        out.write(f"VERSION=3\nformat=bytevalue\ntype=btree\nmapsize={room_bytes}\nHEADER=END\n")
        for line in open(script, encoding="ascii"):
            word, *fields = line.split()
            if word == "create":
                out.write(f" {fields[1].encode().hex()}\n")
            elif word == "write":
                out.write(f" {fields[3]}\n")
        out.write("DATA=END\n")


def write_refused(script, path):
    """Writes a script again with a handle that none may have: each line is read and decoded, and refused without a call on the folder."""
    with open(path, "w", encoding="ascii") as out:
        for line in open(script, encoding="ascii"):
            word, _, *rest = line.split()
            out.write(" ".join([word, "5000", *rest]) + "\n")


def found_by_program(said):
    """How many reads of what the program said found an entry, and how many bytes they have."""
    found = size = 0
    with open(said, "rb") as lines:
        for line in lines:
            if line.startswith(b"data "):
                found += 1
                size += int(line.split(b" ", 2)[1])
    return found, size


class Row:
    """What was measured of one that does a workload."""

    def __init__(self):
        self.times = []
        self.disk = self.memory = 0
        self.calls = {}
        self.total = None

    def median(self):
        return [statistics.median(it) for it in zip(*self.times)]


class Bench:
    """A program, a room, and one workload after another."""

    def __init__(self, program, room):
        self.program, self.room = program, room
        self.goals, self.kinds, self.notes = [], [], []
        self.empty = f"{room}/empty"
        self.said = f"{room}/said"
        open(self.empty, "wb").close()

    # What is run.

    def folder_for(self, who):
        """A folder that is empty, or a copy of one that was made; nothing waits to be written to the disk."""
        folder = f"{self.room}/folder"
        shutil.rmtree(folder, ignore_errors=True)
        made = f"{self.room}/made-{'blkcache' if who in ('cat', 'text') else who}"
        if os.path.isdir(made):
            shutil.copytree(made, folder)
        else:
            os.mkdir(folder)
        if who == "floor":
            shutil.copy(f"{self.room}/steps", folder)
        os.sync()
        return folder

    def words_of(self, who, folder, work):
        limit = workloads.limit_of(work, PART)
        if who in ("blkcache", "text"):
            return [self.program, folder, "--max", str(limit), "--items", "131072", work.word]
        if who == "cat":
            return ["cat", *sorted(f"{folder}/{name}" for name in os.listdir(folder))]
        if who == "mdb_load":
            return ["mdb_load", "-f", f"{self.room}/dump", folder]
        if who == "mdb_dump":
            return ["mdb_dump", folder]
        within = [str(limit)] if work.limit == workloads.MIX_BYTES else []
        return [sys.executable, f"{HERE}/peers.py", who, folder, *within]

    def script_of(self, who, script):
        return f"{self.room}/refused" if who == "text" else script

    def measure(self, who, work, script):
        """Seconds and seconds of the processor, of the work alone where a peer times it; and what was found."""
        folder = self.folder_for(who)
        took = ran(self.words_of(who, folder, work), self.script_of(who, script), self.said)
        if who in ("blkcache", "text", "cat", "mdb_load", "mdb_dump"):
            return took, found_by_program(self.said) if who == "blkcache" else None, folder
        seconds, processor, found, size = open(self.said, encoding="ascii").read().split()
        return (float(seconds), float(processor)), (int(found), int(size)), folder

    # A workload.

    def prepare(self, work, everyone):
        """For each of those that need it, a folder in which the work before was done."""
        for who in (*everyone, "blkcache"):
            shutil.rmtree(f"{self.room}/made-{who}", ignore_errors=True)
        if not work.before:
            return
        script = f"{self.room}/before"
        workloads.make(work.before, script, PART)
        session = work._replace(word="session")
        for who in everyone:
            if who in ("floor", "cat", "text"):
                continue
            made = f"{self.room}/made-{who}"
            os.mkdir(made)
            if who == "mdb_dump":
                write_dump(script, f"{self.room}/dump", 1 << 31)
                ran(self.words_of("mdb_load", made, work), self.empty, self.said)
            else:
                ran(self.words_of(who, made, session), script, self.said)

    def ask(self, work, script):
        """The steps that the order of writes asks for the script, which go into a file."""
        model = floor.Floor(workloads.limit_of(work, PART))
        made = f"{self.room}/made-blkcache"
        lengths = []
        if work.before:
            for line in open(f"{self.room}/before", encoding="ascii"):
                model.line(line)
            lengths = [os.path.getsize(f"{made}/{name}") for name in os.listdir(made)]
        model.steps = []
        model.opening(lengths)
        for line in open(script, encoding="ascii"):
            model.line(line)
        model.end()
        numbers = {kind: number << 28 for number, kind in enumerate(STEPS)}
        with open(f"{self.room}/steps", "wb") as file:
            array.array("I", [numbers[step.kind] | step.size for step in model.steps]).tofile(file)
        return {**floor.counts(model.steps), "calls": floor.calls(model.steps)}

    def run(self, name, work):
        script = f"{self.room}/script"
        workloads.make(work.work, script, PART)
        everyone = ["blkcache", "text", *PEERS, "floor"] if work.work else ["blkcache", "cat"]
        write_refused(script, f"{self.room}/refused")
        if name in LMDB and shutil.which("mdb_load"):
            everyone.insert(-1, f"mdb_{LMDB[name]}")
            write_dump(script, f"{self.room}/dump", 1 << 31)
        self.prepare(work, everyone)
        asked = self.ask(work, script) if work.work else None
        rows = {who: Row() for who in everyone}
        answers = {}
        for _ in range(TIMES):
            for who in everyone:
                times, answers[who], folder = self.measure(who, work, script)
                rows[who].times.append(times)
                rows[who].disk = rows[who].disk or size_of(folder)
        self.count(rows, work, script, asked)
        self.print_rows(name, rows, asked)
        if work.work in (workloads.reads, workloads.mix):
            self.check_answers(name, answers)

    def check_answers(self, name, answers):
        """Notes a peer that found other entries than the program; where entries go the two may differ by some."""
        found = answers["blkcache"][0]
        for who in PEERS:
            if abs(answers[who][0] - found) > 2 + found // 50:
                self.notes.append(f"{name}: {who} found {answers[who][0]} entries, and blkcache {found}.")

    def count(self, rows, work, script, asked):
        """The system calls of each, less those of a start that its seconds haven't, and its peak memory."""
        start = sum(self.calls_of("none", work, script).values())
        for who, row in rows.items():
            if who == "floor":
                row.total = asked["calls"]
                row.calls = {"pwrite64": asked["word"] + asked["data"], "pread64": asked["read"]}
                continue
            given = self.script_of(who, script)
            row.calls = self.calls_of(who, work, given)
            row.total = sum(row.calls.values()) - (start if who in PEERS else 0)
            row.memory = peak_of(self.words_of(who, self.folder_for(who), work), given)

    def calls_of(self, who, work, script):
        return system_calls(self.words_of(who, self.folder_for(who), work), script, self.room)

    def print_rows(self, name, rows, asked):
        median = {who: row.median() for who, row in rows.items()}
        base = "floor" if asked else "cat"
        best = min((median[who][0] for who in rows if who in KEEPERS), default=median[base][0])
        for who, row in rows.items():
            took, used = median[who]
            is_floor = who == "floor"
            cells = [name, who, f"{took:.3f}", f"{used:.3f}", row.total or "-"]
            cells += ["-", "-"] if is_floor else [f"{row.memory / 1024:.0f}" if row.memory else "-", f"{row.disk / 2**20:.1f}"]
            cells.append(f"{took / best:.2f}")
            has_calls = row.calls and who in ("blkcache", "floor")
            cells += [row.calls.get(it, 0) if has_calls else "-" for it in ("pwrite64", "pread64")]
            cells += [f"{row.total / rows[base].total:.2f}" if row.total else "-", f"{took / median[base][0]:.2f}"]
            print("| " + " | ".join(map(str, cells)) + " |", flush=True)
        program = rows["blkcache"]
        if program.total:
            self.kinds.append((name, program.calls, asked))
        took = median["blkcache"][0]
        if base == "cat":
            self.goals.append((name, "seconds to `cat`", took / best, MOST_OF_CAT))
            return
        folder = took - median["text"][0]
        if program.total:
            self.goals.append((name, "calls to the floor", program.total / rows[base].total, MOST_CALLS))
        self.goals.append((name, "seconds to the floor", took / median[base][0], MOST_SECONDS))
        self.goals.append((name, "seconds less those of `text`, to the floor", folder / median[base][0], MOST_SECONDS))
        if name.startswith("3"):
            self.goals.append((name, "seconds to the best peer", took / best, MOST_OF_PEER))
            self.goals.append((name, "seconds less those of `text`, to the best peer", folder / best, MOST_OF_PEER))

    # What is told of all.

    def print_goals(self):
        print("\n| Workload | Goal | At most | Measured | Reached |\n|---|---|---|---|---|")
        for name, goal, measured, most in self.goals:
            print(f"| {name} | {goal} | {most} | {measured:.2f} | {'yes' if measured <= most else 'no'} |")

    def print_kinds(self):
        """The system calls of the program by their kinds, and after the folder's those that the floor has."""
        print("\nThe system calls of the program by their kinds, and in brackets those that the floor has:\n")
        print("| Workload | " + " | ".join(KINDS) + " | other |\n|---" + "|---" * (len(KINDS) + 1) + "|")
        for name, calls, asked in self.kinds:
            counts = {kind: sum(calls.get(it, 0) for it in names) for kind, names in KINDS.items()}
            other = sum(calls.values()) - sum(counts.values())
            if asked:
                floors = (asked["word"] + asked["data"], asked["read"], asked["length"] + 2 * asked["make"] + asked["delete"])
                counts.update({kind: f"{counts[kind]} ({of})" for kind, of in zip(KINDS, floors)})
            print(f"| {name} | " + " | ".join(map(str, counts.values())) + f" | {other} |")

    # What is measured beside.

    def print_starts(self):
        """What a start takes that isn't in the seconds of the peers and the floor, and what one of the program does, which is in its own."""
        print("\n| Start of a process | Seconds | System calls |\n|---|---|---|")
        work = workloads.Workload(None, None)
        for label, words in (
            ("blkcache without arguments", [self.program]),
            ("blkcache, a session without lines on a folder that was made", [self.program, f"{self.room}/folder", "session"]),
            ("python3 of the peers", self.words_of("none", self.folder_for("none"), work)),
        ):
            times = []
            for _ in range(max(TIMES, 2)):
                start = time.perf_counter()
                subprocess.run(words, stdin=subprocess.DEVNULL, stdout=subprocess.DEVNULL, check=False)
                times.append(time.perf_counter() - start)
            # The first session makes the folder.
            took = statistics.median(times[1:])
            print(f"| {label} | {took:.4f} | {sum(system_calls(words, self.empty, self.room).values()) or '-'} |")

    def print_costs(self):
        folder = self.folder_for("none")
        words = [sys.executable, f"{HERE}/peers.py", "costs", folder]
        costs = [subprocess.run(words, stdout=subprocess.PIPE, text=True, check=True).stdout.split() for _ in range(TIMES)]
        call, transaction = (statistics.median(map(float, it)) for it in zip(*costs))
        print(f"\nA write of one word takes {call:.2f} µs here, and a transaction of SQLite that puts 100 bytes {transaction:.1f} µs,")
        print(f"which is {transaction / call:.0f} such writes.")


def said_by(words):
    try:
        return subprocess.run(words, stdout=subprocess.PIPE, stderr=subprocess.DEVNULL, text=True, check=True, cwd=HERE).stdout.strip()
    except (OSError, subprocess.CalledProcessError):
        return ""


def print_machine(room):
    commit = said_by(["git", "rev-parse", "--short", "HEAD"]) or "of no known commit"
    changed = " with changes" if said_by(["git", "status", "--porcelain", "--", "../crates", "../crates.txt"]) else ""
    model = re.search(r"model name\s*: (.*)", open("/proc/cpuinfo", encoding="utf-8").read())
    system = said_by(["df", "--output=fstype", room]).split()[-1:]
    load = os.getloadavg()[0]
    name = model[1] if model else platform.machine()
    print(f"On {datetime.date.today():%d %B %Y}, commit {commit}{changed}, `BENCH_PART={PART} BENCH_TIMES={TIMES} bench/run PROGRAM`;")
    print(f"{os.cpu_count()} processors ({name}), Linux {platform.release()}, files on {' '.join(system)},")
    print(f"python {platform.python_version()}, SQLite {sqlite3.sqlite_version}; load at the start {load:.1f}.\n")


def main():
    program = os.path.abspath(sys.argv[1])
    with tempfile.TemporaryDirectory() as room:
        print_machine(room)
        print("| " + " | ".join(HEADINGS) + " |")
        print("|---" * len(HEADINGS) + "|")
        bench = Bench(program, room)
        for name, work in workloads.WORKLOADS.items():
            if name.startswith(ONLY):
                bench.run(name, work)
        bench.print_goals()
        if bench.kinds:
            bench.print_kinds()
        bench.print_starts()
        bench.print_costs()
        for note in bench.notes:
            print(f"\n{note}")
    for tool, package in (("strace", "strace"), ("mdb_load", "lmdb-utils")):
        if not shutil.which(tool):
            print(f"\nskipped: {tool} is missing ({package})")


if __name__ == "__main__":
    main()
