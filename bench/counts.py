"""What each command asks by the order of writes, and what the program makes of it: bench/counts [PROGRAM].

The commands are those of one session on a folder of 1,000 entries. Without a program only what is asked is printed. With one, the session runs under
strace: each line is sent when the one before is answered, so each system call belongs to the line whose bytes were read last.
"""

import collections
import os
import re
import shutil
import subprocess
import sys
import tempfile

import floor
import workloads
from kinds import KINDS

KEY = "https://example.test/r/{:06d}"


def digits(count):
    return "5a" * count


# What a line shows, where it is a row of the table, and the line.
LINES = [
    ("Create", "create 0 new"),
    ("Write, the first 100 bytes of a stream", f"write 0 0 0 {digits(100)}"),
    ("Write over 10 of them", f"write 0 0 50 {digits(10)}"),
    ("Write that moves them to larger blocks", f"write 0 0 100 {digits(2000)}"),
    ("Write, the first 20 KiB of a stream", f"write 0 1 0 {digits(20480)}"),
    ("Write after them", f"write 0 1 20480 {digits(100)}"),
    ("Close of a changed object", "close 0"),
    ("Open at the head of the list", "open 0 new"),
    ("Close of an unchanged object", "close 0"),
    ("Open in the middle of the list", f"open 0 {KEY.format(500)}"),
    ("Read at the head of the list", "read 0 0 0 100"),
    ("Write over 10 bytes of a clean object", f"write 0 0 0 {digits(10)}"),
    ("Flush of a changed object", "flush 0"),
    ("Size", "size 0 0"),
    (None, "close 0"),
    ("Open at the end of the list", f"open 0 {KEY.format(0)}"),
    ("Open of a missing key", "open 1 missing"),
    ("Doom of an open object", "doom 0"),
    ("Close of a doomed object", "close 0"),
    ("DoomKey of an object with a stream", f"doomkey {KEY.format(700)}"),
    (None, "create 0 sparse"),
    ("SparseWrite of 4 KiB, the first", f"swrite 0 0 {digits(4096)}"),
    ("SparseWrite of 4 KiB to a part that is there", f"swrite 0 8192 {digits(4096)}"),
    ("SparseWrite of 4 KiB to another part", f"swrite 0 1048576 {digits(4096)}"),
    ("SparseRange over two parts", "srange 0 4096 1048576"),
    ("SparseRead of 4 KiB", "sread 0 0 4096"),
    (None, "close 0"),
    ("Total", "total"),
    ("Trim that evicts one entry", "trim {bytes}"),
]



def write_folder_script(path):
    with open(path, "w", encoding="ascii") as script:
        for number in range(1000):
            script.write(f"create 0 {KEY.format(number)}\nwrite 0 0 0 {digits(100)}\nclose 0\n")


def asked(script):
    """The steps that each line asks, and the lines as they are sent."""
    model = floor.Floor()
    for line in open(script, encoding="ascii"):
        model.line(line)
    model.opening([1])
    steps, lines = [], []
    for _, line in LINES:
        line = line.format(bytes=model.bytes - 1)
        model.steps = []
        model.line(line)
        steps.append(model.steps)
        lines.append(line + "\n")
    return steps, lines


def play(program, folder, lines, trace):
    """Sends the lines one by one to a session under strace, each when the one before is answered."""
    words = ["strace", "-o", trace, "-s", "0", program, folder, "session"]
    with subprocess.Popen(words, stdin=subprocess.PIPE, stdout=subprocess.PIPE) as ran:
        for line in lines:
            ran.stdin.write(line.encode())
            ran.stdin.flush()
            while ran.stdout.readline().startswith(b"evicted"):
                pass
        ran.stdin.close()


def made(lines, trace):
    """How many system calls of each name belong to each line."""
    ends = [0]
    for line in lines:
        ends.append(ends[-1] + len(line))
    found = [collections.Counter() for _ in range(len(lines) + 1)]
    place = at = 0
    for line in open(trace, encoding="ascii", errors="replace"):
        name = re.match(r"(\w+)\(", line)
        if not name:
            continue
        read = re.match(r'read\(0, .* = (\d+)$', line)
        if read:
            place += int(read[1])
            at = next(i for i, end in enumerate(ends) if place <= end)
            if read[1] == "0":
                break
        found[at][name[1]] += 1
    return found[1:]


def print_asked(steps):
    print("| Command | writes | of them data | as single words | lengths, files | reads | writes, lengths and files by rule |")
    print("|---|---|---|---|---|---|---|")
    for (label, _), of in zip(LINES, steps):
        if label:
            n = floor.counts(of)
            rules = collections.Counter(step.rule for step in of if step.kind != "read")
            rules = ", ".join(f"{rule} {count}" for rule, count in rules.items())
            reads = ", ".join(f"{rule}" for rule in dict.fromkeys(step.rule for step in of if step.kind == "read"))
            others = n["length"] + n["make"] + n["delete"]
            cells = [label, n["word"] + n["data"], n["data"], n["words"] + n["data"], others, f"{n['read']} ({reads})" if reads else 0, rules or "-"]
            print("| " + " | ".join(map(str, cells)) + " |")


def print_made(steps, found):
    print("\n| Command | pwrites asked | " + " | ".join(KINDS) + " | other | pwrites beside |")
    print("|---" * (len(KINDS) + 4) + "|")
    for (label, _), of, calls in zip(LINES, steps, found):
        if label:
            n = floor.counts(of)
            writes = n["word"] + n["data"]
            columns = {name: sum(calls[it] for it in names) for name, names in KINDS.items()}
            other = sum(calls.values()) - sum(columns.values())
            print(f"| {label} | {writes} | " + " | ".join(map(str, columns.values())) + f" | {other} | {columns['pwrites'] - writes} |")


def main():
    with tempfile.TemporaryDirectory() as room:
        script = f"{room}/script"
        write_folder_script(script)
        steps, lines = asked(script)
        print_asked(steps)
        if len(sys.argv) < 2:
            return
        if not shutil.which("strace"):
            print("skipped: strace is missing")
            return
        program, folder = os.path.abspath(sys.argv[1]), f"{room}/folder"
        os.mkdir(folder)
        with open(script, "rb") as given:
            subprocess.run([program, folder, "session"], stdin=given, stdout=subprocess.DEVNULL, check=True)
        play(program, folder, lines, f"{room}/trace")
        print_made(steps, made(lines, f"{room}/trace"))


if __name__ == "__main__":
    main()
