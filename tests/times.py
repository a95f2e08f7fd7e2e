"""Samples the processes of a gate, and tells what each of its parts took: see tests/times."""

import collections
import json
import os
import re
import subprocess
import sys
import time

TOP = os.path.dirname(os.path.dirname(os.path.abspath(__file__)))
TICKS = os.sysconf("SC_CLK_TCK")
BETWEEN = 0.25
BEGIN, END = "<!-- times -->", "<!-- end of times -->"
# What is below the table.
LEGEND = (
    "Processor seconds, and when each began and ended, in minutes and seconds since the gate began; a `+` where its end was not",
    "told. The edits of a crate, so many, are tried one after another, the first over nothing, each further one over what those",
    "before it proved, and then the crate itself.",
)
# The kinds of a crate's parts, in the order of the table's columns.
KINDS = ("proof", "tests", "edits")


class Part:
    """A proof, a proof of tests or the edits of a crate: processor seconds, when it began and ended by the clock, how many checks
    it was, how many edits the gate told of, and whether it told its end."""

    def __init__(self):
        self.seconds, self.began, self.ended, self.checks, self.edits, self.is_whole = 0.0, None, None, 0, 0, False

    def add(self, sample):
        self.seconds += sample["cpu"]
        self.began = min(self.began or sample["start"], sample["start"])
        self.ended = max(self.ended or sample["last"], sample["last"])
        self.checks += 1


# -- sampling


def booted():
    with open("/proc/stat") as it:
        return next(int(line.split()[1]) for line in it if line.startswith("btime"))


def busy():
    """Returns the processor seconds that the machine has been busy."""
    with open("/proc/stat") as it:
        user, nice, system, _, _, *interrupts = map(int, it.readline().split()[1:9])
    return (user + nice + system + sum(interrupts[:2])) / TICKS


def processes(boot):
    """Returns of each process, by its number and start: its parent, its start, its processor seconds with those of children that ended, and its memory."""
    found = {}
    for name in os.listdir("/proc"):
        if not name.isdigit():
            continue
        try:
            with open(f"/proc/{name}/stat") as it:
                fields = it.read().rpartition(")")[2].split()
        except OSError:
            continue
        cpu = sum(map(int, fields[11:15])) / TICKS
        found[int(name), int(fields[19])] = int(fields[1]), boot + int(fields[19]) / TICKS, cpu, 4096 * int(fields[21])
    return found


def below(found, root):
    """Returns those of the processes that are below the process with the number root."""
    parents = {pid: values[0] for (pid, _), values in found.items()}

    def is_below(pid):
        while pid in parents and pid != root:
            pid = parents[pid]
        return pid == root

    return {key: values for key, values in found.items() if key[0] != root and is_below(key[0])}


def described(key, values):
    """Returns the first sample of a process, or None where it is gone."""
    pid = key[0]
    try:
        with open(f"/proc/{pid}/cmdline", "rb") as it:
            words = it.read().decode(errors="replace").split("\0")
        return {"pid": pid, "ppid": values[0], "cmd": words, "cwd": os.readlink(f"/proc/{pid}/cwd"), "start": values[1], "cpu": 0, "rss": 0}
    except OSError:
        return None


def sample(gate, out):
    """Samples what is below the gate until it has ended, and writes a line for each process that ended."""
    seen, boot = {}, booted()
    while True:
        is_over = gate.poll() is not None
        alive = below(processes(boot), gate.pid)
        for key, values in alive.items():
            known = seen.get(key) or described(key, values)
            if known:
                seen[key] = known
                # (a process is seen first under the command of the one that began it)
                if not kind_of(known):
                    known.update({it: value for it, value in (described(key, values) or {}).items() if it in ("cmd", "cwd")})
                known.update(cpu=max(known["cpu"], values[2]), rss=max(known["rss"], values[3]), last=time.time())
        for key in [it for it in seen if is_over or it not in alive]:
            out.write(json.dumps(seen.pop(key)) + "\n")
        out.flush()
        if is_over:
            return
        time.sleep(BETWEEN)


def run_gate(log, samples, command):
    """Runs the command with the sampler beside it, and returns its status."""
    with open(log, "w") as said, open(samples, "w") as out:
        were, began = busy(), time.time()
        gate = subprocess.Popen(command or ["rt", "ci"], cwd=TOP, stdin=subprocess.DEVNULL, stdout=said, stderr=subprocess.STDOUT)
        sample(gate, out)
        spent = sum(os.times()[2:4])
        told = {"spent": spent, "began": began, "ended": time.time(), "busy": busy() - were, "processors": len(os.sched_getaffinity(0))}
        out.write(json.dumps(told) + "\n")
    return gate.returncode


# -- what was sampled


def read(samples):
    """Returns the samples of the gate's own children, and what was told of the whole of it."""
    with open(samples) as it:
        rows = [json.loads(line) for line in it]
    told = next((it for it in rows if "spent" in it), {})
    # a proof may have begun processes of its own; the gate is who began most proofs
    proofs = {it["pid"] for it in rows if kind_of(it)}
    starters = collections.Counter(it["ppid"] for it in rows if kind_of(it) and it["ppid"] not in proofs)
    if not starters:
        sys.exit(f"{samples} has no proof")
    gate = starters.most_common(1)[0][0]
    rows = [it for it in rows if it.get("ppid") == gate]
    told.setdefault("began", min(it["start"] for it in rows))
    told.setdefault("ended", max(it["last"] for it in rows))
    told.setdefault("spent", sum(it["cpu"] for it in rows))
    return rows, told


def kind_of(row):
    """Returns which crate and kind of part a sampled command of the prover belongs to, if to any."""
    words, cwd = row.get("cmd", []), row.get("cwd", "")
    if "--crate-name" not in words or words[1:2] not in (["build"], ["check"]):
        return None
    name = words[words.index("--crate-name") + 1]
    kind = "edits" if os.path.basename(cwd).startswith("rt-edit-") else "tests" if "--test" in words else "proof"
    return name, kind


def text_of(log):
    with open(log, errors="replace") as it:
        return it.read()


def parts_of(rows, said):
    """Returns the parts by crate and kind."""
    parts = collections.defaultdict(Part)
    for row in rows:
        key = kind_of(row)
        if key:
            parts[key].add(row)
    for name, tests in re.findall(r"^rt: (\w+)(: its tests are)? proved$", said, re.M):
        parts[name, "tests" if tests else "proof"].is_whole = True
    # (A run tells again of what an earlier one tried.)
    for name, _ in sorted(set(re.findall(r"^rt: must-fail (\w+)/(\S+):", said, re.M))):
        parts[name, "edits"].edits += 1
        parts[name, "edits"].is_whole = True
    return {key: part for key, part in parts.items() if part.checks}


def crates():
    """Returns the crates of the repository with those that each names, in the order of crates.txt."""
    with open(f"{TOP}/crates.txt") as it:
        lines = [line.partition(":") for line in it if line.strip() and not line.startswith("#")]
    names = [head.split()[0] for head, _, _ in lines]
    return {head.split()[0]: [it for it in tail.split() if it in names] for head, _, tail in lines}


def longest_way(parts):
    """Returns the crates of the longest way through the gate with the part of each, and its processor seconds."""
    known = crates()
    took = lambda name, kind: parts[name, kind].seconds if (name, kind) in parts else 0.0
    ways = {}

    def way(name):
        if name not in ways:
            seconds, before = max(((way(it)[0], way(it)[1]) for it in known[name]), key=lambda it: it[0], default=(0.0, []))
            ways[name] = seconds + took(name, "proof"), [*before, (name, "proof")]
        return ways[name]

    ends = []
    for name in known:
        seconds, steps = way(name)
        ends.append((seconds, steps))
        without, earlier = seconds - took(name, "proof"), steps[:-1]
        # (tests wait for the crates below, and edits for the proof and the tests)
        kind = max(("proof", "tests"), key=lambda it: took(name, it))
        ends.append((without + took(name, "tests"), [*earlier, (name, "tests")]))
        ends.append((without + took(name, kind) + took(name, "edits"), [*earlier, (name, kind), (name, "edits")]))
    seconds, steps = max(ends, key=lambda it: it[0])
    return seconds, [it for it in steps if it in parts]


# -- the table


def clock(seconds):
    return f"{int(seconds // 60)}:{int(seconds % 60):02}"


def cell(part, began):
    """Returns the seconds of a part, with + where its end was not seen, and its times since the gate began."""
    if part is None:
        return ""
    return f"{part.seconds:.0f}{'' if part.is_whole else '+'} ({clock(part.began - began)} to {clock(part.ended - began)})"


def head(said, told):
    """Returns what was told of a run."""
    said = re.findall(r"^\d+ passed, \d+ failed$", said, re.M)
    said = said[-1] if said else "not to its end"
    lasted = (told["ended"] - told["began"]) / 60
    text = f"{said}, in {lasted:.0f} minutes of the clock and {told['spent'] / 60:.0f} processor minutes"
    if "busy" in told:
        text += f" on {told['processors']} processors, which were busy for {told['busy'] / 60:.0f} minutes with all that ran"
    return text + "."


def cells_of(parts, name, began):
    """Returns the crate's cells, or none where none of its parts was seen."""
    found = [parts.get((name, kind)) for kind in KINDS]
    if not any(found):
        return []
    edits = found[2]
    count = f"{edits.edits or f'{edits.checks} checks'}: " if edits else ""
    return [f"`{name}`", *[cell(it, began) for it in found[:2]], count + cell(edits, began)]


def table(*files):
    """Returns the table and what is around it, of runs of which each took what those before it had proved: a log and samples for each."""
    runs = [(text_of(log), *read(samples)) for log, samples in zip(files[::2], files[1::2])]
    parts = parts_of([row for _, rows, _ in runs for row in rows], "\n".join(said for said, _, _ in runs))
    began, spent = min(told["began"] for _, _, told in runs), sum(told["spent"] for _, _, told in runs)
    sums = [sum(part.seconds for (_, it), part in parts.items() if it == kind) for kind in KINDS]
    whats = ["`rt ci` from nothing"] if len(runs) == 1 else ["A run of `rt ci` from nothing", *["one over what was proved before"] * (len(runs) - 1)]
    lines = [*[f"{what}: {head(said, told)}" for what, (said, _, told) in zip(whats, runs)], "", "| Crate | Proof | Proof of its tests | Edits |", "|---|---|---|---|"]
    lines += [f"| {' | '.join(it)} |" for it in (cells_of(parts, name, began) for name in crates()) if it]
    lines.append(f"| **Together** | {sums[0]:.0f} | {sums[1]:.0f} | {sum(it.edits for it in parts.values())}: {sums[2]:.0f} |")
    seconds, steps = longest_way(parts)
    whose = {"proof": "", "tests": " (its tests)", "edits": " (its edits)"}
    way = ", ".join(f"`{name}`{whose[kind]}" for name, kind in steps)
    lines += ["", *LEGEND, "", f"All else (layout, running programs and tests): {max(spent - sum(sums), 0):.0f}."]
    lines += [f"**The longest way**: {seconds / 60:.1f} processor minutes, {way}."]
    return "\n".join(lines)


def put_into(file, text):
    with open(file) as it:
        before, begin, rest = it.read().partition(BEGIN + "\n")
    _, end, after = rest.partition(END)
    if not begin or not end:
        sys.exit(f"{file} has no lines {BEGIN} and {END}")
    with open(file, "w") as it:
        it.write(f"{before}{begin}{text}\n{end}{after}")


def main(words):
    if words[:1] == ["--gate"] and len(words) >= 3:
        return run_gate(words[1], words[2], words[3:])
    if words[:1] == ["--into"] and len(words) >= 4 and len(words) % 2 == 0:
        put_into(words[1], table(*words[2:]))
        return 0
    if words and len(words) % 2 == 0 and not words[0].startswith("--"):
        print(table(*words))
        return 0
    print("tests/times --gate LOG SAMPLES [COMMAND..], tests/times LOG SAMPLES.., or tests/times --into FILE LOG SAMPLES..", file=sys.stderr)
    return 2


if __name__ == "__main__":
    sys.exit(main(sys.argv[1:]))
