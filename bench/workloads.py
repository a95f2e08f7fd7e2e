"""The workloads, as scripts of the program's own language. Each is drawn from a fixed seed."""

import random
from collections import namedtuple

SEED = 20261129
DEFAULT_BYTES = 83_886_080
LARGE_BYTES = 1_000_000_000
MIX_BYTES = 16_777_216


def data(draw, count):
    """So many bytes as hexadecimal digits."""
    return draw.randbytes(count).hex() or "-"


def key(number):
    return f"https://example.test/r/{number:06d}"


def write_entries(out, numbers, sizes):
    """Makes an entry of each number, with one stream, and closes it."""
    for number, size in zip(numbers, sizes):
        out.write(f"create 0 {key(number)}\nwrite 0 0 0 {data(out.draw, size)}\nclose 0\n")


def small_writes(out, part):
    count = 20_000 // part
    write_entries(out, range(count), [100] * count)


def reads_before(out, part):
    count = 18_000 // part
    write_entries(out, range(count), [2048] * count)


def reads(out, part):
    """Opens and reads, of which one in ten misses."""
    count = 20_000 // part
    for _ in range(count):
        out.write(f"open 0 {key(out.draw.randrange(count))}\nread 0 0 0 2048\nclose 0\n")


def large_writes(out, part):
    count = 2_000 // part
    write_entries(out, range(count), [out.draw.randrange(20_480, 204_801) for _ in range(count)])


def mix(out, part):
    """Turns of which a third write an entry, new or not, in four commands, and two thirds read one, in three. 40 MB are written, so one of four goes again."""
    for _ in range(15_000 // part):
        name = key(out.draw.randrange(4_000 // part))
        if out.draw.randrange(3) == 0:
            stream = data(out.draw, out.draw.randrange(200, 16_000))
            out.write(f"create 0 {name}\nopen 0 {name}\ncut 0 0 0 {stream}\nclose 0\n")
        else:
            out.write(f"open 0 {name}\nread 0 0 0 16000\nclose 0\n")


def opening(count):
    def before(out, part):
        write_entries(out, range(count // part), [100] * (count // part))

    return before


def sparse(out, part):
    """Writes of 4 KiB over 64 MiB of one object, and the first range of bytes that are there in a mebibyte."""
    mebibytes = 64 // min(part, 64)
    out.write("create 0 sparse\n")
    for _ in range(2_000 // part):
        place = out.draw.randrange(mebibytes * 1024) * 1024
        out.write(f"swrite 0 {place} {data(out.draw, 4096)}\n")
        out.write(f"srange 0 {out.draw.randrange(mebibytes * 1024) * 1024} 1048576\n")
    out.write("close 0\n")


# What is made before, what is measured, the limit in bytes, which a smaller part lowers where it is to be met, and the program's last argument.
Workload = namedtuple("Workload", "before work limit word", defaults=(DEFAULT_BYTES, "session"))

WORKLOADS = {
    "1 small writes": Workload(None, small_writes),
    "2 reads": Workload(reads_before, reads),
    "3 large writes": Workload(None, large_writes, LARGE_BYTES),
    "4 mix with evictions": Workload(None, mix, MIX_BYTES),
    "5 opening of 20,000": Workload(opening(20_000), None, word="count"),
    "5 opening of 100,000": Workload(opening(100_000), None, word="count"),
    "6 sparse writes": Workload(None, sparse, LARGE_BYTES),
}


def limit_of(workload, part):
    """The limit in bytes, for a part of the workload. A stream may have an eighth of it."""
    return max(workload.limit // part, 262_144) if workload.limit == MIX_BYTES else workload.limit


class Script:
    """A file that is written, with the numbers that are drawn."""

    def __init__(self, path):
        self.file = open(path, "w", encoding="ascii")
        self.draw = random.Random(SEED)
        self.write = self.file.write


def make(workload, path, part):
    script = Script(path)
    if workload:
        workload(script, part)
    script.file.close()
