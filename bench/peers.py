"""What else might keep such entries, doing the lines of a script: peers.py KIND FOLDER [LIMIT], with the script on the input.

The kinds are sqlite-wal and sqlite-off (one table of blobs, synchronous off, with a log or with none, a transaction for each command), files (a file for
each entry in 256 directories), and none, which reads the script alone. Under a LIMIT of bytes an entry that is read or written becomes the last used one,
and those that were used longest ago go. floor does the steps of a file that FOLDER has; costs tells what a write of one word takes, and a transaction.

It prints the seconds of the work, those of the processor in it, and how many entries were found with how many bytes. The start of the interpreter and the
reading of the script are in none of these: lines are read and decoded while the clock stands.
"""

import array
import collections
import hashlib
import os
import random
import sqlite3
import sys
import time

BLOCK = 1024
TEXT = 1 << 20

# The kinds of steps of a floor, by their numbers.
STEPS = ("word", "data", "length", "make", "delete", "read", "file data", "file length")
SIZE = (1 << 28) - 1


class Table:
    """A table of blobs, and one of blocks of sparse data."""

    def __init__(self, folder, log, limit):
        self.limit = limit
        self.base = sqlite3.connect(f"{folder}/cache.db", isolation_level=None)
        self.base.execute(f"pragma journal_mode = {log}")
        self.base.execute("pragma synchronous = off")
        self.base.execute("create table if not exists entry (key text primary key, used integer, size integer, stream blob) without rowid")
        self.base.execute("create table if not exists block (key text, number integer, bytes blob, primary key (key, number)) without rowid")
        if limit:
            self.base.execute("create index if not exists uses on entry (used)")
            self.used = self.base.execute("select coalesce(max(used), 0) from entry").fetchone()[0]
            self.bytes = self.base.execute("select coalesce(sum(size), 0) from entry").fetchone()[0]

    def put(self, key, stream):
        if self.limit:
            self.put_within(key, stream)
        else:
            self.base.execute("replace into entry values (?, 0, ?, ?)", (key, len(stream), stream))

    def put_within(self, key, stream):
        self.base.execute("begin")
        old = self.base.execute("select size from entry where key = ?", (key,)).fetchone()
        self.used += 1
        size = len(key) + len(stream)
        self.bytes += size - (old[0] if old else 0)
        self.base.execute("replace into entry values (?, ?, ?, ?)", (key, self.used, size, stream))
        if self.bytes > self.limit:
            self.evict()
        self.base.execute("commit")

    def evict(self):
        gone = []
        for key, size in self.base.execute("select key, size from entry order by used"):
            if self.bytes <= self.limit - self.limit // 16:
                break
            gone.append((key,))
            self.bytes -= size
        self.base.executemany("delete from entry where key = ?", gone)

    def get(self, key):
        if self.limit:
            self.used += 1
            self.base.execute("update entry set used = ? where key = ?", (self.used, key))
        row = self.base.execute("select stream from entry where key = ?", (key,)).fetchone()
        return row and row[0]

    def put_blocks(self, key, place, data):
        first = place // BLOCK
        rows = [(key, first + i, data[BLOCK * i : BLOCK * i + BLOCK]) for i in range(len(data) // BLOCK)]
        self.base.execute("begin")
        self.base.executemany("replace into block values (?, ?, ?)", rows)
        self.base.execute("commit")

    def first_run(self, key, place, count):
        first = place // BLOCK
        start = end = None
        rows = self.base.execute(
            "select number from block where key = ? and number between ? and ? order by number", (key, first, first + count // BLOCK - 1)
        )
        for (number,) in rows:
            if end not in (None, number):
                break
            start, end = number if start is None else start, number + 1
        return (end - start) * BLOCK if end else 0

    def close(self):
        self.base.close()


class Files:
    """A file for each entry, in 256 directories. One that is written is whole or absent after a crash: it is renamed into its place."""

    def __init__(self, folder, limit):
        self.folder, self.limit = folder, limit
        self.sizes, self.bytes = collections.OrderedDict(), 0
        self.sparse = None
        for number in range(256):
            os.makedirs(f"{folder}/{number:02x}", exist_ok=True)

    def path(self, key):
        name = hashlib.sha1(key.encode()).hexdigest()
        return f"{self.folder}/{name[:2]}/{name}"

    def put(self, key, stream):
        path = self.path(key)
        with open(f"{path}.new", "wb", buffering=0) as file:
            file.write(stream)
        os.rename(f"{path}.new", path)
        if self.limit:
            size = len(key) + len(stream)
            self.bytes += size - self.sizes.pop(path, 0)
            self.sizes[path] = size
            self.evict()

    def evict(self):
        if self.bytes > self.limit:
            while self.bytes > self.limit - self.limit // 16:
                path, size = self.sizes.popitem(last=False)
                os.unlink(path)
                self.bytes -= size

    def get(self, key):
        path = self.path(key)
        try:
            with open(path, "rb", buffering=0) as file:
                stream = file.read()
        except FileNotFoundError:
            return None
        if self.limit:
            # The order of use stays across a crash by the file's time.
            self.sizes.move_to_end(path)
            os.utime(path)
        return stream

    def put_blocks(self, key, place, data):
        if self.sparse is None:
            self.sparse = os.open(self.path(key), os.O_RDWR | os.O_CREAT)
        os.pwrite(self.sparse, data, place)

    def first_run(self, key, place, count):
        try:
            start = os.lseek(self.sparse, place, os.SEEK_DATA)
        except OSError:
            return 0
        if start >= place + count:
            return 0
        return min(os.lseek(self.sparse, start, os.SEEK_HOLE), place + count) - start

    def close(self):
        pass


class Nothing:
    """Keeps nothing."""

    def put(self, *_):
        return None

    get = put_blocks = first_run = put

    def close(self):
        pass


class Watch:
    """The seconds of the work, and those of the processor in it."""

    def __init__(self):
        self.seconds = self.processor = 0.0

    def __enter__(self):
        self.start = time.perf_counter(), time.process_time()

    def __exit__(self, *_):
        self.seconds += time.perf_counter() - self.start[0]
        self.processor += time.process_time() - self.start[1]


def works(lines):
    """What the lines ask of one that keeps entries, in pieces of a mebibyte of text: an entry is put when its stream is written."""
    key, text, piece = None, 0, []
    for line in lines:
        word, *fields = line.split()
        if word in ("create", "open"):
            key = fields[1]
        elif word in ("write", "cut"):
            piece.append(("put", key, bytes.fromhex(fields[3])))
        elif word == "read":
            piece.append(("get", key))
        elif word == "swrite":
            piece.append(("put_blocks", key, int(fields[1]), bytes.fromhex(fields[2])))
        elif word == "srange":
            piece.append(("first_run", key, int(fields[1]), int(fields[2])))
        text += len(line)
        if text > TEXT:
            yield piece
            text, piece = 0, []
    yield piece


def do_works(make, lines, watch):
    """Does what the lines ask. Gives how many entries were found, and how many bytes they have."""
    found = size = 0
    with watch:
        kept = make()
    for piece in works(lines):
        with watch:
            for name, *fields in piece:
                answer = getattr(kept, name)(*fields)
                if name == "get" and answer is not None:
                    found += 1
                    size += len(answer)
                elif name == "first_run":
                    size += answer or 0
    with watch:
        kept.close()
    return found, size


def do_steps(folder, watch):
    """Does the steps of a floor, which the file "steps" of the folder has: bare calls, at places that are drawn."""
    steps = array.array("I")
    with open(f"{folder}/steps", "rb") as file:
        steps.frombytes(file.read())
    steps = [(STEPS[step >> 28], step & SIZE) for step in steps]
    draw = random.Random(1)
    places = [draw.randrange(1 << 20) * 4 for _ in range(4096)]
    zeros = memoryview(bytes(max([4096] + [size for kind, size in steps if "data" in kind])))
    with watch:
        file = os.open(f"{folder}/floor", os.O_RDWR | os.O_CREAT)
        os.ftruncate(file, 4 << 20)
        grown = os.open(f"{folder}/grown", os.O_RDWR | os.O_CREAT)
        last = os.dup(grown)
        end, made, gone = 4 << 20, 0, 0
        for number, (kind, size) in enumerate(steps):
            if kind == "word":
                os.pwrite(file, zeros[:size], places[number & 4095])
            elif kind == "read":
                os.pread(file, size, places[number & 4095] & ~4095)
            elif kind == "data":
                os.pwrite(file, zeros[:size], end)
                end += size
            elif kind == "file data":
                os.pwrite(last, zeros[:size], 0)
            elif kind == "file length":
                os.ftruncate(last, size)
            elif kind == "length":
                os.ftruncate(grown, number)
            elif kind == "make":
                os.close(last)
                last = os.open(f"{folder}/made{made}", os.O_RDWR | os.O_CREAT)
                made += 1
            elif gone < made:
                os.unlink(f"{folder}/made{gone}")
                gone += 1
        os.close(file)
    return len(steps), 0


def costs(folder):
    """What a write of one word takes, without the loop, and what a transaction of 100 bytes in SQLite does, in microseconds."""
    count = 200_000
    file = os.open(f"{folder}/floor", os.O_RDWR | os.O_CREAT)
    os.ftruncate(file, 4 << 20)
    start = time.perf_counter()
    for number in range(count):
        os.pwrite(file, b"word", number & 4095)
    between = time.perf_counter()
    for number in range(count):
        abs(number & 4095)
    end = time.perf_counter()
    table, rows = Table(folder, "wal", 0), 5_000
    begin = time.perf_counter()
    for number in range(rows):
        table.put(str(number), bytes(100))
    table.close()
    return (2 * between - start - end) / count * 1e6, (time.perf_counter() - begin) / rows * 1e6


def main():
    kind, folder, *limit = sys.argv[1:]
    limit = int(limit[0]) if limit else 0
    watch = Watch()
    if kind == "costs":
        print(*costs(folder))
        return
    if kind == "floor":
        found, size = do_steps(folder, watch)
    else:
        makers = {
            "sqlite-wal": lambda: Table(folder, "wal", limit),
            "sqlite-off": lambda: Table(folder, "off", limit),
            "files": lambda: Files(folder, limit),
            "none": Nothing,
        }
        found, size = do_works(makers[kind], sys.stdin, watch)
    print(watch.seconds, watch.processor, found, size)


if __name__ == "__main__":
    main()
