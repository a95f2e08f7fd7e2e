#!/usr/bin/env python3
"""Every place between two words at which a kill may stop a command, replayed in one process.

tests/replayed.py [--drawn COUNT SEED] [--leave NAMES] [--openings ERASE] [--without WHAT] PROGRAM STOPPED BASE INPUT OUT PART/PARTS -- WORDS

The program runs once with WORDS and INPUT on a copy of the folder BASE, under the library STOPPED (tests/stopped.c), which records each call
that changes a file. The record is then made word by word in one folder, so each image is built from the one before. Those images are tried
whose place is of the part, and none twice, by a sum over the whole folder: the next opening (count) is run on it, and is taken back by its own
record. Behind each third place the next opening is stopped too, at a place of its own, and the one after it is run. (Where an opening has more
than 20000 places, that is done once for each image.)

With --drawn so many places are tried, which are drawn from SEED: three of four among those before each call and, of a write, after its first
word, midway and before its last one (all of these where COUNT is edges), the others among all. The places of openings are drawn in the same way.

Asked of the record, up to each word, and of the record of each opening:
- a block that loses its mark is blank, and nothing is written into a block without one, where the index is finished;
- what a removal or a shorter length takes away is blank.
Asked of each opening: it ends with 0, and prints what it counted. What openings leave is put into OUT/left, a folder for each that differs in
more than the number of the session and the time of making, with the place that led to it first in a file beside it. What these folders have
to hold is asked by the caller.

Asked of the replay: the whole record leaves what the program left, and has as many places as the program passed; at 16 of them (at each one that
is drawn), and at those of openings behind some of these, the program is killed indeed, and leaves the image; there, and after the openings there,
the folder is what it is taken for.

With --leave one byte is left out of the zeros, midway among those over bytes of files whose names begin with NAMES. With --openings the openings
have ERASE as the value of BLKCACHE_ERASE. With either of them no kill is compared. With --without folders none is put into OUT/left, and with
--without kills none is compared: its caller has to refuse both.

Each fault is a line that begins with 'wrong'. The last line has numbers: the places that were tried, all places, the images that were opened,
the openings that were stopped, the folders that openings left, the kills that were compared, a sum over the
record but for its bytes.
"""
import errno
import hashlib
import os
import random
import re
import shutil
import signal
import struct
import sys
import zlib

WORD = 4
PAGE = 4096
HEADER = 8192
MAP = 80
MAGIC = bytes.fromhex("c3ca03c1")
RECORD = 100
KILLS = 16
MANY = 20000
BLOCKS = re.compile("data_[0-9]+")
MOST_WRONG = 20


class Call:
    """A call that changes a file."""

    def __init__(self, what, name, place, data):
        self.what, self.name, self.place, self.data = what, name, place, data

    def places(self):
        """At how many places of it a kill may stop it: before each word that it writes."""
        return max(1, -(-len(self.data) // WORD))

    def word(self, number):
        """The call that writes this word of it alone."""
        at = number * WORD
        return Call(self.what, self.name, self.place + at, self.data[at : at + WORD])

    def front(self, words):
        return Call(self.what, self.name, self.place, self.data[: words * WORD])


def calls_of(record):
    """The calls of a record, as tests/stopped.c writes them."""
    at, calls = 0, []
    while at < len(record):
        what, name, place, count = struct.unpack_from("<c31sQQ", record, at)
        at += 48
        calls.append(Call(what.decode(), name.rstrip(b"\0").decode(), place, record[at : at + count]))
        at += count
    return calls


def is_blank(data):
    return data == bytes(len(data))


class Image:
    """A folder, with its files in memory too, a sum over all of it, and what takes its changes back."""

    def __init__(self, path, wrong):
        self.path, self.wrong = path, wrong
        self.files, self.open_files, self.page_sums, self.length_sums = {}, {}, {}, {}
        self.sum, self.stale, self.unwritten, self.blank_sums = 0, set(), set(), {}
        self.journal, self.is_noting = [], True
        for name, data in read_folder(path).items():
            self.open_files[name] = os.open(os.path.join(path, name), os.O_RDWR)
            self.files[name] = data
            self.page_sums[name], self.length_sums[name] = [], 0
            self.count_pages(name, 0)

    # Sums: of each page, and of each length, with the name of the file and the number of the page.

    def page_sum(self, name, page, data):
        key = (name, page, len(data)) if is_blank(data) else None
        if key in self.blank_sums:
            return self.blank_sums[key]
        it = hashlib.blake2b(data, digest_size=16, person=name.encode(), salt=struct.pack("<Q", page))
        it = int.from_bytes(it.digest(), "little")
        if key:
            self.blank_sums[key] = it
        return it

    def count_pages(self, name, first):
        """A file has another length: its pages from this one on are summed anew."""
        sums, length = self.page_sums[name], len(self.files[name])
        for it in sums[first:]:
            self.sum -= it
        del sums[first:]
        for page in range(first, -(-length // PAGE)):
            sums.append(0)
            self.stale.add((name, page))
        new = self.page_sum(name, 2**63, struct.pack("<Q", length))
        self.sum += new - self.length_sums[name]
        self.length_sums[name] = new

    def whole_sum(self):
        for name, page in self.stale:
            sums = self.page_sums.get(name)
            if sums is not None and page < len(sums):
                new = self.page_sum(name, page, self.files[name][page * PAGE : (page + 1) * PAGE])
                self.sum += new - sums[page]
                sums[page] = new
        self.stale.clear()
        return self.sum

    def left_sum(self):
        """The sum but for the number of the session and the time of making."""
        sum_of_all = self.whole_sum()
        if "index" not in self.files or not self.files["index"]:
            return sum_of_all
        first = self.files["index"][:PAGE]
        first[20:24], first[40:48] = bytes(4), bytes(8)
        return sum_of_all - self.page_sums["index"][0] + self.page_sum("index", 0, first)

    # Changes, each noted with what takes it back. Where they are made on disk, pages are written by flush alone.

    def note(self, *change):
        if self.is_noting:
            self.journal.append(change)

    def write(self, name, place, data, on_disk):
        file = self.files[name]
        if place + len(data) > len(file):
            self.resize(name, place + len(data), on_disk)
        old = file[place : place + len(data)]
        if old == data:
            return
        self.note("write", name, place, bytes(old))
        file[place : place + len(data)] = data
        for page in range(place // PAGE, (place + len(data) - 1) // PAGE + 1):
            self.stale.add((name, page))
            if on_disk:
                self.unwritten.add((name, page))

    def resize(self, name, length, on_disk):
        file = self.files[name]
        old = len(file)
        self.note("resize", name, old, bytes(file[length:]))
        if length < old:
            del file[length:]
        else:
            file.extend(bytes(length - old))
        self.count_pages(name, min(old, length) // PAGE)
        if on_disk:
            self.flush()
            os.ftruncate(self.open_files[name], length)

    def create(self, name, on_disk):
        self.note("create", name)
        self.files[name], self.page_sums[name], self.length_sums[name] = bytearray(), [], 0
        self.count_pages(name, 0)
        how = os.O_CREAT | os.O_EXCL if on_disk else 0
        self.open_files[name] = os.open(os.path.join(self.path, name), os.O_RDWR | how, 0o600)

    def remove(self, name, on_disk):
        self.note("remove", name, bytes(self.files.pop(name)))
        self.sum -= sum(self.page_sums.pop(name)) + self.length_sums.pop(name)
        os.close(self.open_files.pop(name))
        if on_disk:
            os.unlink(os.path.join(self.path, name))

    def flush(self):
        for name, page in self.unwritten:
            data = self.files[name][page * PAGE : (page + 1) * PAGE] if name in self.files else b""
            if data:
                os.pwrite(self.open_files[name], data, page * PAGE)
        self.unwritten.clear()

    def undo(self):
        """Takes back all that is in the journal, on disk too."""
        self.is_noting = False
        while self.journal:
            what, name, *rest = self.journal.pop()
            if what == "write":
                self.write(name, *rest, True)
            elif what == "resize":
                length, cut = rest
                self.resize(name, length, True)
                if cut:
                    self.write(name, length - len(cut), cut, True)
            elif what == "create":
                self.remove(name, True)
            else:
                self.create(name, True)
                self.write(name, 0, rest[0], True)
        self.is_noting = True
        self.flush()

    def keep(self):
        """What was changed up to now isn't taken back."""
        self.journal.clear()

    def has(self, call):
        """Whether a write finds all its bytes there, so that none of its words changes the folder."""
        file, end = self.files[call.name], call.place + len(call.data)
        return end <= len(file) and file[call.place : end] == call.data

    def make(self, call, on_disk):
        """Makes a call of a record, and asks that what it gets rid of is blank."""
        if call.what == "w":
            self.ask_marks(call)
            self.write(call.name, call.place, call.data, on_disk)
        elif call.what == "l":
            if not is_blank(self.files[call.name][call.place :]):
                self.wrong(f"{call.name} is cut to {call.place} before it is blank there")
            self.resize(call.name, call.place, on_disk)
        elif call.what == "r":
            if not is_blank(self.files[call.name]):
                self.wrong(f"{call.name} is removed before it is blank")
            self.remove(call.name, on_disk)
        elif call.what == "c":
            self.create(call.name, on_disk)

    def ask_marks(self, call):
        """A write to the map of a block file, or into its blocks: what loses its mark is blank, and what has none is not written into."""
        file = self.files[call.name]
        if not BLOCKS.fullmatch(call.name) or len(file) < HEADER or self.files.get("index", b"")[:4] != MAGIC:
            return
        size = struct.unpack_from("<I", file, 12)[0]
        if size == 0:
            return
        place, end = call.place, call.place + len(call.data)
        for at in range(max(place, MAP), min(end, HEADER)):
            lost = file[at] & ~call.data[at - place]
            for bit in range(8):
                block = (at - MAP) * 8 + bit
                if lost >> bit & 1 and not is_blank(file[HEADER + block * size : HEADER + (block + 1) * size]):
                    self.wrong(f"block {block} of {call.name} is free before it is blank")
        if end > HEADER and not is_blank(call.data):
            for block in range((max(place, HEADER) - HEADER) // size, (end - 1 - HEADER) // size + 1):
                at = max(place, HEADER + block * size) - place, min(end, HEADER + (block + 1) * size) - place
                if not is_blank(call.data[at[0] : at[1]]) and not file[MAP + block // 8] >> block % 8 & 1:
                    self.wrong(f"block {block} of {call.name} is free, and bytes are written into it")

    def is_on_disk(self):
        return read_folder(self.path) == self.files

    def put(self, path):
        """Makes a folder of the same files."""
        put_folder(self.files, path)


def read_file(file):
    """The bytes of an open file. What the machine calls a hole isn't read: it has zeros."""
    length = os.fstat(file).st_size
    data = bytearray(length)
    view, at = memoryview(data), 0
    while at < length:
        try:
            at = os.lseek(file, at, os.SEEK_DATA)
        except OSError as error:
            if error.errno == errno.ENXIO:
                break
            raise
        end = os.lseek(file, at, os.SEEK_HOLE)
        while at < end:
            at += os.preadv(file, [view[at:end]], at)
    view.release()
    return data


def read_folder(path):
    files = {}
    for name in os.listdir(path):
        with open(os.path.join(path, name), "rb", buffering=0) as file:
            files[name] = read_file(file.fileno())
    return files


def put_folder(files, path):
    os.mkdir(path)
    for name, data in files.items():
        with open(os.path.join(path, name), "wb") as file:
            os.chmod(file.fileno(), 0o600)
            file.truncate(len(data))
            for at in range(0, len(data), PAGE):
                part = data[at : at + PAGE]
                if not is_blank(part):
                    os.pwrite(file.fileno(), part, at)


class Replay:
    def __init__(self, program, library, base, given, out, part, parts):
        self.program, self.base, self.given, self.out = program, base, given, out
        self.part, self.parts = part, parts
        self.drawn, self.random, self.is_planted, self.without = None, None, False, None
        self.faults = 0
        self.at = "before the first place"
        self.tried, self.left = set(), set()
        self.last_sum = self.last_calls = self.last_total = self.stopped_sum = None
        self.openings = self.kills = self.places = 0
        self.said = os.open(os.path.join(out, "said"), os.O_RDWR | os.O_CREAT | os.O_APPEND, 0o600)
        self.complained = os.open(os.path.join(out, "complained"), os.O_RDWR | os.O_CREAT | os.O_APPEND, 0o600)
        self.record = os.open(os.path.join(out, "record"), os.O_RDWR | os.O_CREAT | os.O_APPEND, 0o600)
        self.environment = dict(os.environ, LD_PRELOAD=library, STOPPED_BETWEEN="words")
        self.of_openings = {}
        os.mkdir(os.path.join(out, "left"))

    def wrong(self, what):
        self.faults += 1
        if self.faults <= MOST_WRONG:
            print(f"wrong {self.at}: {what}")

    def run(self, folder, words, given, stopped=0, more=None):
        """Runs the program: how it ended, what it printed, and the calls that it made, where it isn't stopped."""
        for it in self.said, self.complained, self.record:
            os.ftruncate(it, 0)
        environment = dict(self.environment, STOPPED=str(stopped), **(more or {}))
        if not stopped:
            environment["STOPPED_RECORD"] = str(RECORD)
        streams = [(os.POSIX_SPAWN_OPEN, 0, given, os.O_RDONLY, 0), (os.POSIX_SPAWN_DUP2, self.said, 1)]
        streams += [(os.POSIX_SPAWN_DUP2, self.complained, 2), (os.POSIX_SPAWN_DUP2, self.record, RECORD)]
        signal.alarm(60)
        child = os.posix_spawn(self.program, [self.program, folder, *words], environment, file_actions=streams)
        status = os.waitstatus_to_exitcode(os.waitpid(child, 0)[1])
        signal.alarm(0)
        said = [os.pread(it, os.fstat(it).st_size, 0) for it in (self.said, self.complained, self.record)]
        calls = calls_of(said[2])
        if not stopped and said[1] != b"%d\n" % sum(it.places() for it in calls):
            self.wrong(f"the program passed {said[1]!r} places, and its record has others")
        return status, said[0], calls

    def kill(self, files, words, given, place, image):
        """Kills the program at a place, on a copy of a folder: it leaves the image."""
        copy = os.path.join(self.out, "killed")
        put_folder(files, copy)
        status = self.run(copy, words, given, place)[0]
        if status != -signal.SIGKILL:
            self.wrong(f"the program is killed at place {place}, and ends with {status}")
        if read_folder(copy) != image.files:
            self.wrong(f"the program is killed at place {place}, and leaves another folder than the record")
        shutil.rmtree(copy)
        self.kills += 1

    def open(self, image):
        """Runs the next opening, and makes its calls in memory too. What it leaves is put aside where it is new."""
        status, said, calls = self.run(image.path, ["count"], "/dev/null", more=self.of_openings)
        if status != 0 or not said.startswith(b"items "):
            self.wrong(f"the next opening ends with {status}, and prints {said[:60]!r}")
        for call in calls:
            image.make(call, False)
        left = image.left_sum()
        if left not in self.left and self.without != "folders":
            self.left.add(left)
            path = os.path.join(self.out, "left", str(len(self.left)))
            image.put(path)
            with open(path + ".place", "w") as file:
                print(self.at, file=file)
        return calls

    def visit(self, image, place, is_third, is_compared):
        """Tries the image, which is that of a place, counted from 0, or where that is None the last one, that of no kill."""
        image.keep()
        image.flush()
        it = image.whole_sum()
        if is_compared:
            if not image.is_on_disk():
                self.wrong("the folder isn't what it is taken for")
            if place is not None:
                self.kill(self.before, self.words, self.given, place + 1, image)
        if it not in self.tried or is_third and it != self.last_sum:
            self.tried.add(it)
            self.last_sum, self.last_calls = it, self.open(image)
            self.last_total = sum(call.places() for call in self.last_calls)
            if is_compared and not image.is_on_disk():
                self.wrong("the next opening leaves another folder than its record")
            image.undo()
        if is_third:
            at, calls, total = self.at, self.last_calls, self.last_total
            if total > MANY and it == self.stopped_sum:
                return
            self.stopped_sum = it
            stop = place // 3 * 7 % total if self.drawn is None else drawn_of(calls, 1, self.random)[0]
            self.at += f", the next opening stopped at place {stop + 1}"
            self.openings += 1
            kept = {name: bytes(data) for name, data in image.files.items()} if is_compared else None
            front(image, calls, stop + 1)
            image.flush()
            if is_compared:
                self.kill(kept, ["count"], "/dev/null", stop + 1, image)
            it = image.whole_sum()
            if it not in self.tried:
                self.tried.add(it)
                self.open(image)
            image.undo()
            if is_compared and not image.is_on_disk():
                self.wrong("the folder isn't taken back")
            self.at = at

    def play(self, words, left_out):
        self.words = words
        whole = os.path.join(self.out, "whole")
        put_folder(read_folder(self.base), whole)
        status, _, calls = self.run(whole, words, self.given)
        if status != 0:
            self.wrong(f"the program, killed nowhere, ends with {status}")
        calls_sum = zlib.crc32(repr([(it.what, it.name, it.place, len(it.data)) for it in calls]).encode())
        after = read_folder(whole)
        shutil.rmtree(whole)
        folder = os.path.join(self.out, "folder")
        put_folder(read_folder(self.base), folder)
        image = Image(folder, self.wrong)
        self.before = {name: bytes(data) for name, data in image.files.items()}
        if left_out is not None:
            leave_out(self.before, calls, left_out)
        total = sum(call.places() for call in calls)
        if self.drawn is None:
            self.play_words(image, calls, total)
        else:
            self.play_drawn(image, calls)
        self.at = "killed nowhere"
        if left_out is None and image.files != after:
            self.wrong("the record, made whole, leaves another folder than the program")
        self.visit(image, None, False, not self.is_planted)
        print(self.places, total, len(self.tried), self.openings, len(self.left), self.kills, calls_sum)

    def play_words(self, image, calls, total):
        """Tries each place of the part."""
        compared = {turn * total // KILLS // self.parts * self.parts + self.part - 1 for turn in range(KILLS)}
        turn = 0
        for call in calls:
            # A write that finds its bytes there is made at once: at each of its words the folder is the same.
            is_there = call.what == "w" and image.has(call)
            for number in range(call.places()):
                self.at = f"place {turn + 1}"
                if turn % self.parts == self.part - 1:
                    self.places += 1
                    self.visit(image, turn, turn // self.parts % 3 == 0, not self.is_planted and turn in compared)
                if not is_there:
                    image.make(call.word(number) if call.what == "w" else call, True)
                elif number == 0:
                    image.make(call, True)
                turn += 1

    def play_drawn(self, image, calls):
        """Tries places that are drawn."""
        drawn = drawn_of(calls, self.drawn, self.random)[self.part - 1 :: self.parts]
        passed = turn = 0
        for call in calls:
            while turn < len(drawn) and drawn[turn] < passed + call.places():
                place = drawn[turn]
                self.at = f"place {place + 1}"
                if place > passed:
                    image.make(call.front(place - passed), True)
                self.places += 1
                self.visit(image, place, turn % 3 == 0, not self.is_planted)
                turn += 1
            self.at = f"place {passed + 1}"
            image.make(call, True)
            passed += call.places()


def drawn_of(calls, count, generator):
    """Places of calls that are drawn, counted from 0, in rising order; where there is no count, all those at the edges of the calls."""
    edges, passed = set(), 0
    for call in calls:
        places = call.places()
        edges.update(passed + it for it in (0, 1, places // 2, places - 1) if it < places)
        passed += places
    if count == 0:
        return sorted(edges)
    if count == 1:
        return [generator.choice(sorted(edges)) if generator.randrange(4) else generator.randrange(passed)]
    at_edges = min(len(edges), count - count // 4)
    places = set(generator.sample(sorted(edges), at_edges))
    places.update(generator.randrange(passed) for _ in range(count - at_edges))
    return sorted(places)


def front(image, calls, place):
    """Makes the calls up to a place, which is counted from 1."""
    passed = 0
    for call in calls:
        if passed + call.places() >= place:
            if call.what == "w" and place - passed > 1:
                image.make(call.front(place - passed - 1), True)
            return
        image.make(call, True)
        passed += call.places()


def leave_out(before, calls, names):
    """Leaves a byte out of the zeros, midway among those over bytes that aren't, and that nothing else is written over later."""
    files = {name: bytearray(data) for name, data in before.items()}
    last = {}
    for call in calls:
        if call.what == "w":
            file = files[call.name]
            file.extend(bytes(max(0, call.place + len(call.data) - len(file))))
            for number in range(call.places()):
                word = call.word(number)
                old = bytes(file[word.place : word.place + WORD])
                is_one = word.place >= (HEADER if call.name.startswith("data_") else 0) and any(old) and not any(word.data)
                if old != word.data or (call.name, word.place) in last:
                    last[call.name, word.place] = (call, number, old) if is_one else None
                file[word.place : word.place + len(word.data)] = word.data
        elif call.what == "l":
            file = files[call.name]
            del file[call.place :]
            file.extend(bytes(call.place - len(file)))
        elif call.what == "r":
            del files[call.name]
        elif call.what == "c":
            files[call.name] = bytearray()
    found = [it for (name, _), it in sorted(last.items()) if it and name.startswith(names)]
    if not found:
        print(f"wrong: no zeros are written over bytes of {names}*")
        return
    call, number, old = found[len(found) // 2]
    at = number * WORD + next(n for n in range(len(old)) if old[n])
    data = bytearray(call.data)
    data[at] = old[at - number * WORD]
    call.data = bytes(data)


def main():
    words = sys.argv[1:]
    left_out = drawn = openings = without = None
    if words[0] == "--drawn":
        drawn, words = words[1:3], words[3:]
    if words[0] == "--leave":
        left_out, words = words[1], words[2:]
    if words[0] == "--openings":
        openings, words = words[1], words[2:]
    if words[0] == "--without":
        without, words = words[1], words[2:]
    split = words.index("--")
    program, library, base, given, out, part = words[:split]
    part, parts = (int(it) for it in part.split("/"))
    replay = Replay(program, library, base, given, out, part, parts)
    replay.is_planted = left_out is not None or openings is not None or without == "kills"
    replay.without = without
    if openings is not None:
        replay.of_openings = {"BLKCACHE_ERASE": openings}
    if drawn is not None:
        replay.drawn = 0 if drawn[0] == "edges" else int(drawn[0])
        replay.random = random.Random(drawn[1])
    replay.play(words[split + 1 :], left_out)


main()
