"""What the order of writes asks for the commands of a script: each write, change of length and file by its rule, and each read that can't be held.

The rules are those of docs/WRITE_ORDER.md. Words that lie side by side and follow one another in rising place are one write, since a write of more
bytes is its words in rising place; so the count is the least that keeps the order. A read can't be held where its page of 4096 bytes isn't among the 64
that were used last. A floor knows no text, so a script's input and output are not in it.
"""

import re

from layout import EXTERNAL, HEADER, BLOCK_SIZES, BlockFile, Pages, hash_of, record_blocks, storage

PART = 1 << 20
INDEX_OF_PARENT = 8256
INDEX_OF_PART = 192
PIECE = 4096
FILE_BLOCKS = 64896


class Step:
    """A step that is asked: a write of words or of data, a change of length, a file that is made or deleted, or a read."""

    __slots__ = ("kind", "size", "rule")

    def __init__(self, kind, size, rule):
        self.kind, self.size, self.rule = kind, size, rule


class Place:
    """Where data lies: blocks of a file, or an external file."""

    def __init__(self, kind, file, first, count):
        self.kind, self.file, self.first, self.count = kind, file, first, count

    def at(self):
        return HEADER + self.first * BLOCK_SIZES[self.kind] if self.kind else 0

    def name(self):
        return self.file.name if self.kind else self.file


class Entry:
    """An object or a part of one: its key, its places, the lengths of its streams, and its neighbours in the LRU list."""

    def __init__(self, key, parent=None):
        self.key, self.parent = key, parent
        self.bucket = hash_of(key) & 65535
        self.sizes, self.places = [0, 0, 0], [None, None, None]
        self.record = self.node = self.long_key = None
        self.next = self.prev = None
        self.is_dirty, self.is_doomed, self.names = parent is None, False, 0
        self.parts = {}
        self.is_sparse = False

    def charge(self):
        return len(self.key) + sum(self.sizes)


class Floor:
    """A cache of which only the places are kept, and the steps that its commands ask."""

    def __init__(self, max_bytes=83886080, max_items=131072):
        self.max_bytes, self.max_items = max_bytes, max_items
        self.files = {kind: [BlockFile(f"data_{kind - 1}")] for kind in BLOCK_SIZES}
        self.linked = 4
        self.externals = 0
        self.entries, self.buckets, self.handles = {}, {}, {}
        self.head = self.tail = None
        self.items = self.bytes = 0
        self.pages = Pages()
        self.steps = []

    # The steps.

    def word(self, rule, count=1):
        self.steps.append(Step("word", 4 * count, rule))

    def data(self, rule, size, place=None):
        self.steps.append(Step("file data" if place and place.kind == EXTERNAL else "data", size, rule))

    def other(self, kind, rule):
        self.steps.append(Step(kind, 0, rule))

    def read(self, rule, file, at, count=4):
        for _ in range(self.pages.read(file, at, count)):
            self.steps.append(Step("read", PIECE, rule))

    def lengthen(self, rule, file, size=None):
        """Another length of a block file, or this one of an external file."""
        self.pages.forget(file)
        self.steps.append(Step("length", 0, rule) if size is None else Step("file length", size, rule))

    def sealed(self, rule, runs, is_joined=False):
        """A sealed update: the seal 0, runs of words, and the seal, which may lie after the last of them."""
        self.word(rule)
        for run in runs[:-1]:
            self.word(rule, run)
        self.word(rule, runs[-1] + is_joined)
        if not is_joined:
            self.word(rule)

    # What is read.

    def read_head(self):
        self.read("index head", "index", 288)

    def read_record(self, entry, rule="record"):
        self.read(rule, entry.record.name(), entry.record.at(), 96)

    def read_node(self, entry):
        self.read("node", entry.node.name(), entry.node.at(), 36)

    def find(self, key, parent=None):
        """Follows the chain of a key. Gives its entry, if it has one."""
        bucket = hash_of(key) & 65535
        self.read("bucket", "index", 368 + 4 * bucket)
        for entry in self.buckets.get(bucket, ()):
            self.read_record(entry)
            if entry.key == key and (entry.parent is None) == (parent is None):
                return entry
        return None

    # Blocks and external files.

    def take(self, kind, count):
        """Takes blocks, in the first file that has room."""
        for file in self.files[kind]:
            self.read("block file header", file.name, 0, 80)
            first = file.take(count)
            if first is not None:
                return self.mark(kind, file, first, count)
        file = next((file for file in self.files[kind] if 4 * len(file.groups) < FILE_BLOCKS), None) or self.add_file(kind)
        file.grow()
        self.lengthen("growth", file.name)
        self.word("growth")
        self.word("growth")
        return self.mark(kind, file, file.take(count), count)

    def mark(self, kind, file, first, count):
        self.read("map", file.name, 80 + first // 32 * 4)
        for words in (1, 1, 1, 1, 4, 1):
            self.word("allocation", words)
        return Place(kind, file, first, count)

    def add_file(self, kind):
        file = BlockFile(f"data_{self.linked}")
        self.linked += 1
        self.files[kind].append(file)
        self.other("make", "new block file")
        self.other("length", "new block file")
        self.word("new block file", 4)
        self.word("new block file")
        return file

    def take_storage(self, size):
        kind, count = storage(size)
        if kind != EXTERNAL:
            return self.take(kind, count)
        self.externals += 1
        self.other("make", "external file")
        self.word("external file")
        return Place(EXTERNAL, f"f_{self.externals:06x}", 0, 1)

    def free(self, place):
        if place is None:
            return
        if place.kind == EXTERNAL:
            self.pages.forget(place.file)
            self.other("delete", "external file")
            return
        self.read("block file header", place.file.name, 0, 80)
        self.read("map", place.file.name, 80 + place.first // 32 * 4)
        place.file.free(place.first, place.count)
        for words in (1, 1, 1, 4, 1):
            self.word("freeing", words)

    def free_all(self, entry):
        for place in (entry.node, entry.record, entry.long_key, *entry.places):
            self.free(place)

    # The LRU list.

    def link(self, entry):
        self.read_node(entry)
        self.sealed("LRU list", [1])

    def begin(self):
        """The operation word, and then the transaction word."""
        self.read_head()
        self.word("LRU list")
        self.word("LRU list")

    def take_out(self, entry):
        self.read_node(entry)
        for other in (entry.prev, entry.next):
            if other:
                self.link(other)
            else:
                self.word("LRU list")
        self.link(entry)
        if entry.prev:
            entry.prev.next = entry.next
        else:
            self.head = entry.next
        if entry.next:
            entry.next.prev = entry.prev
        else:
            self.tail = entry.prev
        entry.next = entry.prev = None

    def put_front(self, entry):
        self.link(entry)
        self.link(entry)
        if self.head:
            self.link(self.head)
            self.head.prev = entry
        else:
            self.word("LRU list")
            self.tail = entry
        self.word("LRU list")
        entry.next, self.head = self.head, entry

    def insert(self, entry):
        self.begin()
        self.put_front(entry)
        self.word("LRU list")

    def remove_listed(self, entry):
        self.begin()
        self.take_out(entry)
        self.word("LRU list")

    def touch(self, entry):
        if entry.is_doomed:
            return
        self.read_head()
        if self.head is not entry:
            self.begin()
            self.take_out(entry)
            self.word("LRU list")
            self.put_front(entry)
            self.word("LRU list")
        self.read_node(entry)
        self.sealed("times", [4])

    # Items that come and go.

    def count(self, entries, is_other):
        """The counters of the index: how many entries, the two words of the sum of their charges, and how many nodes."""
        self.read_head()
        if entries:
            self.word("counters")
            self.word("counters", 2)
            self.word("counters")
        elif is_other:
            self.word("counters", 2)

    def write_entry(self, entry):
        """Takes the places of a new entry, and writes its key, its record and its node."""
        size = len(entry.key)
        entry.record = self.take(2, record_blocks(size))
        entry.node = self.take(1, 1)
        if size > 927:
            entry.long_key = self.take_storage(size + 1)
        self.data("new entry", size + 1)
        self.data("new entry", 256 if entry.long_key else 96)
        if entry.parent:
            self.sealed("size and address", [2, 2])
        self.data("new entry", 36)

    def list_entry(self, entry):
        self.insert(entry)
        self.buckets.setdefault(entry.bucket, []).insert(0, entry)
        self.word("chain")

    def unlink(self, entry):
        chain = self.buckets[entry.bucket]
        self.read("bucket", "index", 368 + 4 * entry.bucket)
        at = chain.index(entry)
        if at == 0:
            self.word("chain")
        else:
            self.read_record(chain[at - 1])
            self.sealed("chain", [1])
        chain.remove(entry)

    def drop(self, entry):
        """Takes an item out of the list and its chain."""
        self.remove_listed(entry)
        self.unlink(entry)
        self.items -= 1
        self.bytes -= entry.charge()
        if entry.parent:
            del entry.parent.parts[entry.number]
        else:
            del self.entries[entry.key]

    def drop_parts(self, entry):
        for part in [part for part in self.listed() if part.parent is entry]:
            self.drop(part)
            self.free_all(part)
            self.count(-1, True)

    def listed(self):
        entry = self.head
        while entry:
            yield entry
            entry = entry.next

    def evict(self, entry):
        self.read_record(entry)
        if entry.parent is None:
            self.find(entry.key)
        self.drop(entry)
        self.drop_parts(entry)
        self.free_all(entry)
        self.count(-1, True)

    def evict_for(self, more_bytes, more_items, covered=()):
        most = self.max_bytes
        if not more_bytes and not more_items:
            return
        if self.bytes + more_bytes <= most and self.items + more_items <= self.max_items:
            return
        self.evict_until(most - most // 16 - more_bytes, self.max_items - more_items, covered)

    def evict_until(self, most_bytes, most_items, covered=()):
        entry = self.tail
        while entry and (self.bytes > most_bytes or self.items > most_items):
            before = entry.prev
            self.read_node(entry)
            if not entry.names and entry not in covered:
                self.evict(entry)
            entry = before

    # Streams.

    def store(self, entry, stream, offset, count, is_cut, rule="data"):
        """Writes bytes over a stream of an entry that is dirty. Gives by how much it rises."""
        old, place = entry.sizes[stream], entry.places[stream]
        size = offset + count if is_cut else max(old, offset + count)
        if storage(size) != storage(old):
            self.move(entry, stream, offset, count, size, rule)
        elif place:
            self.make_room(place, old, size, offset, rule)
            if count:
                self.data(rule, count, place)
            if size != old:
                self.sealed("size and address", [1])
        entry.sizes[stream] = size
        return size - old

    def make_room(self, place, old, size, offset, rule):
        if place.kind == EXTERNAL:
            if size != old:
                self.lengthen("external file", place.file, size)
        elif offset > old:
            self.data(rule, offset - old, place)

    def move(self, entry, stream, offset, count, size, rule):
        old, place = entry.sizes[stream], entry.places[stream]
        new = self.take_storage(size) if size else None
        if new:
            self.make_room(new, 0 if new.kind == EXTERNAL else old, size, offset, rule)
            for start, end in ((0, min(offset, old)), (offset + count, min(size, old))):
                for at in range(start, end, PIECE):
                    self.read("old bytes", place.name(), place.at() + at, min(PIECE, end - at))
                    self.data(rule, min(PIECE, end - at), new)
            if count:
                self.data(rule, count, new)
        if entry.parent is None or place:
            self.sealed("size and address", [1, 1])
        self.free(place)
        entry.places[stream] = new

    def unsettle(self, entry):
        if not entry.is_dirty:
            entry.is_dirty = True
            self.read_node(entry)
            self.sealed("dirty word", [1], True)

    # The commands.

    def create(self, handle, key):
        if self.find(key) or handle in self.handles:
            return
        self.evict_for(len(key), 1)
        entry = Entry(key)
        self.write_entry(entry)
        self.list_entry(entry)
        self.items += 1
        self.bytes += len(key)
        self.count(1, True)
        self.entries[key] = self.handles[handle] = entry
        entry.names = 1

    def open(self, handle, key):
        if handle in self.handles:
            return
        entry = self.find(key)
        if entry:
            self.touch(entry)
            entry.names += 1
            self.handles[handle] = entry

    def read_stream(self, handle, stream, offset, count):
        entry = self.handles.get(handle)
        if entry:
            self.read_record(entry)
            self.touch(entry)
            count = min(count, max(0, entry.sizes[stream] - offset))
            if count:
                self.read("data", entry.places[stream].name(), entry.places[stream].at() + offset, count)

    def write(self, handle, stream, offset, count, is_cut):
        entry = self.handles.get(handle)
        if entry:
            self.read_record(entry)
            rise = (offset + count if is_cut else max(entry.sizes[stream], offset + count)) - entry.sizes[stream]
            self.evict_for(max(0, rise), 0)
            self.unsettle(entry)
            self.store(entry, stream, offset, count, is_cut)
            self.touch(entry)
            self.bytes += rise
            if not entry.is_doomed:
                self.count(0, rise)

    def close(self, handle):
        entry = self.handles.pop(handle, None)
        if not entry:
            return
        entry.names -= 1
        if entry.names:
            return
        if entry.is_doomed:
            self.read_record(entry)
            self.free_all(entry)
            self.bytes -= entry.charge()
            self.items -= 1
        else:
            self.settle(entry)

    def flush(self, handle):
        entry = self.handles.get(handle)
        if entry and not entry.is_doomed:
            self.settle(entry)

    def settle(self, entry):
        if entry.is_dirty:
            self.read_node(entry)
            self.sealed("dirty word", [1], True)
            entry.is_dirty = False

    def doom(self, entry):
        if not entry or entry.is_doomed:
            return
        self.read_record(entry)
        charge = entry.charge()
        self.drop(entry)
        self.drop_parts(entry)
        if entry.names:
            entry.is_doomed = True
            self.sealed("state", [1])
            self.bytes += charge
            self.items += 1
        else:
            self.free_all(entry)
        self.count(-1, True)

    def size(self, handle):
        if handle in self.handles:
            self.read_record(self.handles[handle])

    def list_all(self):
        for entry in self.listed():
            self.read_node(entry)
            self.read_record(entry)

    # Sparse data.

    def begin_sparse(self, entry):
        self.store(entry, 2, 0, INDEX_OF_PARENT, True)
        self.sealed("flags", [1])
        entry.is_sparse = True

    def pieces(self, offset, count):
        """The parts that a range covers: the number of each, its first byte there and how many."""
        while count:
            number, place = divmod(offset, PART)
            piece = min(count, PART - place)
            yield number, place, piece
            offset, count = offset + piece, count - piece

    def name_of(self, entry, number):
        return b"Range_" + entry.key + b":1:" + b"%x" % number

    def sparse_write(self, handle, offset, count):
        entry = self.handles.get(handle)
        if not entry:
            return
        self.read_record(entry)
        covered = list(self.pieces(offset, count))
        bytes_more, items_more = self.rise_of(entry, covered)
        self.evict_for(bytes_more, items_more, [entry.parts[n] for n, _, _ in covered if n in entry.parts])
        self.unsettle(entry)
        if not entry.is_sparse:
            self.begin_sparse(entry)
        self.touch(entry)
        for number, place, piece in covered:
            self.write_part(entry, number, place, piece)
        self.bytes += bytes_more
        self.items += items_more
        self.count(items_more, bytes_more)

    def rise_of(self, entry, covered):
        rise = 0 if entry.is_sparse else INDEX_OF_PARENT
        for number, place, piece in covered:
            part = entry.parts.get(number)
            old = part.sizes[1] if part else 0
            rise += max(old, place + piece) - old + (0 if part else len(self.name_of(entry, number)) + INDEX_OF_PART)
        return rise, sum(number not in entry.parts for number, _, _ in covered)

    def write_part(self, entry, number, place, piece):
        name = self.name_of(entry, number)
        part = self.find(name, entry)
        if part:
            self.read_part_index(part)
            self.store(part, 1, place, piece, False)
            self.data("part's index", INDEX_OF_PART)
            self.touch(part)
            return
        part = Entry(name, entry)
        part.number = number
        self.store(part, 1, place, piece, False)
        self.store(part, 2, 0, INDEX_OF_PART, True, "part's index")
        self.write_entry(part)
        self.list_entry(part)
        self.word("parent's bit")
        entry.parts[number] = part

    def read_part_index(self, part):
        self.read_record(part)
        self.read("part's index", part.places[2].name(), part.places[2].at(), INDEX_OF_PART)

    def sparse_range(self, handle, offset, count, is_read=False):
        entry = self.handles.get(handle)
        if not entry or not entry.is_sparse:
            return
        self.read_record(entry)
        self.touch(entry)
        for number, place, piece in self.pieces(offset, count):
            part = self.find(self.name_of(entry, number), entry)
            if part:
                self.read_part_index(part)
                self.touch(part)
                if is_read and place < part.sizes[1]:
                    self.read("data", part.places[1].name(), part.places[1].at() + place, min(piece, part.sizes[1] - place))

    # Sessions and scripts.

    def opening(self, lengths):
        """The opening of a folder whose files have these lengths, or of an empty one, which is made."""
        if not lengths:
            for _ in range(5):
                self.other("make", "making")
                self.other("length", "making")
            for words in (4, 4, 4, 4, 1, 1, 2, 1):
                self.word("making", words)
        for length in lengths:
            for _ in range(-(-length // 131072)):
                self.steps.append(Step("read", 131072, "opening"))
        self.word("session")
        self.word("session")
        self.pages = Pages()
        for page in range(65):
            self.pages.read("index", 4096 * page, 1)

    def end(self):
        for handle in list(self.handles):
            self.close(handle)
        self.word("session")

    def line(self, line):
        word, *fields = line.split()
        if word in ("create", "open", "doomkey"):
            key = re.sub("%(..)", lambda it: chr(int(it[1], 16)), fields[-1]).encode("latin-1")
        if word == "create":
            self.create(fields[0], key)
        elif word == "open":
            self.open(fields[0], key)
        elif word == "read":
            self.read_stream(fields[0], *map(int, fields[1:]))
        elif word in ("write", "cut"):
            self.write(fields[0], int(fields[1]), int(fields[2]), length_of(fields[3]), word == "cut")
        elif word == "size":
            self.size(fields[0])
        elif word == "swrite":
            self.sparse_write(fields[0], int(fields[1]), length_of(fields[2]))
        elif word in ("srange", "sread"):
            self.sparse_range(fields[0], int(fields[1]), int(fields[2]), word == "sread")
        elif word == "doom":
            self.doom(self.handles.get(fields[0]))
        elif word == "doomkey":
            self.doom(self.find(key))
        elif word == "close":
            self.close(fields[0])
        elif word == "flush":
            self.flush(fields[0])
        elif word == "trim":
            self.evict_until(int(fields[0]), self.max_items)
        elif word == "list":
            self.list_all()


def length_of(digits):
    """How many bytes a field of data has."""
    return 0 if digits == "-" else len(digits) // 2


def calls(steps):
    """How many system calls steps take: a file that is made is opened and closed."""
    return sum(2 if step.kind == "make" else 1 for step in steps)


def counts(steps):
    """How many words are written, by how many writes; writes of data; lengths, files made and deleted; and reads."""
    kinds = ("word", "data", "length", "make", "delete", "read")
    found = {kind: sum(step.kind in (kind, f"file {kind}") for step in steps) for kind in kinds}
    found["words"] = sum(step.size // 4 for step in steps if step.kind == "word")
    return found
