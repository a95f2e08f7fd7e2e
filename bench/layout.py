"""Where the program puts things, as far as it says which pages a command needs: the hash, blocks by counters and hints, and the pages that are held."""

from collections import OrderedDict

PAGE = 4096
PAGES = 64
HEADER = 8192
MASK = 0xFFFFFFFF
BLOCK_SIZES = {1: 36, 2: 256, 3: 1024, 4: 4096}
EXTERNAL = 0


def hash_of(key):
    """The hash of a key: docs/FORMAT.md, "The hash"."""
    h = len(key)
    whole = len(key) & ~3
    for i in range(0, whole, 4):
        h = h + int.from_bytes(key[i : i + 2], "little") & MASK
        t = (int.from_bytes(key[i + 2 : i + 4], "little") << 11 & MASK) ^ h
        h = (h << 16 & MASK) ^ t
        h = h + (h >> 11) & MASK
    rest = key[whole:]
    last = rest[-1] - 256 if rest and rest[-1] > 127 else rest[-1] if rest else 0
    if len(rest) == 3:
        h = h + int.from_bytes(rest[:2], "little") & MASK
        h = h ^ (h << 16 & MASK)
        h = h ^ (last << 18 & MASK)
        h = h + (h >> 11) & MASK
    elif len(rest) == 2:
        h = h + int.from_bytes(rest, "little") & MASK
        h = h ^ (h << 11 & MASK)
        h = h + (h >> 17) & MASK
    elif len(rest) == 1:
        h = h + last & MASK
        h = h ^ (h << 10 & MASK)
        h = h + (h >> 1) & MASK
    for shift, down in ((3, 5), (4, 17), (25, 6)):
        h = h ^ (h << shift & MASK)
        h = h + (h >> down) & MASK
    return h


def kind_for(size):
    """The type of the storage of data: blocks of 256, 1024 or 4096 bytes, or an external file."""
    return 2 if size < 1024 else 3 if size < 4096 else 4 if size <= 16384 else EXTERNAL


def storage(size):
    """The type and the number of blocks of data, or None of no bytes."""
    if size == 0:
        return None
    kind = kind_for(size)
    return (kind, -(-size // BLOCK_SIZES[kind])) if kind else (EXTERNAL, 1)


def record_blocks(key_len):
    """The blocks of a record with its key."""
    return 1 if key_len < 160 or key_len > 927 else (key_len - 160) // 256 + 2


def longest_run(group):
    """The longest run of free blocks of a group, whose used blocks are the bits of a number."""
    best = run = 0
    for bit in range(4):
        run = 0 if group >> bit & 1 else run + 1
        best = max(best, run)
    return best


# By the used blocks of a group as bits: its longest run of free blocks.
RUNS = [longest_run(group) for group in range(16)]


class BlockFile:
    """A block file: its groups of four blocks, how many groups have which longest free run, and its hints."""

    def __init__(self, name):
        self.name = name
        self.groups = []
        self.empty = [0, 0, 0, 0]
        self.hints = [0, 0, 0, 0]

    def grow(self):
        more = 96 if len(self.groups) == 64512 // 4 else 256
        self.groups += [0] * more
        self.empty[3] += more

    def take(self, count):
        """The first of so many blocks by counters and hints, or None where the file has no room."""
        run = next((i for i in range(count - 1, 4) if self.empty[i]), None)
        if run is None:
            return None
        total = len(self.groups)
        at = next(at % total for at in range(self.hints[run] % total, 2 * total) if RUNS[self.groups[at % total]] == run + 1)
        first = next(b for b in range(5 - count) if not self.groups[at] >> b & (1 << count) - 1)
        self.hints[run] = at
        self.change(at, self.groups[at] | ((1 << count) - 1) << first)
        return 4 * at + first

    def free(self, first, count):
        self.change(first // 4, self.groups[first // 4] & ~(((1 << count) - 1) << first % 4))

    def change(self, at, group):
        before, after = RUNS[self.groups[at]], RUNS[group]
        self.groups[at] = group
        if before:
            self.empty[before - 1] -= 1
        if after:
            self.empty[after - 1] += 1


class Pages:
    """The pages that were read last, as many as the program keeps."""

    def __init__(self):
        self.held = OrderedDict()

    def read(self, file, at, count):
        """Reads bytes of a file. Gives how many of its pages weren't held."""
        missed = 0
        for page in range(at // PAGE, (at + count - 1) // PAGE + 1):
            if (file, page) in self.held:
                self.held.move_to_end((file, page))
                continue
            missed += 1
            self.held[file, page] = True
            if len(self.held) > PAGES:
                self.held.popitem(last=False)
        return missed

    def forget(self, file):
        for name in [name for name in self.held if name[0] == file]:
            del self.held[name]
