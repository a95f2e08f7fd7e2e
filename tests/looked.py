#!/usr/bin/env python3
"""What is left in folders of what was removed.

tests/looked.py PROGRAM PIECES PLACES INPUT FOLDER ..

Prints a line for each folder: how many of the pieces (the lines of the file PIECES, of 16 letters and digits) are in its files that are none of
what it holds, or are there more often; how many blocks that are not marked have a byte that isn't 0; how many digits that aren't 0 are in what
entries own, behind the ends of their streams and keys and where a record has no field; how many blocks are marked that no entry owns, or are
owned without a mark, and how many external files nobody owns, or are missing; and a sum of what the program answers to the lines of the file
INPUT, where there is one.
At PLACES the runs of sparse data begin.
"""
import collections
import hashlib
import os
import re
import struct
import subprocess
import sys

PAGE = 4096
HEADER = 8192
MAP = 80
LONG = re.compile(rb"[0-9A-Za-z]{16,}")
SIZES = {1: 36, 2: 256, 3: 1024, 4: 4096}
NODE = 36
# Of a record's 96 bytes those that aren't always 0; its key follows, where it has no storage of its own.
FIELDS = [(0, 12), (20, 76), (92, 96)]
RECORD = 96


def count_pieces(data, pieces, found):
    """Counts the pieces that are in data, none of which overlap."""
    for run in LONG.findall(data):
        at = 0
        while at + 16 <= len(run):
            piece = run[at : at + 16]
            if piece in pieces:
                found[piece] += 1
                at += 16
            else:
                at += 1


def is_blank(data):
    return data == bytes(len(data))


def written_in(data):
    """The bytes of data in runs of pages that are not blank."""
    first = None
    for at in range(0, len(data) + PAGE, PAGE):
        page = data[at : at + PAGE]
        if is_blank(page):
            if first is not None:
                yield data[first:at]
            first = None
        elif first is None:
            first = at


class Folder:
    def __init__(self, program, path):
        self.program, self.path = program, path
        self.files = {}
        for name in os.listdir(path):
            with open(os.path.join(path, name), "rb") as file:
                self.files[name] = file.read()

    def run(self, *words, given=b""):
        return subprocess.run([self.program, self.path, *words], input=given, capture_output=True, timeout=60).stdout

    def pieces_left(self, pieces, places):
        found, given = collections.Counter(), collections.Counter()
        for data in self.files.values():
            for run in written_in(data):
                count_pieces(run, pieces, found)
        rows, lines = self.run("list"), []
        count_pieces(rows, pieces, given)
        for row in rows.splitlines():
            kind, *rest = row.split(b" ")
            if kind == b"main":
                reads = [b"read 0 %d 0 99999999" % it for it in range(3) if int(rest[1 + it])]
            elif kind == b"sparse":
                reads = [b"sread 0 %d 1048576" % it for it in places]
            else:
                continue
            lines += [b"open 0 " + rest[0], *reads, b"close 0"]
        for reply in self.run("session", given=b"\n".join([*lines, b""])).splitlines():
            words = reply.split()
            if words[:1] == [b"data"] and words[1] != b"0":
                count_pieces(bytes.fromhex(words[2].decode()), pieces, given)
        return sum((found - given).values())

    def blocks_left(self):
        left = 0
        for name, file in self.files.items():
            if not name.startswith("data_"):
                continue
            size = struct.unpack_from("<I", file, 12)[0]
            for block, at in enumerate(range(HEADER, len(file), size)):
                if not is_blank(file[at : at + size]) and not file[MAP + block // 8] >> block % 8 & 1:
                    left += 1
        return left

    def unexplained(self):
        """How many digits that aren't 0 are in the storage of live entries without being explained by them, and how many blocks and files have
        an owner and no mark, or the other way round."""
        owned, digits = set(), 0

        def take(address, parts):
            """An entry owns this storage, of which these parts are explained."""
            nonlocal digits
            kind = address >> 28 & 7
            if address == 0:
                return
            if kind == 0:
                name = "f_%06x" % (address & 0xFFFFFFF)
                owned.add(name)
                rest = bytearray(self.files.get(name, b""))
            else:
                name, first, count = "data_%d" % (address >> 16 & 255), address & 0xFFFF, (address >> 24 & 3) + 1
                owned.update((name, first + it) for it in range(count))
                at = HEADER + first * SIZES[kind]
                rest = bytearray(self.files[name][at : at + count * SIZES[kind]])
            for start, end in parts:
                end = min(end, len(rest))
                rest[start:end] = bytes(max(0, end - start))
            digits += len(rest.hex().replace("0", ""))

        for line in self.run("inspect", "list").split(b"\n"):
            node = line.split()
            if node[:1] != [b"node"]:
                continue
            entry = dict(it.split(b" ", 1) for it in self.run("inspect", "entry", node[3].decode()).splitlines() if b" " in it)
            entry = {name: int(value, 16) for name, value in entry.items() if name != b"key"}
            take(int(node[1], 16), [(0, NODE)])
            key_here = 0 if entry[b"long_key"] else entry[b"key_len"]
            take(int(node[3], 16), [*FIELDS, (RECORD, RECORD + key_here)])
            for words in [(b"addr%d" % it, b"size%d" % it) for it in range(4)] + [(b"long_key", b"key_len")]:
                take(entry[words[0]], [(0, entry[words[1]])])
        there = {name for name in self.files if name.startswith("f_")}
        for name, file in self.files.items():
            if name.startswith("data_"):
                marks = [(it, byte) for it, byte in enumerate(file[MAP:HEADER]) if byte]
                there.update((name, it * 8 + bit) for it, byte in marks for bit in range(8) if byte >> bit & 1)
        return digits, len(there ^ owned)


def main():
    program, pieces, places, given, *folders = sys.argv[1:]
    with open(pieces, "rb") as file:
        pieces = set(file.read().split())
    for path in folders:
        folder = Folder(program, path)
        left = folder.pieces_left(pieces, [int(it) for it in places.split()]), folder.blocks_left(), *folder.unexplained()
        told = ""
        if given:
            with open(given, "rb") as file:
                told = hashlib.sha256(folder.run("session", given=file.read())).hexdigest()
        print(*left, told)


main()
