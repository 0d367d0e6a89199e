#!/usr/bin/env python3
"""Random changes of a database as scripts for our gdbmtool or for GNU's, and a database changed by Python's dbm.gnu.

gnu.py changes RECORDS SEED COUNT ours|gnus|full   prints a script, and brings the file of records up to date; a `full` one is
                                                   GNU's without an empty key or value
gnu.py python FILE RECORDS SEED COUNT              compares the database with the records, and changes both

A file of records has a line a record: key and value in hexadecimal digits, sorted.
"""
import sys

from session import Random, word

PLAIN = b"abcdefghijklmnopqrstuvwxyz0123456789.@_-"


def read(path):
    with open(path, encoding="ascii") as file:
        pairs = (line.rstrip("\n").split(" ") for line in file)
        return {bytes.fromhex(key): bytes.fromhex(value) for key, value in pairs}


def write(path, records):
    lines = sorted(f"{key.hex()} {value.hex()}" for key, value in records.items())
    with open(path, "w", encoding="ascii") as file:
        file.write("".join(line + "\n" for line in lines))


def plain_word(data):
    """A word of GNU's gdbmtool, which has no numbers for bytes."""
    return data.decode() if data else '""'


class Changes:
    """Stores and deletions, chosen at random."""

    def __init__(self, records, seed, any_bytes, least=0):
        self.random, self.records, self.any_bytes, self.least = Random(seed), records, any_bytes, least

    def data(self, longest):
        length = max(self.least, self.random.below(longest))
        if self.any_bytes:
            return bytes(self.random.below(256) for _ in range(length))
        return bytes(PLAIN[self.random.below(len(PLAIN))] for _ in range(length))

    def key(self):
        kind = self.random.below(20)
        if kind == 0:
            return self.data(40)
        return b"key%d" % self.random.below(500)

    def value(self):
        kind = self.random.below(30)
        longest = 3000 if kind == 0 else 1 if kind == 1 else 80
        return self.data(longest)

    def names(self):
        """The keys that are there and that a word can name."""
        return sorted(key for key in self.records if self.any_bytes or all(byte in PLAIN for byte in key))

    def step(self):
        """The key, and its new value, or None where it goes."""
        names = self.names() if self.random.below(5) < 2 else []
        if names:
            key, value = names[self.random.below(len(names))], None
            del self.records[key]
        else:
            key, value = self.key(), self.value()
            self.records[key] = value
        return key, value


def changes(path, seed, count, language):
    records = read(path)
    source = Changes(records, seed, language == "ours", 1 if language == "full" else 0)
    form = word if language == "ours" else plain_word
    for _ in range(count):
        key, value = source.step()
        print(f"delete {form(key)}" if value is None else f"store {form(key)} {form(value)}")
    write(path, records)


def python(path, records_path, seed, count):
    import dbm.gnu

    records = read(records_path)
    with dbm.gnu.open(path, "w") as database:
        there = {}
        key = database.firstkey()
        while key is not None:
            there[key] = database[key]
            key = database.nextkey(key)
        if there != records:
            sys.exit("dbm.gnu: other records")
        source = Changes(records, seed, True)
        for _ in range(count):
            key, value = source.step()
            if value is None:
                del database[key]
            else:
                database[key] = value
    write(records_path, records)


def main(argv):
    if argv[1:2] == ["changes"] and len(argv) == 6:
        changes(argv[2], int(argv[3]), int(argv[4]), argv[5])
    elif argv[1:2] == ["python"] and len(argv) == 6:
        python(argv[2], argv[3], int(argv[4]), int(argv[5]))
    else:
        sys.exit(__doc__)


if __name__ == "__main__":
    main(sys.argv)
