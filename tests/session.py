#!/usr/bin/env python3
"""A script of random commands for gdbmtool, with what a sorted map answers to it, and the records of a dump.

session.py script FOLDER SEED COUNT   writes script, out, err and records into FOLDER
session.py records DUMP               prints the records of an ASCII dump, sorted
"""
import base64
import sys


class Random:
    """The same numbers on every machine."""

    def __init__(self, seed):
        self.state = seed

    def below(self, bound):
        self.state = (self.state * 6364136223846793005 + 1442695040888963407) % 2**64
        return (self.state >> 33) % bound


def word(data):
    """A word of the command language for these bytes."""
    plain = all(33 <= byte < 127 and chr(byte) not in '"{},' for byte in data) and data and data[:1] != b"#"
    if plain:
        return data.decode()
    return '"' + "".join(f"\\{byte:03o}" for byte in data) + '"'


def printed(data):
    """Bytes as gdbmtool prints them."""
    return "".join(
        "\\" + chr(byte) if chr(byte) in '"\\' else chr(byte) if 32 <= byte < 127 else f"\\{byte:03o}" for byte in data
    )


class Model:
    def __init__(self, random):
        self.random = random
        self.records = {}
        self.is_open = True
        self.script, self.out, self.err = [], [], []

    def say(self, line):
        self.out.append(line)

    def refuse(self, error):
        self.err.append(f"gdbmtool: {len(self.script)}: {error}")

    def key(self):
        """Mostly one of few keys, so that many are there; some with bytes of any kind, and the empty one."""
        kind = self.random.below(10)
        if kind == 0:
            return bytes(self.random.below(256) for _ in range(self.random.below(6)))
        return b"key%d" % self.random.below(300)

    def value(self):
        length = self.random.below(4) * self.random.below(60)
        return bytes(self.random.below(256) for _ in range(length))

    def store(self, name, insert):
        key, value = self.key(), self.value()
        self.script.append(f"{name} {word(key)} {word(value)}")
        if not self.is_open:
            self.refuse("error 26 NotOpen")
        elif insert and key in self.records:
            self.refuse("error 16 CannotReplace")
        else:
            self.records[key] = value

    def fetch(self):
        key = self.key()
        self.script.append(f"fetch {word(key)}")
        if not self.is_open:
            self.refuse("error 26 NotOpen")
        elif key in self.records:
            self.say(printed(self.records[key]))
        else:
            self.refuse("error 15 ItemNotFound")

    def delete(self):
        key = self.key()
        self.script.append(f"delete {word(key)}")
        if not self.is_open:
            self.refuse("error 26 NotOpen")
        elif key in self.records:
            del self.records[key]
        else:
            self.refuse("error 15 ItemNotFound")

    def count(self):
        self.script.append("count")
        if self.is_open:
            self.say(str(len(self.records)))
        else:
            self.refuse("error 26 NotOpen")

    def close(self):
        self.script.append("close")
        self.is_open = False

    def open(self):
        self.script.append("open")
        self.is_open = True

    def unknown(self):
        self.script.append("bake a cake")
        self.refuse("UnknownCommand")

    def step(self):
        choice = self.random.below(100)
        if not self.is_open and self.random.below(4) == 0:
            self.open()
        elif choice < 35:
            self.store("store", False)
        elif choice < 50:
            self.store("insert", True)
        elif choice < 70:
            self.fetch()
        elif choice < 88:
            self.delete()
        elif choice < 94:
            self.count()
        elif choice < 97:
            self.close()
        elif choice < 98:
            self.open()
        else:
            self.unknown()


def write(folder, name, lines):
    with open(f"{folder}/{name}", "w", encoding="ascii") as file:
        file.write("".join(line + "\n" for line in lines))


def write_script(folder, seed, count):
    model = Model(Random(seed))
    for _ in range(count):
        model.step()
    if not model.is_open:
        model.open()
    write(folder, "script", model.script)
    write(folder, "out", model.out)
    write(folder, "err", model.err)
    write(folder, "records", sorted(f"{key.hex()} {value.hex()}" for key, value in model.records.items()))


def items(path):
    """The keys and values of an ASCII dump, in turn."""
    texts = []
    for line in open(path, encoding="ascii"):
        if line.startswith("#:len="):
            texts.append((int(line[6:]), []))
        elif line[0] != "#" and texts:
            texts[-1][1].append(line)
    for length, lines in texts:
        data = base64.b64decode("".join(lines))
        if len(data) != length:
            sys.exit(f"{path}: {len(data)} bytes where {length} are told")
        yield data


def print_records(path):
    data = list(items(path))
    for line in sorted(f"{key.hex()} {value.hex()}" for key, value in zip(data[0::2], data[1::2], strict=True)):
        print(line)


def main(argv):
    if len(argv) == 5 and argv[1] == "script":
        write_script(argv[2], int(argv[3]), int(argv[4]))
    elif len(argv) == 3 and argv[1] == "records":
        print_records(argv[2])
    else:
        sys.exit(__doc__)


if __name__ == "__main__":
    main(sys.argv)
