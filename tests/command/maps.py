"""maps.py COUNT COMMAND..: maps of so many random volumes, most of them broken, by the command and by this program."""

import random
import string
import struct
import subprocess
import sys

# Kind byte: sectors, sectors of a table, of the root, of a cluster.
KINDS = {0xFE: (320, 1, 4, 1), 0xFF: (640, 1, 7, 2), 0xFC: (360, 2, 4, 1), 0xFD: (720, 2, 7, 2)}

# The files' letters, and the signs of clusters that are not one file's.
LETTERS = [letter for letter in string.ascii_letters if letter not in "rx"]
SIGNS = {
    ".": "free",
    "x": "bad",
    "r": "reserved",
    "*": "in two files or more",
    "?": "in use, but in no file",
}


class Volume:
    def __init__(self, seed):
        self.random = random.Random(seed)
        self.kind = self.random.choice(list(KINDS))
        sectors, self.fat, self.root, per = KINDS[self.kind]
        self.last = (sectors - (1 + 2 * self.fat + self.root)) // per + 1
        self.image = bytearray(512 * sectors)
        self.fill_table()
        self.fill_root()

    def any_cluster(self):
        return self.random.randint(2, self.last)

    def fill_table(self):
        values = [self.any_cluster] * 12
        values += [lambda: 0xFFF, lambda: 0xFF8, lambda: 0xFF7, lambda: 0xFF6, lambda: 0xFF0, lambda: 1]
        used = self.random.random()
        table = [0xF00 | self.kind, 0xFFF]
        for _ in range(2, self.last + 1):
            table.append(self.random.choice(values)() if self.random.random() < used else 0)
        table += [0] * (len(table) % 2)
        for even in range(0, len(table), 2):
            three = (table[even] | table[even + 1] << 12).to_bytes(3, "little")
            for copy in (512, 512 + 512 * self.fat):
                at = copy + even // 2 * 3
                self.image[at : at + 3] = three
        self.table = table

    def fill_root(self):
        self.starts = []
        used = self.random.random()
        for slot in range(16 * self.root):
            if self.random.random() < used:
                self.fill_slot(512 * (1 + 2 * self.fat) + 32 * slot, slot)

    def fill_slot(self, at, slot):
        first = self.random.choice([b"F"] * 8 + [b"\xe5", b"\0"])
        attribute = self.random.choice([0x20, 0x20, 0x20, 0x01, 0x10, 0x08, 0x0F])
        start = self.random.choice([0, 1, self.last + 1, 0xFFFF] + [self.any_cluster()] * 8)
        name = first + f"{slot:<10}".encode()
        entry = name + bytes([attribute]) + bytes(14) + struct.pack("<HI", start, self.random.randint(0, 9999))
        self.image[at : at + 32] = entry
        if first == b"F" and not attribute & 0x08:
            self.starts.append(start)

    def chain(self, start):
        """The clusters from start on, as far as they go."""
        met = []
        while 2 <= start <= self.last and start not in met:
            met.append(start)
            start = self.table[start]
        return met

    def signs(self):
        letters = LETTERS + ["+"] * len(self.starts)
        held = {}
        for letter, start in zip(letters, self.starts):
            for cluster in self.chain(start):
                held[cluster] = "*" if cluster in held else letter
        return [held.get(cluster) or sign_of(self.table[cluster]) for cluster in range(2, self.last + 1)]


def sign_of(value):
    """The sign of a cluster that no file holds."""
    return "." if value == 0 else "x" if value == 0xFF7 else "r" if 0xFF0 <= value <= 0xFF6 else "?"


def lines_below(signs):
    """What the map says of these signs below."""
    counts = {sign: signs.count(sign) for sign in SIGNS}
    return [f"{sign}  {SIGNS[sign]}: {count} cluster{'s' * (count != 1)}" for sign, count in counts.items() if count]


def shown(command, image):
    """The signs of the command's map, and its lines below that are not a file's."""
    done = subprocess.run([*command, "map", "-"], input=image, stdout=subprocess.PIPE, check=True)
    above, _, below = done.stdout.decode().partition("\n\n")
    signs = [sign for line in above.splitlines() for sign in line[6:]]
    return signs, [line for line in below.splitlines() if line[0] in SIGNS]


def main():
    for seed in range(int(sys.argv[1])):
        volume = Volume(seed)
        signs = volume.signs()
        if shown(sys.argv[2:], bytes(volume.image)) != (signs, lines_below(signs)):
            sys.exit(f"volume {seed}: the maps differ")


main()
