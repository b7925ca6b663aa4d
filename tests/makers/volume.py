"""A volume of another maker: what its bytes say, what mtools and fsck.fat say of it, what our command says of it."""

import os
import re
import shutil
import struct
import subprocess
import tempfile

from as_mdir import files_of, free_of, our_list
from counts import expect, skip

JUDGE = ["tests/compare/target/release/judge"]
LISTING = ["tests/x86.sh", "target/c/listing"]
COMMAND = ["tests/x86.sh", "target/c/balladmoor"]

# The diskettes of the specification by their kilobytes: kind byte, clusters, bytes of a cluster, first data sector.
DISKETTES = {
    160: (0xFE, 313, 512, 7),
    320: (0xFF, 315, 1024, 10),
    180: (0xFC, 351, 512, 9),
    360: (0xFD, 354, 1024, 12),
}

ENVIRONMENT = dict(
    os.environ,
    LC_ALL="C",
    TZ="UTC",
    MTOOLSRC="/dev/null",
    MTOOLS_DATE_STRING="yyyy-mm-dd",
    MTOOLS_TWENTY_FOUR_HOUR_CLOCK="1",
    SOURCE_DATE_EPOCH="1782903906",  # 2026-07-01 11:05:06, the stamp of what our command puts there
)


class EndedBadly(Exception):
    """A program without which the maker's other volumes can't be tried."""


def ran(command, **words):
    """What a program printed."""
    done = subprocess.run(command, env=ENVIRONMENT, capture_output=True, **words)
    if done.returncode != 0:
        raise EndedBadly(f"{' '.join(command)}: exit status {done.returncode}: {done.stderr}")
    return done.stdout


def started(command):
    pipe = subprocess.PIPE
    return subprocess.Popen(command, env=ENVIRONMENT, stdin=subprocess.DEVNULL, stdout=pipe, stderr=pipe)


def ended(*commands):
    """Runs programs at once, as under the emulator a start takes long; each one's status, what it printed and said."""
    running = [started(command) for command in commands]
    told = [program.communicate() for program in running]
    return [(program.returncode, out, said.decode()) for program, (out, said) in zip(running, told)]


class Volume:
    """A volume in a file, of the length of one of the four kinds (other lengths are judged only)."""

    def __init__(self, folder, kilobytes, maker):
        self.folder = folder
        self.title = f"{maker}, {kilobytes}K"
        self.bad = self.reserved = 0
        # The clusters that files have beyond what their sizes need, by the files' names.
        self.spare = {}
        if kilobytes in DISKETTES:
            self.kind, self.clusters, self.cluster_bytes, self.first_data = DISKETTES[kilobytes]
        self.path = os.path.join(folder, "volume")
        if os.path.exists(self.path):
            os.remove(self.path)

    # ---- Its bytes, read by the fields of the boot sector. Our code never looks at these.

    def bytes(self):
        with open(self.path, "rb") as file:
            return file.read()

    def layout(self):
        """Where the copies of the table begin, where the root begins, and its entries."""
        sector, _, reserved, copies, entries, _, _, table = struct.unpack_from("<HBHBHHBH", self.bytes(), 11)
        begins = [(reserved + copy * table) * sector for copy in range(copies + 1)]
        return begins[:-1], begins[-1], entries

    def root(self):
        """The root's entries."""
        _, begin, entries = self.layout()
        image = self.bytes()
        return [image[begin + 32 * slot :][:32] for slot in range(entries)]

    def slots_with(self, bit):
        """The live slots with an attribute bit."""
        root = enumerate(self.root())
        return [slot for slot, entry in root if entry[0] not in (0x00, 0xE5) and entry[11] & bit]

    def slot_of(self, name):
        """The slot of a file, and the cluster at which it starts."""
        first, _, extension = name.partition(".")
        wanted = f"{first:8}{extension:3}".encode()
        slot = [entry[:11] for entry in self.root()].index(wanted)
        return slot, struct.unpack_from("<H", self.root()[slot], 26)[0]

    def chain_of(self, name):
        """The clusters of a file, by the first copy of the table."""
        (table, *_), _, _ = self.layout()
        image = self.bytes()
        chain, value = [], self.slot_of(name)[1]
        while 2 <= value <= self.clusters + 1:
            chain.append(value)
            word = struct.unpack_from("<H", image, table + value * 3 // 2)[0]
            value = word >> 4 if value % 2 else word & 0xFFF
        return chain

    def put_values(self, values):
        """Puts values into both copies of the table, by hand; half a byte of each word is a neighbour's."""
        image = bytearray(self.bytes())
        for table in self.layout()[0]:
            for cluster, value in values.items():
                at = table + cluster * 3 // 2
                word = struct.unpack_from("<H", image, at)[0]
                word = word & 0x000F | value << 4 if cluster % 2 else word & 0xF000 | value
                struct.pack_into("<H", image, at, word)
        self.store(image)

    def put_start(self, name, cluster):
        """Puts the cluster at which a file starts into its entry, by hand."""
        image = bytearray(self.bytes())
        struct.pack_into("<H", image, self.layout()[1] + 32 * self.slot_of(name)[0] + 26, cluster)
        self.store(image)

    def store(self, image):
        with open(self.path, "wb") as file:
            file.write(image)

    def needed(self, size):
        """The clusters that a file of this size needs."""
        return -(-size // self.cluster_bytes)

    # ---- mtools and fsck.fat.

    def tool(self, name, *words):
        """What a program of mtools prints."""
        return ran([name, "-i", self.path, *words], stdin=subprocess.DEVNULL).decode()

    def copy(self, name, content, stamp="1983-09-01 06:40:00"):
        """Has mtools copy a file with these bytes and this stamp to the volume."""
        self.copy_all({name: content}, stamp)

    def copy_all(self, files, stamp="1983-09-01 06:40:00"):
        """The same for several files."""
        with tempfile.TemporaryDirectory(dir=self.folder) as folder:
            sources = [os.path.join(folder, name) for name in files]
            for source, content in zip(sources, files.values()):
                with open(source, "wb") as file:
                    file.write(content)
            ran(["touch", "-d", stamp, *sources])
            self.tool("mcopy", "-m", *sources, "::")

    def mdir(self):
        """mdir's text, with hidden and system files."""
        return self.tool("mdir", "-a", "::")

    def expect_unread_by_mdir(self):
        """mdir takes the volume for no DOS disk."""
        [(status, shown, said)] = ended(["mdir", "-i", self.path, "::"])
        unread = (status, shown, "non MS-DOS disk" in said)
        expect(unread, (1, b"", True), f"{self.title}: mdir does not read it")

    def marks_by_mattrib(self):
        """The letters of each file's attribute, in slot order."""
        lines = self.tool("mattrib", "-X", "::*").splitlines() if files_of(self.mdir()) else []
        return [line.partition(" ")[0] for line in lines]

    def fsck(self, what):
        """The exit status of fsck.fat and its lines after the version; None where it is skipped."""
        if not shutil.which("fsck.fat"):
            skip(f"{what}: fsck.fat")
            return None
        done = subprocess.run(["fsck.fat", "-n", self.path], env=ENVIRONMENT, capture_output=True, text=True)
        return done.returncode, done.stdout.splitlines()[1:]

    def expect_fsck_agrees(self, what):
        """fsck.fat finds the files with spare clusters and nothing else; it counts all files, and no such clusters."""
        files = files_of(self.mdir())
        longer = [line for name, size in files if name in self.spare for line in self.cut_by_fsck(name, size)]
        lines = [*longer, "", "Leaving filesystem unchanged."] if longer else []
        # Its last line is the sum. It counts the label as a file, and bad clusters with those held.
        counted = len(files) + len(self.slots_with(0x08))
        clusters = sum(self.needed(size) for _, size in files) + self.bad
        lines.append(f"{self.path}: {counted} files, {clusters}/{self.clusters} clusters")
        said = self.fsck(what)
        if said is not None:
            found = f"just the spare clusters of {', '.join(self.spare)}" if self.spare else "nothing"
            expect(said, (1 if longer else 0, lines), f"{what}: fsck.fat finds {found}")

    def cut_by_fsck(self, name, size):
        """What fsck.fat says of a file with spare clusters."""
        most = self.needed(size) * self.cluster_bytes
        yield f"/{name}"
        yield f"  File size is {size} bytes, cluster chain length is > {most} bytes."
        yield f"  Truncating file to {size} bytes."

    def expect_fsck_complains(self, what):
        """fsck.fat finds something too."""
        said = self.fsck(f"{self.title}, {what}")
        if said is not None:
            expect(said[0], 1, f"{self.title}, {what}: fsck.fat finds something")

    # ---- Our programs.

    def command(self, name, *words):
        """The words that start our command on this volume."""
        return [*COMMAND, name, self.path, *words]

    def change(self, name, *words):
        """Runs our command; whether it ended well, without a word."""
        return ended(self.command(name, *words)) == [(0, b"", "")]

    def put(self, name, content):
        """Has our command put a file there; its exit status and what it said."""
        with tempfile.NamedTemporaryFile(dir=self.folder) as file:
            file.write(content)
            file.flush()
            [(status, _, said)] = ended(self.command("put", name, file.name))
        return status, said

    def listed(self):
        """The lines of the listing program."""
        return ran(LISTING, input=self.bytes()).decode().splitlines()

    # ---- What must come out.

    def lines_below(self):
        """What our list has below mdir's lines: the bytes of bad and of reserved clusters, if there are any."""
        counts = {"bad": self.bad, "reserved": self.reserved}
        return [below(sort, count * self.cluster_bytes) for sort, count in counts.items() if count]

    def expect_judged(self, verdict, what):
        """The independent implementation says so."""
        expect(ran(JUDGE, input=self.bytes()).decode(), f"{verdict}\n", f"{what}: {verdict}")

    def expect_counts(self, files, free, held, what):
        """Sound with these counts, by the independent implementation and by our check; our list's lines."""
        self.expect_judged(f"sound {files} {free} {held} {self.bad} {self.reserved}", what)
        counts = f"clusters free {free}, held by files {held}, bad {self.bad}, reserved {self.reserved}"
        sound = f"{self.path}: sound; files {files}; {counts}\n".encode()
        checked, (status, lines, said) = ended(self.command("check"), self.command("list"))
        expect(checked, (0, sound, ""), f"{what}: our check says so")
        expect((status, said), (0, ""), f"{what}: our list ends well")
        return lines.decode().splitlines()

    def expect_sound(self, what):
        """Sound, with mdir's files and free clusters, and listed as mdir lists them."""
        what = f"{self.title}, {what}"
        shown = self.mdir()
        files = files_of(shown)
        free = free_of(shown) // self.cluster_bytes
        held = sum(self.needed(size) for _, size in files) + sum(self.spare.values())
        total = free + held + self.bad + self.reserved
        expect(total, self.clusters, f"{what}: each cluster is free, held, bad or reserved")
        lines = self.expect_counts(len(files), free, held, what)
        wanted = our_list(shown, self.path, self.marks_by_mattrib()) + self.lines_below()
        expect(lines, wanted, f"{what}: our list is mdir's")

    def expect_finding(self, finding, place, what):
        """The independent implementation and our check find this, and our command changes nothing there."""
        what = f"{self.title}, {what}"
        self.expect_judged(f"finding {finding} {place}", what)
        before = self.bytes()
        told = ended(*(self.command(*words) for words in (["check"], ["list"], ["get", "TARE.KEY", "-"])))
        told += ended(self.command("put", "NEW.KEY", "/dev/null"))
        says = [(status, found(said), refused(said)) for status, _, said in told]
        number = 40 if finding == 1 else 41
        checked = (4, (finding, place), None)
        others = (1, None if finding == 1 else (finding, place), number)
        expect(says, [checked, others, others, others], f"{what}: our check says so, and list, get, put refuse")
        expect(self.bytes() == before, True, f"{what}: nothing is altered")


def below(sort, count):
    """A line of our list with a number of bytes, in groups of three digits as mdir has them."""
    return f"{count:,}".replace(",", " ").rjust(35) + f" bytes {sort}"


def found(said):
    """The finding and its place in a sentence of our command."""
    match = re.search(r"finding (\d+) at [a-z ]+ (\d+): ", said)
    return match and (int(match[1]), int(match[2]))


def refused(said):
    """The refusal number in a sentence of our command."""
    match = re.search(r"\(refusal (\d+)[;)]", said)
    return match and int(match[1])


def fields(lines, key):
    """The values of a key of a listing."""
    return [line[len(key) + 1 :] for line in lines if line.startswith(key + "=")]
