"""Files go both ways: our command reads what the maker put on a volume, and mtools reads what our command did there."""

import os
import random
import re
import tempfile

from as_mdir import files_of
from counts import expect
from volume import COMMAND, ended

SCALE = ["tests/x86.sh", "target/c/scale"]

# The files that each maker puts on its volumes, in this order; sizes about the ends of clusters and on them.
SIZES = {
    "TARE.KEY": 40,
    "19830901.LOG": 1000,
    "DAY001.LOG": 1025,
    "EMPTY": 0,
    "ONE.511": 511,
    "GONE.BIN": 5120,
    "ONE.512": 512,
    "ONE.513": 513,
    "WHOLE.4K": 4096,
    "LONG.BIN": 40001,
}

# Patterns, and which names each matches, as regular expressions.
MATCHES = {
    "*.LOG": r".*\.LOG",
    "one.51?": r"ONE\.51.?",
    "????.*": r".{1,4}(\..*)?",
    "*": r"[^.]*",
    "*.*": r".*",
}


def content(name, size):
    """Bytes that no other file has, the same each time; the tare's are a number of grams."""
    return b"12500".ljust(size, b"\n") if name == "TARE.KEY" else random.Random(name).randbytes(size)


def contents():
    """The files' bytes by their names."""
    return {name: content(name, size) for name, size in SIZES.items()}


def held(volume, files):
    """The clusters that files with these bytes have: those that they need, and spare ones."""
    return sum(volume.needed(len(data)) for data in files.values()) + sum(volume.spare.values())


def taken(path):
    """The bytes of a file, which is then removed; None where there is none."""
    if not os.path.exists(path):
        return None
    with open(path, "rb") as file:
        data = file.read()
    os.remove(path)
    return data


def differing(files, folder):
    """The names whose bytes, in files of this folder that are then removed, are not these."""
    return [name for name, wanted in files.items() if taken(os.path.join(folder, name)) != wanted]


def read_by_us(volume, files, what):
    """Each file's bytes, by our get."""
    before = volume.bytes()
    got = ended(*(volume.command("get", name, "-") for name in files))
    differ = [name for name, told in zip(files, got) if told != (0, files[name], "")]
    expect(differ, [], f"{what}: the bytes of all files by our get")
    expect(volume.bytes() == before, True, f"{what}: reading alters nothing")


def found_by_us(volume, files):
    """The files that match, in mdir's order, by our list; their bytes one after the other, by our get."""
    what = f"{volume.title}, the maker's files"
    order = [name for name, _ in files_of(volume.mdir())]
    wanted = [[name for name in order if re.fullmatch(names, name)] for names in MATCHES.values()]
    lines = ["".join(f"{name}\n" for name in names).encode() for names in wanted]
    listed = ended(*([*COMMAND, "list", "--names", volume.path, pattern] for pattern in MATCHES))
    expect(listed, [(0, names, "") for names in lines], f"{what}: those that match patterns, by our list")
    joined = [b"".join(files[name] for name in names) for names in wanted]
    got = ended(*(volume.command("get", pattern, "-") for pattern in MATCHES))
    expect(got == [(0, data, "") for data in joined], True, f"{what}: the bytes of those, by our get")


def read_by_mtools(volume, files, what):
    """Exactly these files stand there, with their bytes, by mtools."""
    names = sorted(name for name, _ in files_of(volume.mdir()))
    expect(names, sorted(files), f"{what}: the files by mdir")
    with tempfile.TemporaryDirectory(dir=volume.folder) as folder:
        volume.tool("mcopy", *(f"::{name}" for name in files), folder)
        expect(differing(files, folder), [], f"{what}: the bytes of all files by mcopy")


def agreed(volume, files, what, fsck):
    """Sound, and the files have these bytes by mtools; fsck.fat finds nothing but spare clusters."""
    volume.expect_sound(what)
    what = f"{volume.title}, {what}"
    read_by_mtools(volume, files, what)
    if fsck:
        volume.expect_fsck_agrees(what)


def put_by_us(volume, files):
    """Has our command put these files there. An old file of the name loses its spare clusters."""
    said = [volume.put(name, data) for name, data in files.items()]
    expect(said, [(0, "")] * len(files), f"{volume.title}: our put")
    for name in files:
        volume.spare.pop(name, None)


def weigh(volume, count):
    """So many weighings, by the scale's program: its exit status, what it said, and the bytes of the weighings' lines.
    It writes behind the day's file, whose last line has no end."""
    grams = [str(61000 + n) for n in range(count)]
    [(status, _, said)] = ended([*SCALE, volume.path, "1983-09-01", "18:05:58", *grams])
    return status, said, ("\n" + "".join(f"18:05:58 {weight}\n" for weight in grams)).encode()


def append_by_us(volume, files, count):
    """The scale's program writes so many weighings behind the day's file, in its spare clusters first."""
    name = "19830901.LOG"
    status, said, lines = weigh(volume, count)
    expect((status, said), (0, ""), f"{volume.title}: weighings written at a file's end")
    own = volume.needed(len(files[name])) + volume.spare.pop(name, 0)
    files[name] += lines
    left = own - volume.needed(len(files[name]))
    if left > 0:
        volume.spare[name] = left


def delete_by_us(volume, files, name):
    """Has our command delete a file; its spare clusters go too."""
    expect(volume.change("delete", name), True, f"{volume.title}: our delete")
    del files[name]
    volume.spare.pop(name, None)


def rename_by_us(volume, files, name, new_name):
    """Has our command rename a file, which keeps its spare clusters."""
    expect(volume.change("rename", name, new_name), True, f"{volume.title}: our rename")
    for kept in (files, volume.spare):
        if name in kept:
            kept[new_name] = kept.pop(name)


def mark_by_us(volume):
    """Has our command mark the tare read-only: the scale's program wants it so."""
    expect(volume.change("mode", "TARE.KEY", "01"), True, f"{volume.title}: our mode")


def change_by_us(volume, files):
    """Puts, deletes, renames, marks and appends by our command, and keeps the files' bytes beside."""
    sizes = {"PIECES.BIN": 9001, "WHOLE.BIN": 2 * volume.cluster_bytes, "NOTHING": 0, "DAY001.LOG": 3000}
    put = {name: content(f"ours {name}", size) for name, size in sizes.items()}
    # The free clusters of the deleted file come first, then those after the last file: PIECES.BIN lies in pieces.
    delete_by_us(volume, files, "GONE.BIN")
    put_by_us(volume, put)
    files.update(put)
    rename_by_us(volume, files, "ONE.513", "NEW.NAM")
    mark_by_us(volume)
    append_by_us(volume, files, 200)
    mark = volume.tool("mattrib", "-X", "::TARE.KEY").split()[0]
    expect(mark, "R", f"{volume.title}: the tare's mark by mattrib")


def fill_by_us(volume, files, name="REST.BIN"):
    """Puts a file that leaves no cluster free; one byte more finds no room, before and after."""
    # An old file of the name makes room by all its clusters, the spare ones too.
    files.pop(name, None)
    volume.spare.pop(name, None)
    room = (volume.clusters - held(volume, files) - volume.bad - volume.reserved) * volume.cluster_bytes
    data = content(f"ours {name}", room + 1)
    before = volume.bytes()
    status, said = volume.put(name, data)
    full = (status, f"room for {room} of {room + 1} bytes" in said, volume.bytes() == before)
    expect(full, (1, True, True), f"{volume.title}: our put of a byte too much changes nothing")
    put_by_us(volume, {name: data[:room]})
    status, said = volume.put("MORE.BIN", b"M")
    expect((status, "room for 0 of 1 bytes" in said), (1, True), f"{volume.title}: our put finds the volume full")
    files[name] = data[:room]


def exchange(volume, files, fsck=True):
    """Both ways, on a volume that holds these files by its maker; answers the files at the end."""
    files = dict(files)
    boot_sector = volume.bytes()[:512]
    agreed(volume, files, "the maker's files", fsck)
    read_by_us(volume, files, f"{volume.title}, the maker's files")
    found_by_us(volume, files)
    change_by_us(volume, files)
    agreed(volume, files, "changed by our command", fsck)
    fill_by_us(volume, files)
    agreed(volume, files, "filled by our command", fsck)
    read_by_us(volume, files, f"{volume.title}, filled by our command")
    expect(volume.bytes()[:512] == boot_sector, True, f"{volume.title}: the boot sector keeps its bytes")
    return files
