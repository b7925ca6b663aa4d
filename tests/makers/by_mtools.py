"""Volumes formatted and filled by mtools."""

from counts import expect
from exchange import contents, delete_by_us, exchange, put_by_us, read_by_us
from volume import DISKETTES, Volume, ended, fields


def formatted(folder, kilobytes, *words):
    volume = Volume(folder, kilobytes, "mtools")
    volume.tool("mformat", "-C", "-f", str(kilobytes), *words, "::")
    return volume


def plain(size):
    """Bytes where only their number matters."""
    return bytes(n % 251 for n in range(size))


def try_blank(folder, kilobytes):
    volume = formatted(folder, kilobytes)
    # mformat's table begins with the media byte, our kind byte, and FF FF. With the length that makes the kind.
    expect(volume.bytes()[512:515], bytes([volume.kind, 0xFF, 0xFF]), f"{volume.title}: its table begins as ours")
    expect(len(volume.bytes()), 1024 * kilobytes, f"{volume.title}: the length of the kind")
    volume.expect_sound("blank")
    # The label is an entry with bit 08: one is allowed, and it is no file.
    volume = formatted(folder, kilobytes, "-v", "SCALE")
    expect(volume.slots_with(0x08), [0], f"{volume.title}: the label is an entry")
    volume.expect_sound("blank with a label")


def try_files(folder, kilobytes):
    volume = formatted(folder, kilobytes, "-v", "SCALE")
    volume.copy("TARE.KEY", plain(40), "1983-09-01 06:40:00")
    volume.copy("DAY001.LOG", plain(1025), "1983-09-01 18:05:58")
    volume.copy("EMPTY", plain(0), "1980-01-01 00:00:00")
    volume.copy("ONE.512", plain(512), "1999-12-31 23:59:58")
    volume.copy("ONE.513", plain(513), "2000-02-29 12:30:30")
    volume.copy("small.txt", plain(5000), "2024-06-30 09:08:06")
    volume.expect_sound("six files")
    # Neither mdir nor our list has seconds; these are the stamps that the files had.
    seconds = fields(volume.listed(), "time")
    wanted = ["06:40:00", "18:05:58", "00:00:00", "23:59:58", "12:30:30", "09:08:06"]
    expect(seconds, wanted, f"{volume.title}: seconds as copied, by the listing program")
    volume.tool("mattrib", "+r", "+h", "+s", "::TARE.KEY")
    volume.expect_sound("a file read-only, hidden and system")
    shown = b"27 read-only hidden system archive\n"
    expect(ended(volume.command("mode", "TARE.KEY")), [(0, shown, "")], f"{volume.title}: its attribute by our mode")
    # Deleted files leave erased slots and free clusters; a longer file then lies in pieces.
    volume.tool("mdel", "::DAY001.LOG", "::ONE.512")
    volume.copy("PIECES.BIN", plain(20000), "2010-10-10 10:10:10")
    # mren may leave the old slot erased.
    volume.tool("mren", "::ONE.513", "NEW.NAM")
    volume.expect_sound("files deleted, one in pieces, one renamed")


def try_list(folder, kilobytes):
    # Names with and without an extension, sizes of 1 to 6 digits, years to the last one, times about noon and midnight.
    volume = formatted(folder, kilobytes, "-v", "HIVES 7")
    volume.copy("A", plain(1), "1980-01-01 00:00:00")
    volume.copy("B.C", plain(12), "1999-12-31 11:59:58")
    volume.copy("LONGNAME", plain(123), "2000-01-01 12:00:00")
    volume.copy("LONGNAME.EXT", plain(1234), "2026-03-04 12:59:00")
    volume.copy("SIGNS-_.$#@", plain(12345), "2079-11-30 13:00:00")
    volume.copy("12345678.9", plain(100001), "2099-12-31 23:59:58")
    volume.expect_sound("sizes, dates and times of all widths")
    slots = {160: 64, 180: 64, 320: 112, 360: 112}[kilobytes]
    volume = formatted(folder, kilobytes)
    volume.copy_all({f"F{n}": b"" for n in range(slots)})
    volume.expect_sound("a file in each slot")


def try_full(folder, kilobytes):
    volume = formatted(folder, kilobytes)
    volume.copy("ALL", plain(volume.clusters * volume.cluster_bytes))
    volume.expect_sound("no cluster free")


def try_last_cluster(folder, kilobytes):
    # mtools takes the last cluster's number for too big, but in the entry of the cluster before it.
    volume = formatted(folder, kilobytes)
    volume.title += ", a link to the last cluster"
    files = {"FIRST": plain(2 * volume.cluster_bytes), "MOST": plain((volume.clusters - 3) * volume.cluster_bytes)}
    volume.copy_all(files)
    volume.expect_sound("the last cluster free")
    delete_by_us(volume, files, "FIRST")
    files["NEW"] = plain(3 * volume.cluster_bytes)
    put_by_us(volume, {"NEW": files["NEW"]})
    expect(volume.chain_of("NEW"), [2, 3, volume.clusters + 1], f"{volume.title}: the clusters of a new file")
    volume.expect_counts(2, 0, volume.clusters, volume.title)
    read_by_us(volume, files, volume.title)
    volume.expect_unread_by_mdir()


def try_long_names(folder, kilobytes):
    # A long name stands in entries of attribute 0F before the file's own, 13 characters each: bit 08 makes each a
    # label. One is allowed.
    volume = formatted(folder, kilobytes)
    volume.copy("longer.name", plain(5))
    expect(len(volume.slots_with(0x08)), 1, f"{volume.title}: one entry for a long name")
    volume.expect_sound("one long name")
    # The next is a second label: finding 4 at its slot.
    volume.copy("another.name", plain(5))
    volume.expect_finding(4, volume.slots_with(0x08)[1], "a second long name")
    # Where mformat made a label, the first long name is the second.
    volume = formatted(folder, kilobytes, "-v", "SCALE")
    volume.copy("longer.name", plain(5))
    volume.expect_finding(4, volume.slots_with(0x08)[1], "a long name beside the label")
    # 14 characters take two entries.
    volume = formatted(folder, kilobytes)
    volume.copy("longer123.name", plain(5))
    expect(volume.slots_with(0x08), [0, 1], f"{volume.title}: two entries for a longer name")
    volume.expect_finding(4, 1, "a name of 14 characters")


def try_folder(folder, kilobytes):
    # A folder's entry has attribute bit 10, which this specification does not know: finding 4 at its slot.
    volume = formatted(folder, kilobytes)
    volume.copy("TARE.KEY", plain(40))
    volume.tool("mmd", "::FOLDER")
    volume.expect_finding(4, volume.slots_with(0x10)[0], "a folder")
    [line] = [line for line in volume.mdir().splitlines() if "<DIR>" in line]
    [(_, listed, _)] = ended(volume.command("list"))
    expect(f"{line.rstrip()}  ----" in listed.decode().splitlines(), True, f"{volume.title}: our list has mdir's folder")


def try_exchange(folder, kilobytes):
    volume = formatted(folder, kilobytes, "-v", "SCALE")
    volume.copy_all(contents())
    exchange(volume, contents())


def try_other_sizes(folder):
    # A diskette of 720K has 1,440 sectors and media byte F9: no kind, so finding 1.
    volume = formatted(folder, 720)
    expect(volume.bytes()[512], 0xF9, f"{volume.title}: its media byte")
    volume.expect_finding(1, 0, "a diskette of another kind")


def try_all(folder):
    for kilobytes in DISKETTES:
        try_blank(folder, kilobytes)
        try_files(folder, kilobytes)
        try_list(folder, kilobytes)
        try_full(folder, kilobytes)
        try_last_cluster(folder, kilobytes)
        try_long_names(folder, kilobytes)
        try_folder(folder, kilobytes)
        try_exchange(folder, kilobytes)
    try_other_sizes(folder)
