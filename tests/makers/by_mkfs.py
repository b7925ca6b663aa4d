"""Volumes formatted by mkfs.fat. It has no tool that copies files to them: mtools does."""

import os
import struct

from as_mdir import free_of
from counts import expect
from exchange import agreed, content, contents, exchange, fill_by_us, held, read_by_us
from volume import DISKETTES, Volume, ended, ran

# What gives the layout of each kind. Without -g it takes 16 sectors a track, and drops what does not fill a track.
KINDS = {
    160: "-g 1/8 -F 12 -f 2 -s 1 -r 64 -M 0xFE",
    320: "-g 2/8 -F 12 -f 2 -s 2 -r 112 -M 0xFF",
    180: "-g 1/9 -F 12 -f 2 -s 1 -r 64 -M 0xFC",
    360: "-g 2/9 -F 12 -f 2 -s 2 -r 112 -M 0xFD",
}

# Blocks of 1,024 bytes that it may be told are bad, and values of reserved clusters, behind the files.
BAD = (20, 30)
RESERVED = {150 + n: 0xFF0 + n for n in range(7)}

# Clusters behind the files, in no order. Of the files to which they are given the exchange keeps two, one of which is
# empty, and writes longer, puts anew, deletes and renames one each.
SPARE = {
    "TARE.KEY": [200, 230],
    "EMPTY": [241, 202],
    "19830901.LOG": [210, 209, 208, 207, 206],
    "DAY001.LOG": [220],
    "GONE.BIN": [301, 300, 310],
    "ONE.513": [250],
}


def formatted(folder, kilobytes, words):
    volume = Volume(folder, kilobytes, f"mkfs.fat {words}".strip())
    ran(["mkfs.fat", "-C", *words.split(), volume.path, str(kilobytes)])
    return volume


def try_kind(folder, kilobytes):
    formatted(folder, kilobytes, KINDS[kilobytes]).expect_sound("blank")
    # Its label is an entry, and one is allowed.
    volume = formatted(folder, kilobytes, KINDS[kilobytes] + " -n SCALE")
    expect(volume.slots_with(0x08), [0], f"{volume.title}: the label is an entry")
    volume.expect_sound("blank with a label")
    volume.copy_all(contents())
    exchange(volume, contents())


def with_bad_blocks(folder, kilobytes):
    """A volume with files, whose maker was told of bad blocks: their clusters have FF7 in the table."""
    listed = os.path.join(folder, "bad")
    with open(listed, "w") as file:
        file.writelines(f"{block}\n" for block in BAD)
    volume = formatted(folder, kilobytes, f"{KINDS[kilobytes]} -l {listed}")
    volume.title = f"mkfs.fat with bad blocks, {kilobytes}K"
    volume.bad = len(BAD) * 1024 // volume.cluster_bytes
    volume.copy_all(contents())
    return volume


def bad_blocks(volume):
    """Their bytes."""
    return [volume.bytes()[1024 * block :][:1024] for block in BAD]


def try_bad_blocks(folder, kilobytes):
    volume = with_bad_blocks(folder, kilobytes)
    before = bad_blocks(volume)
    exchange(volume, contents())
    expect(bad_blocks(volume) == before, True, f"{volume.title}: bad blocks keep their bytes")


def reserved_clusters(volume):
    """Their bytes."""
    begins = [512 * volume.first_data + (cluster - 2) * volume.cluster_bytes for cluster in RESERVED]
    return [volume.bytes()[begin:][: volume.cluster_bytes] for begin in begins]


def counted(volume, files, what):
    """Sound, with bad and with reserved clusters, and our list says how many bytes each sort has."""
    what = f"{volume.title}, {what}"
    used = held(volume, files)
    lines = volume.expect_counts(len(files), volume.clusters - used - volume.bad - volume.reserved, used, what)
    expect(lines[-2:], volume.lines_below(), f"{what}: our list ends with both")
    read_by_us(volume, files, what)


def try_reserved(folder, kilobytes):
    # No maker here has such values: mtools does not read the volume then, and fsck.fat would free the clusters.
    volume = with_bad_blocks(folder, kilobytes)
    volume.title = f"mkfs.fat with bad blocks, and reserved clusters put there by hand, {kilobytes}K"
    volume.put_values(RESERVED)
    volume.reserved = len(RESERVED)
    volume.expect_unread_by_mdir()
    volume.expect_fsck_complains("the maker's files")
    files, before = contents(), (bad_blocks(volume), reserved_clusters(volume))
    counted(volume, files, "the maker's files")
    fill_by_us(volume, files)
    counted(volume, files, "filled by our command")
    after = (bad_blocks(volume), reserved_clusters(volume))
    expect(after == before, True, f"{volume.title}: bad and reserved clusters keep their bytes")


def reserve_ahead(volume):
    """Gives files the clusters of SPARE by hand, as a unit does that takes them before it needs them."""
    for name, spare in SPARE.items():
        chain = volume.chain_of(name)
        if chain:
            volume.put_values({chain[-1]: spare[0]})
        else:
            volume.put_start(name, spare[0])
        volume.put_values(dict(zip(spare, [*spare[1:], 0xFFF])))
        expect(volume.chain_of(name), chain + spare, f"{volume.title}: the clusters of {name}")
    volume.spare = {name: len(spare) for name, spare in SPARE.items()}


def mapped_by_us(volume, files):
    """Our map has each file's letter at just its clusters, the spare ones too."""
    [(status, shown, _)] = ended(volume.command("map"))
    above, _, below = shown.decode().partition("\n\n")
    signs = "".join(line[6:] for line in above.splitlines())
    letters = {line[3:15].strip(): line[0] for line in below.splitlines() if line.endswith(" bytes")}
    mapped = {name: [at + 2 for at, sign in enumerate(signs) if sign == letters[name]] for name in files}
    chains = {name: sorted(volume.chain_of(name)) for name in files}
    expect((status, mapped), (0, chains), f"{volume.title}: our map has each cluster as its file's")


def freed_by_others(volume, files):
    """mtools frees the spare clusters of files that it deletes, and fsck.fat those of the others."""
    for name in ("EMPTY", "NEW.NAM"):
        volume.tool("mdel", f"::{name}")
        del files[name], volume.spare[name]
    agreed(volume, files, "two files with spare clusters deleted by mtools", fsck=True)
    [(status, _, _)] = ended(["fsck.fat", "-a", volume.path])
    expect(status, 1, f"{volume.title}: fsck.fat mends it")
    volume.spare = {}
    agreed(volume, files, "mended by fsck.fat", fsck=True)


def try_reserving_ahead(folder, kilobytes):
    # No maker here does so but DOSBox, by one cluster.
    volume = formatted(folder, kilobytes, KINDS[kilobytes])
    volume.title = f"mkfs.fat, and spare clusters put there by hand, {kilobytes}K"
    volume.copy_all(contents())
    reserve_ahead(volume)
    mapped_by_us(volume, contents())
    files = exchange(volume, contents())
    mapped_by_us(volume, files)
    freed_by_others(volume, files)


def try_usual(folder):
    # Told nothing, it makes an FD of 360K, and of the other lengths volumes with media byte F8: of no kind.
    formatted(folder, 360, "").expect_sound("as it comes")
    for kilobytes in (160, 180, 320):
        volume = formatted(folder, kilobytes, "")
        expect(volume.bytes()[512], 0xF8, f"{volume.title}: its media byte")
        volume.expect_finding(1, 0, "as it comes")


def try_other_layouts(folder):
    # A boot area of two sectors: byte 512 is not in a table.
    formatted(folder, 320, KINDS[320] + " -R 2").expect_finding(1, 0, "two reserved sectors")
    # One copy: where copy 2 would stand the root begins, with a zero.
    formatted(folder, 160, KINDS[160].replace("-f 2", "-f 1")).expect_finding(2, 0, "one copy of the table")
    # Clusters of one sector make a table of two: where copy 2 would stand is the second sector of copy 1, zeros.
    formatted(folder, 320, KINDS[320].replace("-s 2", "-s 1")).expect_finding(2, 0, "a table of another length")
    # Clusters of two sectors: a file of 1,025 bytes has two clusters and needs three.
    volume = formatted(folder, 160, KINDS[160].replace("-s 1", "-s 2"))
    volume.expect_counts(0, 313, 0, f"{volume.title}, larger clusters, blank")
    volume.copy("DAY001.LOG", content("DAY001.LOG", 1025))
    volume.expect_finding(5, 0, "larger clusters, a file")


def try_more_than_the_maker(folder):
    # Without -g it lays out 352 of the 360 sectors. The kind goes by the length: 8 clusters more than the maker's.
    volume = formatted(folder, 180, KINDS[180].replace("-g 1/9 ", ""))
    expect(struct.unpack_from("<H", volume.bytes(), 19)[0], 352, f"{volume.title}: sectors that the maker counts")
    expect(free_of(volume.mdir()), (351 - 8) * 512, f"{volume.title}: free bytes by mdir")
    volume.expect_counts(0, 351, 0, f"{volume.title}, 8 sectors not laid out")
    volume.copy_all(contents())
    read_by_us(volume, contents(), volume.title)


def try_longer_root(folder):
    # A root of 7 sectors on FE, where the specification has 4. No rule of soundness sees it, since the root begins at
    # the same place; the data begin 3 sectors later than the kind's, so that a read gives other bytes than the maker's.
    volume = formatted(folder, 160, KINDS[160].replace("-r 64", "-r 112"))
    volume.copy("TARE.KEY", content("TARE.KEY", 40))
    volume.expect_counts(1, 312, 1, f"{volume.title}, a longer root")
    kind_data = volume.bytes()[512 * volume.first_data :][:40]
    maker_data = volume.bytes()[512 * (volume.first_data + 3) :][:40]
    expect(maker_data == content("TARE.KEY", 40), True, f"{volume.title}: where the maker put the bytes")
    read_by_us(volume, {"TARE.KEY": kind_data}, f"{volume.title}, where the kind has the cluster")


def try_all(folder):
    for kilobytes in DISKETTES:
        try_kind(folder, kilobytes)
        try_bad_blocks(folder, kilobytes)
        try_reserving_ahead(folder, kilobytes)
    try_reserved(folder, 360)
    try_usual(folder)
    try_other_layouts(folder)
    try_more_than_the_maker(folder)
    try_longer_root(folder)
