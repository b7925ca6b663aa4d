"""Volumes made by our format, and read by mtools. The fields of their boot sector are zero; mtools goes by the byte at
512 then. fsck.fat and DOSBox want these fields and take no such volume."""

from counts import expect
from exchange import contents, exchange, put_by_us
from volume import COMMAND, DISKETTES, Volume, ended


def formatted(folder, kilobytes):
    volume = Volume(folder, kilobytes, "our format")
    made = ended([*COMMAND, "format", str(kilobytes), volume.path])
    expect(made, [(0, b"", "")], f"{volume.title}: our format")
    return volume


def try_exchange(folder, kilobytes):
    volume = formatted(folder, kilobytes)
    volume.expect_sound("blank")
    put_by_us(volume, contents())
    exchange(volume, contents(), fsck=False)


def try_changed_by_mtools(folder, kilobytes):
    # Where the boot sector's fields are zero mtools stores copy 1 of the table alone: the copies differ from then on.
    volume = formatted(folder, kilobytes)
    volume.copy("TARE.KEY", b"tare")
    table_bytes = {160: 512, 320: 512, 180: 1024, 360: 1024}[kilobytes]
    copy_1 = volume.bytes()[512:][:table_bytes]
    copy_2 = volume.bytes()[512 + table_bytes :][:table_bytes]
    place = next(at for at in range(table_bytes) if copy_1[at] != copy_2[at])
    volume.expect_finding(2, place, "a file copied there by mtools")


def try_all(folder):
    for kilobytes in DISKETTES:
        try_exchange(folder, kilobytes)
        try_changed_by_mtools(folder, kilobytes)
