"""Volumes that DOSBox's own FAT code fills, deletes from and renames on. Debian's DOSBox has no command that formats:
mformat does."""

import os
import subprocess

from counts import expect
from exchange import (
    agreed,
    append_by_us,
    content,
    contents,
    delete_by_us,
    differing,
    exchange,
    fill_by_us,
    mark_by_us,
    read_by_us,
    taken,
    weigh,
)
from volume import DISKETTES, ENVIRONMENT, Volume

# Far more than a run takes; most are below a second.
SECONDS = 20

SETTINGS = """[sdl]
output=surface
[mixer]
nosound=true
[midi]
mididevice=none
[cpu]
cycles=max
[autoexec]
@echo off
"""


def host_folder(folder):
    """The folder that DOSBox has as its drive C."""
    path = os.path.join(folder, "host")
    os.makedirs(path, exist_ok=True)
    return path


def commanded(folder, *lines):
    """Runs DOSBox without a screen on these commands; whether it came to their end."""
    host = host_folder(folder)
    settings = os.path.join(folder, "dosbox.conf")
    with open(settings, "w") as file:
        text = [f"mount c {host}", *lines, "echo end > c:\\END.TXT", "exit"]
        file.write(SETTINGS + "".join(f"{line}\n" for line in text))
    # Its own settings would go to the home folder.
    environment = dict(ENVIRONMENT, HOME=folder, SDL_VIDEODRIVER="dummy", SDL_AUDIODRIVER="dummy")
    command = ["dosbox", "-conf", settings]
    try:
        subprocess.run(command, env=environment, capture_output=True, stdin=subprocess.DEVNULL, timeout=SECONDS)
    except subprocess.TimeoutExpired:
        return False
    finally:
        os.remove(settings)
    return taken(os.path.join(host, "END.TXT")) is not None


def runs(folder):
    return commanded(folder)


def give(folder, files):
    """Puts files into the host's folder."""
    for name, data in files.items():
        with open(os.path.join(host_folder(folder), name), "wb") as file:
            file.write(data)


def changed(volume, *lines):
    """Has DOSBox run these commands with the volume as drive A."""
    mounted = f"imgmount a {volume.path} -t floppy"
    expect(commanded(volume.folder, mounted, *lines), True, f"{volume.title}: DOSBox comes to its end")


def copying(files):
    """The commands that copy files to the volume."""
    return [f"copy c:\\{name} a:\\{name}" for name in files]


def copy_there(volume, files, *then):
    """Has DOSBox copy files to the volume, and run what follows."""
    give(volume.folder, files)
    changed(volume, *copying(files), *then)
    expect(differing(files, host_folder(volume.folder)), [], f"{volume.title}: DOSBox leaves its sources")


def filled(folder, kilobytes, files, *then):
    """A volume on which DOSBox copies these files and runs what follows."""
    volume = Volume(folder, kilobytes, "DOSBox")
    volume.tool("mformat", "-C", "-f", str(kilobytes), "::")
    copy_there(volume, files, *then)
    return volume


def is_whole(volume, data):
    """Whether a file with these bytes fills its last cluster. DOSBox gives such a file one cluster more."""
    return len(data) > 0 and len(data) % volume.cluster_bytes == 0


def note_spare(volume, files):
    """Keeps beside which of DOSBox's files have a spare cluster."""
    volume.spare = {name: 1 for name, data in files.items() if is_whole(volume, data)}


def read_by_dosbox(volume, files):
    before = volume.bytes()
    changed(volume, *(f"copy a:\\{name} c:\\{name}" for name in files))
    differ = differing(files, host_folder(volume.folder))
    expect(differ, [], f"{volume.title}: the bytes of all files by DOSBox")
    expect(volume.bytes() == before, True, f"{volume.title}: DOSBox's reading alters nothing")


def try_exchange(folder, kilobytes):
    files = contents()
    # FIRST.OUT has whole clusters of each kind: that DOSBox deletes it frees its spare one too.
    first = {**files, "FIRST.OUT": content("FIRST.OUT", 3072), "OLD.NAM": b"renamed"}
    # Copied when others are deleted, it lies in pieces.
    later = {"LATER.BIN": content("LATER.BIN", 9001)}
    give(folder, later)
    # For a rename the current drive must be A.
    then = ["a:", "del FIRST.OUT", "del ONE.511", "ren OLD.NAM NEW2.NAM", *copying(later)]
    volume = filled(folder, kilobytes, first, *then)
    expect(differing(later, host_folder(folder)), [], f"{volume.title}: DOSBox leaves its later source")
    del files["ONE.511"]
    files.update({**later, "NEW2.NAM": b"renamed"})
    note_spare(volume, files)
    read_by_dosbox(volume, exchange(volume, files))


def append_to_spare_cluster(volume, files):
    """No cluster is free: the weighings that fit the day's spare cluster are stored, and not one more."""
    # A line has 15 bytes; before the first comes the end of the line that the file ends in.
    most = (volume.cluster_bytes - 1) // 15
    before = volume.bytes()
    status, said, _ = weigh(volume, most + 1)
    full = (status, "The disk is full" in said, volume.bytes() == before)
    expect(full, (1, True, True), f"{volume.title}: a weighing more than the spare cluster has room for is refused")
    append_by_us(volume, files, most)
    _, root, _ = volume.layout()
    expect(volume.bytes()[:root] == before[:root], True, f"{volume.title}: no byte before the root is altered")


def with_whole_clusters(folder, kilobytes):
    """A volume with files of whole clusters by DOSBox, and the files."""
    sizes = {"19830901.LOG": 2, "WHOLE.BIN": 3, "KEPT.BIN": 1}
    cluster_bytes = DISKETTES[kilobytes][2]
    files = {name: content(name, clusters * cluster_bytes) for name, clusters in sizes.items()}
    files["TARE.KEY"] = content("TARE.KEY", 40)
    volume = filled(folder, kilobytes, files)
    volume.title += ", whole clusters"
    note_spare(volume, files)
    lengths = {name: len(volume.chain_of(name)) for name in sizes}
    one_more = {name: clusters + 1 for name, clusters in sizes.items()}
    expect(lengths, one_more, f"{volume.title}: DOSBox takes one cluster more")
    return volume, files


def try_whole_clusters(folder, kilobytes):
    volume, files = with_whole_clusters(folder, kilobytes)
    agreed(volume, files, "the maker's files", fsck=True)
    read_by_us(volume, files, f"{volume.title}, the maker's files")
    fill_by_us(volume, files, "WHOLE.BIN")
    agreed(volume, files, "filled by our command", fsck=True)
    mark_by_us(volume)
    append_to_spare_cluster(volume, files)
    agreed(volume, files, "a spare cluster filled", fsck=True)
    read_by_dosbox(volume, files)
    delete_by_us(volume, files, "KEPT.BIN")
    agreed(volume, files, "the last file with a spare cluster deleted", fsck=True)
    read_by_dosbox(volume, files)


def try_overwritten(folder, kilobytes):
    # A file copied over another gets new clusters, and the old ones are in no chain: finding 7, the lowest of them.
    volume = filled(folder, kilobytes, {"TARE.KEY": b"tare", "DAY001.LOG": content("DAY001.LOG", 5000)})
    _, start = volume.slot_of("DAY001.LOG")
    copy_there(volume, {"DAY001.LOG": content("another day", 600)})
    volume.expect_finding(7, start, "a file copied over another")
    volume.expect_fsck_complains("a file copied over another")


def try_folder(folder, kilobytes):
    # A folder's entry has attribute bit 10: finding 4 at its slot.
    volume = filled(folder, kilobytes, {"TARE.KEY": b"tare"}, "md a:\\FOLDER")
    volume.expect_finding(4, volume.slots_with(0x10)[0], "a folder")


def try_all(folder):
    for kilobytes in DISKETTES:
        try_exchange(folder, kilobytes)
        try_whole_clusters(folder, kilobytes)
        try_overwritten(folder, kilobytes)
        try_folder(folder, kilobytes)
