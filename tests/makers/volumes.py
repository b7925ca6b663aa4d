"""Volumes of other makers: judged and listed, and files read and written both ways.

What must come out is taken from the files as they were given to the makers' tools, from mdir's and fsck.fat's text,
from the independent implementation's verdict and from the makers' boot sectors (our code never reads these). None of it
comes from the archive.
"""

import contextlib
import io
import multiprocessing
import os
import shutil
import sys
import tempfile

import by_dosbox
import by_mkfs
import by_mtools
import by_us
import counts
from volume import EndedBadly


def mkfs(folder):
    if shutil.which("mkfs.fat"):
        by_mkfs.try_all(folder)
    else:
        counts.skip("volumes of mkfs.fat: dosfstools is not here and can't be installed")


def dosbox(folder):
    if not shutil.which("dosbox"):
        counts.skip("volumes of DOSBox: it is not here and can't be installed")
    elif by_dosbox.runs(folder):
        by_dosbox.try_all(folder)
    else:
        counts.skip("volumes of DOSBox: it does not run here without a screen")


def tried(maker):
    """All volumes of a maker, in a folder of their own; what was printed, and the counts. A program that ends badly is
    one failure."""
    counts.begin()
    with tempfile.TemporaryDirectory() as folder, contextlib.redirect_stdout(io.StringIO()) as text:
        try:
            maker(folder)
        except EndedBadly as what:
            counts.expect(str(what), "", "all programs end well")
    return text.getvalue(), (counts.passed, counts.failed, counts.skipped)


def main():
    makers = [by_mtools.try_all, by_us.try_all, mkfs, dosbox]
    # A process for each, as many at a time as there are processors.
    with multiprocessing.Pool(os.cpu_count(), maxtasksperchild=1) as pool:
        for text, tally in pool.imap(tried, makers, chunksize=1):
            print(text, end="", flush=True)
            counts.add(tally)
    return counts.end()


sys.exit(main())
