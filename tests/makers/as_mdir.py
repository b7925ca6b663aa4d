"""mdir's text of a volume: its files, its free bytes, and what our list must print for it, line by line."""

import re

# A file's line has name, extension, size, date and time in these columns; a long name or nothing comes after.
FILE = re.compile(r"^(.{8}) (.{3}) +(\d+) (\d{4}-\d\d-\d\d)  [ \d]\d:\d\d ", re.MULTILINE)
TIME_ENDS = 40


def files_of(text):
    """(name, size) of each file."""
    return [(spelled(name, extension), int(size)) for name, extension, size, _ in FILE.findall(text)]


def spelled(name, extension):
    # A small letter is mtools' reading of a reserved byte.
    return (name.strip() + ("." + extension.strip()).rstrip(".")).upper()


def free_of(text):
    """The free bytes."""
    return int(re.search(r"([\d ]+) bytes free", text)[1].replace(" ", ""))


def our_list(text, path, marks):
    """The lines of our list: mdir's, but for the image's name, the serial number, and the marks in place of long names,
    which have lines of their own."""
    lines = text.splitlines()
    head = lines[0].rstrip().replace("drive :", path)
    files = [line for line in lines if FILE.match(line)]
    ours = [line for file, letters in zip(files, marks) for line in our_lines(file, letters)]
    # The sum and the free bytes; an empty line ends mdir's text.
    return [head, "", *ours, *lines[-3:-1]]


def our_lines(line, letters):
    """A line for each entry of its long name, of 13 characters, and the file's own."""
    long_name = line[TIME_ENDS:].strip()
    shown = "".join(letter if letter in letters else "-" for letter in "RHSA")
    return ["(long name)"] * -(-len(long_name) // 13) + [f"{ours_of_date(line[:TIME_ENDS].upper())}  {shown}"]


def ours_of_date(line):
    # Month and day 0 are out of their ranges: document 01 prints none.
    return re.sub(r"\d{4}-00-00", f"{'none':>10}", line)
