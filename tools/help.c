#include "help.h"

const char help_text[] =
    "balladmoor: diskette images of the scale\n"
    "\n"
    "  format KIND IMAGE            makes a blank image of 160, 180, 320 or 360 KB\n"
    "  check [--json] IMAGE         says whether it is sound, or what is wrong\n"
    "  list IMAGE [PATTERN]         lists its files; --names and --json for programs\n"
    "  map IMAGE                    shows which file has which clusters\n"
    "  free IMAGE                   says how much room is left\n"
    "  get IMAGE NAME [TO]          copies files from it, --rescue off a broken one\n"
    "  put IMAGE NAME FROM          copies files to it\n"
    "  show IMAGE NAME              shows a file's bytes, in hex and as text\n"
    "  delete IMAGE NAME            deletes a file\n"
    "  rename IMAGE OLD NEW         renames a file\n"
    "  mode IMAGE NAME [MARKS..]    shows a file's marks, or sets them (+r read-only)\n"
    "  help VERB                    says more of one of these\n"
    "\n"
    "-h and --help print this, --version prints the version. An image that is\n"
    "changed is replaced whole, and only if all went well; hard links to it are not\n"
    "kept. - is standard input for a file that is read, and standard output for one\n"
    "that is made. An image that is changed must be a file. list and get take\n"
    "patterns, in quotes: 'DAY???.LOG', or '*.*' for all files.\n"
    "\n"
    "Exit status: 0 done; 1 not done, and nothing changed; 2 used wrongly; 3 done,\n"
    "but a cut of power may still undo it; 4 (check) the disk is not sound.\n";

/* What list and get say of patterns. */
#define PATTERNS \
    "In a pattern ? stands for any one sign, or at the end of a part for none, and *\n" \
    "for the rest of a part: of the name, or of the extension. *.* finds every file,\n" \
    "* alone those without an extension; hidden and system files are found too. Put\n" \
    "it in quotes, as 'DAY???.LOG', or the shell may take it for files that are here.\n" \
    "The disk must be sound.\n"

const struct help help_format = {
    "KIND IMAGE",
    "Makes a blank image. KIND is 160, 180, 320 or 360 (KB), or the byte FE, FC, FF\n"
    "or FD. IMAGE must not be there yet; - prints it.\n"
    "\n"
    "Its boot sector has no parameter block. mtools may read such a disk, but must\n"
    "not write to it: mcopy ends well, and leaves a disk that is not sound (finding\n"
    "2). To share a disk with mtools, let mformat make it.\n",
};

const struct help help_check = {
    "[--json] IMAGE",
    "Says whether the disk is sound, with how many files it has and how many\n"
    "clusters are free, held by files, bad and reserved; or what is wrong and where,\n"
    "with exit status 4. Status 1 is for an image that can't be read.\n"
    "\n"
    "Bad: the disk is worn there. Reserved: kept from files, which says nothing of\n"
    "wear. A disk with such clusters can be sound: no file has them or gets them.\n"
    "\n"
    "--json prints one object instead. Of a sound disk:\n"
    "  {\"sound\":true,\"files\":N,\"free\":N,\"held\":N,\"bad\":N,\"reserved\":N}\n"
    "and else, with the number and place of the finding, the names of the files that\n"
    "it is about (finding 4 and 5: one, 6: two) and how many clusters are in use but\n"
    "in no file:\n"
    "  {\"sound\":false,\"finding\":N,\"place\":N,\"names\":[\"NAME\"],\"lost\":N}\n",
};

const struct help help_list = {
    "[--names|--json] IMAGE [PATTERN]",
    "Lists the files with size, date, time and the marks R read-only, H hidden, S\n"
    "system and A archive, and below them the free bytes, then those of bad and those\n"
    "of reserved clusters, if there are any. Of a disk that is not sound it lists the\n"
    "files alone, and ends with status 1. Other systems' directories come as <DIR>, a\n"
    "part of one of their long names as (long name).\n"
    "\n"
    "With a PATTERN only the files that match are listed, and counted below. If there\n"
    "is none, nothing is printed, and the status is 1.\n"
    "\n"
    PATTERNS
    "\n"
    "--names prints the names of files alone, one a line, as get takes them.\n"
    "--json prints one object; free, bad and reserved are in bytes, null of a disk\n"
    "that is not sound, and label, date and time are null where there is none:\n"
    "  {\"sound\":true,\"label\":\"TEXT\",\"free\":N,\"bad\":N,\"reserved\":N,\n"
    "   \"files\":[{\"name\":\"NAME\",\"directory\":false,\"size\":N,\n"
    "   \"date\":\"YYYY-MM-DD\",\"time\":\"HH:MM:SS\",\n"
    "   \"read_only\":false,\"hidden\":false,\"system\":false,\"archive\":true}]}\n"
    "In a name ? stands for a byte that is no sign of ASCII.\n",
};

const struct help help_map = {
    "IMAGE",
    "Shows a sign for each cluster, 64 to a line with the number of the first: a\n"
    "letter for each file in the order of list (a to z without r and x, A to Z, + for\n"
    "all others), . free, x bad, r reserved, * in two files or more, ? in use but in\n"
    "no file. Names and sizes stand below. Of a chain that is broken it shows what\n"
    "can be reached from its start.\n",
};

const struct help help_free = {
    "IMAGE",
    "Says how many bytes and clusters are free.\n",
};

const struct help help_get = {
    "[--keep-dates|--rescue] IMAGE NAME [TO], or IMAGE NAME.. FOLDER",
    "Copies a file of the image to TO, or else to NAME here; several files, or one,\n"
    "to a folder. None of these may be there yet. - prints. If one can't be copied,\n"
    "none is.\n"
    "\n"
    "A NAME with ? or * is a pattern: each file that matches is copied, once, to here\n"
    "or to a folder. If there is none, nothing is copied, and the status is 1.\n"
    "\n"
    PATTERNS
    "\n"
    "--keep-dates gives each copy the file's date and time, in local time. One that\n"
    "has none that is in range gets the present time.\n"
    "\n"
    "--rescue brings a file off a disk that is not sound, such as a reset in the\n"
    "middle of a save leaves it. The file is read by its own chain of clusters,\n"
    "whatever else is wrong, and a sentence on standard error says so. A file whose\n"
    "chain is too short, broken or without end is refused. It takes no patterns.\n",
};

const struct help help_put = {
    "[--keep-dates] IMAGE NAME FROM, or IMAGE . FROM..",
    "Copies the file FROM (- is standard input) to the image as NAME; with . for\n"
    "NAME, each file under its own name. A file of that name is replaced and keeps\n"
    "its marks, unless it is read-only. If one can't be copied, none is.\n"
    "\n"
    "A file gets the present date and time, in local time, or those of the second\n"
    "that SOURCE_DATE_EPOCH gives, in universal time. With --keep-dates it gets the\n"
    "date and time of FROM, in local time.\n",
};

const struct help help_show = {
    "IMAGE NAME",
    "Shows a file's bytes, 16 to a line, in hex and as text.\n",
};

const struct help help_delete = {
    "IMAGE NAME",
    "Deletes a file, unless it is read-only.\n",
};

const struct help help_rename = {
    "IMAGE OLD NEW",
    "Renames a file, unless it is read-only or NEW is taken.\n",
};

const struct help help_mode = {
    "IMAGE NAME [MARKS..]",
    "Shows a file's marks, or sets them. MARKS are + or - with letters of r\n"
    "read-only, h hidden, s system and a archive, as in +r -hs, which leave the\n"
    "other marks; or a sum in hex of 1 read-only, 2 hidden, 4 system and 20 archive,\n"
    "which sets all.\n",
};

const struct help help_help = {
    "VERB",
    "Says more of a verb.\n",
};
