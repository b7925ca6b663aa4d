# Sourced by run: sentences say what is wrong, of the right thing, and what to do; and they come whole.
# shellcheck shell=bash disable=SC2154

echo "-- every refusal number has a sentence of its own"
check "the program builds" "$root/tests/x86.sh" --cc -Wall -Wextra -Werror -std=c11 -pedantic -I"$root/include" \
  -I"$root/tools" "$root"/tests/command/sentences.c "$root"/tools/{refusal,say}.c "$root/target/staticlib/libscale.a" \
  -o "$made/sentences"
count "$root/tests/x86.sh" "$made/sentences"

cp listed.img disk.img
cp listed.img before.img
mkdir empty

echo "-- a verb that there is not, words too many or too few, an option that there is not"
ends 2 "no verb" balladmoor
says "Say what to do. See balladmoor --help."
ends 2 "no such verb" balladmoor copy disk.img A
says "copy: There is no such verb. See balladmoor --help."
ends 2 "too few words" balladmoor delete disk.img
says "delete: It takes IMAGE NAME (see balladmoor help delete)."
ends 2 "no such option" balladmoor list --long disk.img
says "--long: list has no such option. See balladmoor help list."
ends 2 "an option of another verb" balladmoor check --names disk.img
says "--names: check has no such option. See balladmoor help check."

echo "-- names of files of the machine"
ends 1 "no name" balladmoor format 160 ""
says "(an empty name): The new bytes can't be saved, so nothing was changed: No such file or directory. See that the name is right."
ends 1 "a folder that is not there" balladmoor format 160 nowhere/new.img
says "nowhere/new.img: No file can be made beside it, so nothing was changed: No such file or directory. See that the name is right."
ends 1 "a folder" balladmoor format 160 empty
says "empty: This is a folder. Name a file in it."
ends 1 "a folder to read" balladmoor check empty
says "empty: The file can't be read: Is a directory. Name a file, not a folder."
ends 1 "a name of no letters on the disk" balladmoor put disk.img "" day
says "(an empty name): A name has 1 to 8"
check "nothing was made" [ -z "$(ls empty)" ]

# denied CALL WORDS..: the command where the machine forbids the call.
denied() {
  broken_call "-DCALL=$1" -DFAILS -DWHY=EACCES || return 5
  "$root/tests/x86.sh" --preload "$made/call.so" "$made/prefix/bin/balladmoor" "${@:2}"
}

advice="Permission denied. Ask whoever owns it, or work on a copy in a folder of your own."
ends 1 "a folder that forbids a new file" denied mkstemp put disk.img NEW day
says "disk.img: No file can be made beside it, so nothing was changed: $advice"
ends 1 "a file that may not be read" denied open check disk.img
says "disk.img: The file can't be opened: $advice"
check "nothing was changed" cmp disk.img before.img

echo "-- dates that are out of range, by where they come from"
ends 1 "by SOURCE_DATE_EPOCH" at 1979-12-31 23:59:59 put disk.img NEW day
says "SOURCE_DATE_EPOCH: Its date is not in the years 1980 to 2099. Set it right, or unset it. (refusal 43)"
touch -d 2100-01-02 late
ends 1 "by a file that is put" balladmoor put --keep-dates disk.img NEW late
says "late: The file's date is not in the years 1980 to 2099. Leave --keep-dates out. (refusal 43)"
ends 1 "by the clock" with time FAILS put disk.img NEW day
says "The clock's date is not in the years 1980 to 2099. Set the clock. (refusal 43)"
check "nothing was changed" cmp disk.img before.img

echo "-- names with bytes that a terminal obeys"
escape=$(printf 'a\033[31m\001\177.img')
cp listed.img "$escape"
# no_escape FILE: only lines of bytes that a terminal shows.
no_escape() {
  [ -s "$1" ] && [ "$(tr -d '\n' <"$1" | tr -d '\040-\176\200-\377' | wc -c)" -eq 0 ]
}
for words in list check map; do
  ends 0 "$words" balladmoor $words "$escape"
  check ".. prints none" no_escape "$made/out"
done
ends 1 "a file that is not there" balladmoor check "$escape.none"
says 'a?[31m??.img.none: '
check ".. says none" no_escape "$made/err"
ends 1 "a name of a file of the disk" balladmoor get disk.img "$escape"
check ".. says none" no_escape "$made/err"

echo "-- a sentence comes in one piece"
# Each piece that is written to such a socket is read by itself.
in_one_piece() {
  python3 - "$root/tests/x86.sh" "$made/prefix/bin/balladmoor" delete disk.img NONE <<'END'
import socket, subprocess, sys
ours, theirs = socket.socketpair(socket.AF_UNIX, socket.SOCK_DGRAM)
subprocess.run(sys.argv[1:], stderr=theirs)
piece = ours.recv(10000)
sys.exit(not (piece.startswith(b"balladmoor: NONE: ") and piece.endswith(b"(refusal 2)\n")))
END
}
check "delete" in_one_piece
