# Sourced by run: the image file is replaced whole or not at all, and a file is made where there is none.
# shellcheck shell=bash disable=SC2154

# whole: disk.img is as it was.
whole() {
  check ".. the image is whole" cmp disk.img before.img
}

# alone: nothing is left beside it.
alone() {
  check ".. and nothing is left beside it" [ "$(echo disk.img*)" = disk.img ]
}

# broken_call WORDS..: the library that fails.c makes with these of gcc's words.
broken_call() {
  "$root/tests/x86.sh" --cc -shared -fPIC -fno-builtin -Wno-unused-parameter "$@" "$root/tests/command/fails.c" \
    -o "$made/call.so"
}

# with CALL WAY WORDS..: the C library's call fails, dies or swaps, as fails.c says, in the command of these words.
with() {
  broken_call "-DCALL=$1" "-D$2" || return 5
  "$root/tests/x86.sh" --preload "$made/call.so" "$made/prefix/bin/balladmoor" "${@:3}"
}

cp listed.img disk.img
cp listed.img before.img

echo "-- an image file that is write-protected"
chmod 444 disk.img
ends 1 "put" balladmoor put disk.img NEW day
says "write-protected"
whole
alone
ends 0 "list reads it" balladmoor list disk.img
chmod 640 disk.img

echo "-- a file system without room: no file may grow above 100 KB"
short_of_room() (
  trap '' XFSZ
  ulimit -f 100
  balladmoor "$@"
)
ends 1 "put" short_of_room put disk.img NEW day
says "nothing was changed"
whole
alone
ends 1 "delete" short_of_room delete disk.img DAY001.LOG
whole
ends 1 "format" short_of_room format 160 new.img
check ".. makes nothing" [ "$(echo new.img*)" = "new.img*" ]
ends 0 "reading needs no room" short_of_room get disk.img TARE.KEY -

echo "-- each call of the C library that replaces the file fails, or the power is cut there"
for call in write fchmod fsync close rename; do
  ends 1 "$call fails" with $call FAILS put disk.img NEW day
  says "nothing was changed"
  whole
  alone
  with $call DIES put disk.img NEW day
  check "the power is cut at $call" [ $? -eq 99 ]
  whole
  rm -f disk.img.*
done
for call in write fchmod fsync close renameat2; do
  ends 1 "$call fails in format" with $call FAILS format 160 new.img
  says "nothing was changed"
  check ".. and nothing is there" [ "$(echo new.img*)" = "new.img*" ]
  with $call DIES format 160 new.img
  check "the power is cut at $call in format" [ $? -eq 99 ]
  check ".. and no image is there" [ ! -e new.img ]
  rm -f new.img.*
done

echo "-- a file system that has no rename which replaces nothing"
# by_link WORDS..: the command where that call is not known.
by_link() {
  broken_call -DCALL=renameat2 -DFAILS -DWHY=EINVAL || return 5
  "$root/tests/x86.sh" --preload "$made/call.so" "$made/prefix/bin/balladmoor" "$@"
}
ends 0 "format" by_link format 160 new.img
check ".. makes it, and nothing else" [ "$(echo new.img*)" = new.img ]
check ".. whole" cmp new.img 160.img
rm new.img

echo "-- done, but the folder can't be flushed: a status and a sentence of their own"
ends 3 "put" with fsync FOLDERS put disk.img NEW day
says "It is done, but a cut of power may still undo it."
check ".. it is there" grep -qx NEW <(balladmoor list --names disk.img)
ends 3 "format" with fsync FOLDERS format 160 new.img
says "It is done, but a cut of power may still undo it."
check ".. it is there" cmp new.img 160.img
ends 3 "get" with fsync FOLDERS get disk.img NEW new.day
says "It is done, but a cut of power may still undo it."
check ".. it is there" cmp new.day day
rm new.img new.day
cp listed.img disk.img
chmod 640 disk.img

echo "-- the image is replaced by another program just before it is locked"
cp 160.img new.img
ends 1 "put" with flock SWAPS put disk.img NEW day
says "Another program is changing this file"
check ".. the other program's image is whole" cmp disk.img 160.img

echo "-- another program makes the file while this one does"
for words in "format 180 disk.img" "get listed.img DAY001.LOG disk.img"; do
  rm disk.img
  cp 160.img new.img
  # shellcheck disable=SC2086
  ends 1 "$words" with fsync SWAPS $words
  says "disk.img: The file is there already, and its bytes would be lost."
  check ".. the other program's file is whole" cmp disk.img 160.img
  alone
done
for n in $(seq 8); do balladmoor format 160 at_once.img 2>"$made/said.$n" && touch "$made/made.$n" & done
wait
check "eight formats of one name at once: one makes it" [ "$(echo "$made"/made.* | wc -w)" -eq 1 ]
check ".. and the seven others say so" [ "$(cat "$made"/said.* | grep -c 'there already')" -eq 7 ]
cp listed.img disk.img
chmod 640 disk.img

echo "-- two at once"
if command -v flock >/dev/null; then
  ends 1 "put while another program changes the image" flock disk.img \
    "$root/tests/x86.sh" "$made/prefix/bin/balladmoor" put disk.img NEW day
  says "Another program is changing this file"
  whole
else
  skip "put while another program changes the image: flock is not here"
fi
# put_at_last NAME: puts a file, again where another one is at work.
put_at_last() {
  for _ in $(seq 500); do
    balladmoor put disk.img "$1" day 2>/dev/null && return
  done
}
for n in 1 2 3 4; do put_at_last "AT$n" & done
wait
check "four at once: no file is lost" [ "$(balladmoor list disk.img | grep -c '^AT[1-4] ')" -eq 4 ]
alone

echo "-- what a new image keeps"
mkdir -p folder
mv disk.img folder/real.img
ln -s folder/real.img disk.img
ln folder/real.img folder/second.img
cp folder/real.img before.img
if [ "$(id -u)" -eq 0 ]; then
  chown 1234:1235 folder/real.img
else
  skip "the image's owner and group: only root can give them"
fi
owner=$(stat -c %u:%g folder/real.img)
ends 0 "put by a link" balladmoor put disk.img NEW day
check ".. the link stays" [ -L disk.img ]
check ".. and its file has the new bytes" grep -q "^NEW " <(balladmoor list folder/real.img)
check ".. and the permissions that it had" [ "$(stat -c %a folder/real.img)" = 640 ]
check ".. and the owner and group" [ "$(stat -c %u:%g folder/real.img)" = "$owner" ]
check ".. but a hard link has the old bytes" cmp folder/second.img before.img
check ".. which the help says" grep -q "hard links to it are not kept" <(balladmoor --help | tr '\n' ' ')
rm folder/second.img
