# Sourced by run: standard input and output, for a file and closed.
# shellcheck shell=bash disable=SC2154

cp listed.img disk.img
cp listed.img before.img

echo "-- the image from standard input, where it is only read"
# same_from WORDS.. : the verb prints the same of - as of disk.img.
same_from() {
  local verb=$1
  shift
  balladmoor "$verb" disk.img "$@" | sed 's/disk\.img/-/' >"$made/named"
  ends 0 "$verb - $*" balladmoor "$verb" - "$@" <disk.img
  check ".. prints the same" cmp "$made/named" "$made/out"
}
same_from check
same_from list
same_from map
same_from free
same_from show TARE.KEY
same_from mode TARE.KEY
same_from get DAY001.LOG -
ends 0 "get - to a file" balladmoor get - DAY001.LOG day.back <disk.img
check ".. the bytes" cmp day day.back
rm day.back

echo "-- a file that is made, to standard output"
ends 0 "format 160 -" balladmoor format 160 -
check ".. prints the image" cmp "$made/out" 160.img
check ".. and makes no file" [ ! -e - ]

echo "-- an image that is changed must be a file"
for words in "put - NEW day" "delete - DAY001.LOG" "rename - DAY001.LOG A" "mode - DAY001.LOG +r"; do
  # shellcheck disable=SC2086
  ends 2 "$words" balladmoor $words <disk.img
  says "-: An image that is changed must be a file."
done
cp listed.img ./-
ends 0 "a file of that name" balladmoor delete ./- DAY001.LOG
rm ./-

echo "-- closed"
from_nowhere() { balladmoor "$@" <&-; }
to_nowhere() { balladmoor "$@" >&-; }
unsaid() { balladmoor "$@" 2>&-; }
alone_in_the_world() { balladmoor "$@" <&- >&- 2>&-; }
to_full() { balladmoor "$@" >/dev/full; }
ends 1 "put from closed input" from_nowhere put disk.img NEW -
says "standard input: The file can't be read: Bad file descriptor. It is closed."
ends 1 "check of closed input" from_nowhere check -
says "standard input: The file can't be read: Bad file descriptor. It is closed."
for words in "list disk.img" "check disk.img" "map disk.img" "get disk.img DAY001.LOG -" "format 160 -"; do
  # shellcheck disable=SC2086
  ends 1 "$words to closed output" to_nowhere $words
  says "standard output: What was to be printed could not be written: Bad file descriptor."
  # shellcheck disable=SC2086
  ends 1 "$words to where nothing can be written" to_full $words
  says "standard output: What was to be printed could not be written: No space left on device."
done
unsaid put disk.img toolongname day
check "a refusal with closed error output" [ $? -eq 1 ]
check "nothing was changed" cmp disk.img before.img
alone_in_the_world put disk.img NEW day
check "put with all three closed" [ $? -eq 0 ]
check ".. the file has the bytes" cmp day <(balladmoor get disk.img NEW -)
