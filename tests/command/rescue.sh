# Sourced by run: files are brought off disks that are not sound. The disk is that of document 01's listing, broken by hand.
# shellcheck shell=bash disable=SC2154

# rescues WHAT READ WORDS..: get --rescue of these words ends well, and says once what was read by its own chain.
rescues() {
  balladmoor get --rescue "${@:3}" >"$made/out" 2>"$made/err"
  check "$1" [ $? -eq 0 ]
  says "The disk is not sound: $2 was read by its own chain. Look whether the bytes are right. (finding "
}

# off WHAT NAME FILE: this file of broken.img comes off it, with the bytes of FILE.
off() {
  rescues "$1: $2" "$2" broken.img "$2" -
  check ".. its bytes" cmp "$3" "$made/out"
}

echo "-- get --rescue, by what is wrong"
cp listed.img broken.img
poke broken.img $((1024 + 511)) '\x01'
off "finding 2" TARE.KEY tare
off "finding 2" DAY001.LOG day
says "broken.img: The disk is not sound"
says "(finding 2 at byte of the table 511: "

cp listed.img broken.img
for copy in 512 1024; do poke broken.img $((copy + 300)) '\x01'; done
off "finding 3" tare.key tare
off "finding 3" DAY001.LOG day

cp listed.img broken.img
poke broken.img $((root_at + 32)) 'TARE    KEY'
off "finding 4, the name in two slots: the lower counts" TARE.KEY tare

cp listed.img broken.img
poke broken.img $((root_at + 32 + 26)) '\x02\x00\x00\x02'
off "finding 6" TARE.KEY tare
head -c 512 <(tail -c +3585 listed.img) >shared
off "finding 6, the bytes that both have" DAY001.LOG shared

cp listed.img broken.img
for copy in 512 1024; do poke broken.img $((copy + 300)) '\xFF\x0F'; done
off "finding 7" DAY001.LOG day

echo "-- where the bytes go"
cp broken.img before.img
mkdir off
rescues "to a file" TARE.KEY broken.img TARE.KEY off/tare
check ".. the bytes" cmp tare off/tare
rescues "several to a folder, said once" "each file" broken.img TARE.KEY DAY001.LOG off
check ".. the first" cmp tare off/TARE.KEY
check ".. the second" cmp day off/DAY001.LOG
ends 1 "a file that is there" balladmoor get --rescue broken.img TARE.KEY off/tare
says "off/tare: The file is there already"
rescues "from standard input" DAY001.LOG - DAY001.LOG - <broken.img
check ".. the bytes" cmp day "$made/out"
check "the image is as it was" cmp broken.img before.img
ends 0 "of a sound disk nothing is said" balladmoor get --rescue listed.img DAY001.LOG -
check ".. the bytes" cmp day "$made/out"
ends 2 "with --keep-dates" balladmoor get --rescue --keep-dates broken.img TARE.KEY off/dated
says "--rescue: It brings off a file's bytes alone."
ends 2 "show has no such option" balladmoor show --rescue broken.img TARE.KEY

echo "-- what can't be rescued"
cp listed.img broken.img
poke broken.img $((root_at + 29)) '\x02'
off "finding 5, another file" DAY001.LOG day
rm -r off
mkdir off
# the number, words of the sentence, and the names
while IFS='|' read -r number sentence names; do
  # shellcheck disable=SC2086
  ends 1 "get --rescue $names" balladmoor get --rescue broken.img $names off
  says "$sentence"
  says "(refusal $number)"
done <<'END'
5|TARE.KEY: The file's chain of clusters is too short, broken or without end, so its bytes can't be told.|TARE.KEY
5|TARE.KEY: The file's chain of clusters|DAY001.LOG TARE.KEY
2|DAY002.LOG: No file of that name is on the disk.|DAY002.LOG
42|A/B: A name has 1 to 8|A/B
42|toolongname: A name has 1 to 8|toolongname
END
poke broken.img 512 '\xF9'
ends 1 "a disk of no kind" balladmoor get --rescue broken.img DAY001.LOG off
says "broken.img: This is no whole image of a diskette"
says "(refusal 40)"
check "nothing was made" [ -z "$(ls off)" ]
