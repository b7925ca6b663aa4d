# Sourced by run: disks that are broken, and files that are none.
# shellcheck shell=bash disable=SC2154

# broken PLACE WORDS MORE: broken.img has this finding, said with this and more; no command reads or changes a file on it.
broken() {
  ends 4 "check: $1" balladmoor check broken.img
  says "($1: "
  says "$3"
  cp broken.img before.img
  for words in "get broken.img TARE.KEY back" "put broken.img NEW day" "delete broken.img DAY001.LOG" \
    "rename broken.img DAY001.LOG A" "mode broken.img DAY001.LOG 01" "show broken.img TARE.KEY" "free broken.img" \
    "list broken.img"; do
    # shellcheck disable=SC2086
    ends 1 ".. $words" balladmoor $words
    says "$2"
  done
  check ".. and nothing was changed" cmp broken.img before.img
  check ".. or made" [ ! -e back ]
}

echo "-- each finding, from the disk of document 01's listing"
root_at=1536
cp listed.img broken.img
poke broken.img 512 '\xF9'
broken "finding 1 at place 0" "(refusal 40)" "not that kind's length)"

cp listed.img broken.img
poke broken.img $((1024 + 511)) '\x01'
broken "finding 2 at byte of the table 511" "(refusal 41; finding 2 " "its two copies differ; see it with: balladmoor map broken.img)"

cp listed.img broken.img
for copy in 512 1024; do poke broken.img $((copy + 300)) '\x01'; done
broken "finding 3 at cluster 200" "(refusal 41; finding 3 " "a value that means nothing; see it with: balladmoor map broken.img)"

cp listed.img broken.img
poke broken.img $((root_at + 32 + 11)) '\x10'
broken "finding 4 at slot 1" "(refusal 41; finding 4 " "DAY001.LOG, a directory; see it with: balladmoor map broken.img)"

cp listed.img broken.img
poke broken.img $((root_at + 29)) '\x02'
broken "finding 5 at slot 0" "(refusal 41; finding 5 " "is too short, broken or without end: TARE.KEY; see it with: balladmoor map broken.img)"
ends 1 "list shows the files of a broken disk" balladmoor list broken.img
prints "DAY001   LOG      1025 1983-09-01  18:05  ---A"

cp listed.img broken.img
poke broken.img $((root_at + 32 + 26)) '\x02\x00\x00\x02'
broken "finding 6 at cluster 2" "(refusal 41; finding 6 " "a cluster in two files: TARE.KEY and DAY001.LOG; see it with: balladmoor map broken.img)"

cp listed.img broken.img
for copy in 512 1024; do poke broken.img $((copy + 300)) '\xFF\x0F'; done
broken "finding 7 at cluster 200" "(refusal 41; finding 7 " "in no file: 1 such cluster; see it with: balladmoor map broken.img)"

echo "-- names and stamps that another program left"
cp listed.img other.img
poke other.img $((root_at + 32)) 'D\x1BY 1'
poke other.img $((root_at + 32 + 22)) '\x00\xC0\x00\x00'
poke other.img $((root_at + 64)) 'SCALE      \x08'
ends 0 "list" balladmoor list other.img
prints " Volume in other.img is SCALE"
prints "D?Y 11   LOG      1025       none   none  ---A"

echo "-- files that are no disks"
head -c 163839 160.img >short.img
for image in short.img tare "$root/README.md"; do
  ends 4 "check $(basename "$image")" balladmoor check "$image"
  says "(finding 1 at place 0: "
  for words in list map free; do
    ends 1 "$words $(basename "$image")" balladmoor $words "$image"
    says "(refusal 40)"
  done
  ends 1 "put to $(basename "$image")" balladmoor put "$image" A tare
  says "(refusal 40)"
done
ends 1 "a file that is not there" balladmoor check missing.img
says "missing.img: The file can't be opened: No such file or directory. See that the name is right."
ends 1 "put to a file that is not there" balladmoor put missing.img A tare
check ".. does not make it" [ ! -e missing.img ]
ends 1 "put of a file that is not there" balladmoor put disk.img A missing
ends 1 "a folder" balladmoor check .
ends 1 "a file too long" balladmoor check <(head -c 17000000 /dev/zero)
says "too long"
