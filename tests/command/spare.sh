# Sourced by run: disks with spare clusters, of units that take clusters before they need them. The disk is that of document
# 01's listing; by hand TARE.KEY gets the clusters 2, 6, 8 for 40 bytes, and an empty file the clusters 7, 9.
# shellcheck shell=bash disable=SC2154

# entries IMAGE BYTES: puts bytes into both copies of the table, from the entries of clusters 2 and 3 on.
entries() {
  for copy in 512 1024; do poke "$1" $((copy + 3)) "$2"; done
}

# spare_but BYTES: broken.img is spare.img, but that the entries of clusters 8 and 9 are these three bytes.
spare_but() {
  cp spare.img broken.img
  entries broken.img "\x06\x40\x00\x05\xF0\xFF\x08\x90\x00$1"
}

echo "-- spare clusters: check, list, map, free"
cp listed.img spare.img
balladmoor put spare.img EMPTY /dev/null
poke spare.img $((root_at + 64 + 26)) '\x07'
entries spare.img '\x06\x40\x00\x05\xF0\xFF\x08\x90\x00\xFF\xFF\xFF'
ends 0 "check" balladmoor check spare.img
prints "spare.img: sound; files 3; clusters free 305, held by files 8, bad 0, reserved 0"
ends 0 "free" balladmoor free spare.img
prints "156160 bytes free: 305 of 313 clusters of 512 bytes"
ends 0 "list" balladmoor list spare.img
prints "TARE     KEY        40 1983-09-01   6:40  R--A"
prints "        3 files               1 065 bytes"
prints "                            156 160 bytes free"
map "map" spare.img <<END
$(row 2 abbbacac)
$(row 66)
$(row 130)
$(row 194)
$(row 258)

a  TARE.KEY            40 bytes
b  DAY001.LOG        1025 bytes
c  EMPTY                0 bytes
.  free: 305 clusters
END

echo "-- spare clusters: files are read, replaced and deleted"
ends 0 "get the tare" balladmoor get spare.img TARE.KEY -
check ".. its 40 bytes" cmp tare "$made/out"
ends 0 "get the empty file" balladmoor get spare.img EMPTY -
check ".. no bytes" [ ! -s "$made/out" ]
cp spare.img disk.img
ends 0 "put anew" balladmoor put disk.img EMPTY tare
ends 0 "check" balladmoor check disk.img
prints "disk.img: sound; files 3; clusters free 306, held by files 7, bad 0, reserved 0"
cp spare.img disk.img
ends 0 "delete the empty file" balladmoor delete disk.img EMPTY
ends 0 "free" balladmoor free disk.img
prints "157184 bytes free: 307 of 313 clusters of 512 bytes"
balladmoor mode disk.img TARE.KEY 20
ends 0 "delete the tare" balladmoor delete disk.img TARE.KEY
ends 0 "check" balladmoor check disk.img
prints "disk.img: sound; files 1; clusters free 310, held by files 3, bad 0, reserved 0"

echo "-- spare clusters: room"
cp spare.img disk.img
head -c 156160 /dev/zero >rest
ends 0 "a file takes all free clusters" balladmoor put disk.img REST rest
head -c 1024 day >own
cp disk.img before.img
ends 1 "a byte more than the empty file's two clusters hold" balladmoor put disk.img EMPTY day
says "EMPTY: The disk is full: it has room for 1024 of 1025 bytes"
check ".. and nothing was changed" cmp disk.img before.img
ends 0 "as much as they hold" balladmoor put disk.img EMPTY own
ends 0 "get it back" balladmoor get disk.img EMPTY -
check ".. whole" cmp own "$made/out"

echo "-- spare clusters: broken disks"
# bad_chain SLOT NAME: broken.img has finding 5 at this slot, and its file is refused by 5.
bad_chain() {
  local chain="chain of clusters is too short, broken or without end"
  broken "finding 5 at slot $1" "(refusal 41; finding 5 " "$chain: $2; see it with: balladmoor map broken.img)"
  ends 1 "get --rescue $2" balladmoor get --rescue broken.img "$2" -
  says "$2: The file's $chain, so its bytes can't be told."
  says "(refusal 5)"
}

# Cluster 8 leads back to 2.
spare_but '\x02\xF0\xFF'
bad_chain 0 TARE.KEY
off "another file" DAY001.LOG day

# Cluster 8 is bad.
spare_but '\xF7\xFF\xFF'
bad_chain 0 TARE.KEY

# Size 0 with start 1.
cp spare.img broken.img
poke broken.img $((root_at + 64 + 26)) '\x01'
bad_chain 2 EMPTY
off "another file" TARE.KEY tare

# Start 0 with a size.
cp spare.img broken.img
poke broken.img $((root_at + 26)) '\x00'
bad_chain 0 TARE.KEY

# Cluster 8 leads to 9, which is the empty file's too.
spare_but '\x09\xF0\xFF'
broken "finding 6 at cluster 9" "(refusal 41; finding 6 " \
  "a cluster in two files: TARE.KEY and EMPTY; see it with: balladmoor map broken.img)"
ends 0 "map" balladmoor map broken.img
prints "$(row 2 'abbbaca*')"
off "finding 6 by spare clusters" TARE.KEY tare

# The copies differ.
cp spare.img broken.img
poke broken.img $((1024 + 511)) '\x01'
off "finding 2, a file with spare clusters" TARE.KEY tare
off "finding 2, an empty file with a chain" EMPTY /dev/null
