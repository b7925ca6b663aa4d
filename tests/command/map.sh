# Sourced by run: the map. Which cluster is whose is from document 01's table: cluster 2 is the tare's, 3 to 5 are the day's.
# shellcheck shell=bash disable=SC2154

# row FIRST SIGNS: a line of the map whose first signs are these, the others free; the last line has 57.
row() {
  local signs=${2:-}
  while [ ${#signs} -lt $(($1 == 258 ? 57 : 64)) ]; do signs+=.; done
  printf '%5d %s\n' "$1" "$signs"
}

# map WHAT IMAGE: the map of the image is what comes in.
map() {
  cat >"$made/wanted"
  ends 0 "$1" balladmoor map "$2"
  check ".. is this" diff "$made/wanted" "$made/out"
}

echo "-- the map of document 01's sample volume"
map "the sample volume" listed.img <<END
$(row 2 abbb)
$(row 66)
$(row 130)
$(row 194)
$(row 258)

a  TARE.KEY            40 bytes
b  DAY001.LOG        1025 bytes
.  free: 309 clusters
END
check "README shows it" cmp "$made/wanted" <(sed -n '/^        2 abbb/,/free: 309/{s/^    //;p}' "$root/README.md")

echo "-- broken disks: a cluster in two files, clusters in none, values that mean nothing, a chain that circles"
cp listed.img broken.img
poke broken.img $((root_at + 32 + 26)) '\x02\x00\x00\x02'
map "finding 6" broken.img <<END
$(row 2 '*???')
$(row 66)
$(row 130)
$(row 194)
$(row 258)

a  TARE.KEY            40 bytes
b  DAY001.LOG         512 bytes
.  free: 309 clusters
*  in two files or more: 1 cluster
?  in use, but in no file: 3 clusters
END

# Clusters 200 and 201: an end, and one that is bad.
cp listed.img broken.img
for copy in 512 1024; do poke broken.img $((copy + 300)) '\xFF\x7F\xFF'; done
map "finding 7" broken.img <<END
$(row 2 abbb)
$(row 66)
$(row 130)
$(row 194 '......?x')
$(row 258)

a  TARE.KEY            40 bytes
b  DAY001.LOG        1025 bytes
.  free: 307 clusters
x  bad: 1 cluster
?  in use, but in no file: 1 cluster
END

# The day's chain goes from 3 to 4 and back; cluster 5 has the value 1.
cp listed.img broken.img
for copy in 512 1024; do poke broken.img $((copy + 4)) '\x4F\x00\x03\x10\x00'; done
map "a chain that circles" broken.img <<END
$(row 2 abb?)
$(row 66)
$(row 130)
$(row 194)
$(row 258)

a  TARE.KEY            40 bytes
b  DAY001.LOG        1025 bytes
.  free: 309 clusters
?  in use, but in no file: 1 cluster
END

echo "-- more files than letters, which are a to z without r and x, and A to Z; and clusters of the last line"
cp 160.img many.img
printf 1 >one
mkdir -p folder
names=()
for n in $(seq 52); do
  cp one "folder/N$n"
  names+=("folder/N$n")
done
balladmoor put many.img . "${names[@]}"
for n in 1 27 50 51; do balladmoor delete many.img "N$n"; done
balladmoor put many.img LAST one
# The new file has the first file's slot and cluster; where others were deleted, clusters are free.
ends 0 "49 files" balladmoor map many.img
prints "$(row 2 abcdefghijklmnopqstuvwyzAB.CDEFGHIJKLMNOPQRSTUVWX..Y)"
balladmoor put many.img . folder/N50 folder/N51
ends 0 "51 files" balladmoor map many.img
prints "$(row 2 abcdefghijklmnopqstuvwyzABCDEFGHIJKLMNOPQRSTUVWXYZ.+)"
prints "$(printf '+  %-12s %9d bytes' N52 1)"
check ".. and no line for r or x" [ "$(grep -c '^[rx] ' "$made/out")" -eq 0 ]
rm -r folder

# Clusters 60 to 62 of that disk: one bad, two reserved. The 18th file has s, the 24th z.
for copy in 512 1024; do poke many.img $((copy + 90)) '\xF7\x0F\xFF\xF6\x0F'; done
ends 0 "51 files, one bad cluster, two reserved" balladmoor map many.img
prints "$(row 2 abcdefghijklmnopqstuvwyzABCDEFGHIJKLMNOPQRSTUVWXYZ.+......xrr)"
prints "$(printf 's  %-12s %9d bytes' N18 1)"
prints "$(printf 'z  %-12s %9d bytes' N24 1)"
check ".. one line for x and one for r" diff <(grep '^[rx] ' "$made/out") - <<'END'
x  bad: 1 cluster
r  reserved: 2 clusters
END
head -c 160256 /dev/zero >rest
cp 160.img full.img
balladmoor put full.img REST rest
ends 0 "a full disk" balladmoor map full.img
prints "  258 $(printf 'a%.0s' $(seq 57))"
check ".. and nothing free" [ "$(grep -c free "$made/out")" -eq 0 ]

echo "-- against a map that is made in another way"
check "100 random volumes" python3 "$root/tests/command/maps.py" 100 "$root/tests/x86.sh" "$made/prefix/bin/balladmoor"
