# Sourced by run: disks with bad and reserved clusters. By document 01 FF7 is bad and FF0 to FF6 are reserved.
# shellcheck shell=bash disable=SC2154

# worn VALUES: worn.img is document 01's sample volume with these bytes of the table, from cluster 200 on.
worn() {
  cp listed.img worn.img
  for copy in 512 1024; do poke worn.img $((copy + 300)) "$1"; done
}

# list_ends BYTES SORT..: below the sum of the files the last command's list has these lines, and no other.
list_ends() {
  check ".. ends with: $*" diff <(printf '%35s bytes %s\n' "$@") <(sed '1,/ files\? .* bytes$/d' "$made/out")
}

echo "-- a worn disk: clusters 200 to 207 have FF0 to FF7, so that 1 is bad and 7 are reserved"
worn '\xF0\x1F\xFF\xF2\x3F\xFF\xF4\x5F\xFF\xF6\x7F\xFF'
ends 0 "check" balladmoor check worn.img
prints "worn.img: sound; files 2; clusters free 301, held by files 4, bad 1, reserved 7"
ends 0 "check --json" balladmoor check --json worn.img
holds "the same" '{"sound": true, "files": 2, "free": 301, "held": 4, "bad": 1, "reserved": 7}'
ends 0 "list" balladmoor list worn.img
list_ends "154 112" free 512 bad "3 584" reserved
ends 0 "list of a pattern" balladmoor list worn.img '*.KEY'
list_ends "154 112" free 512 bad "3 584" reserved
ends 0 "list --json" balladmoor list --json worn.img
holds "in bytes" "{\"sound\": true, \"label\": null, \"free\": 154112, \"bad\": 512, \"reserved\": 3584,
  \"files\": [$tare_json, $day_json]}"
ends 0 "free" balladmoor free worn.img
prints "154112 bytes free: 301 of 313 clusters of 512 bytes"
map "a worn disk" worn.img <<END
$(row 2 abbb)
$(row 66)
$(row 130)
$(row 194 '......rrrrrrrx')
$(row 258)

a  TARE.KEY            40 bytes
b  DAY001.LOG        1025 bytes
.  free: 301 clusters
x  bad: 1 cluster
r  reserved: 7 clusters
END

echo "-- nothing is put into these clusters"
head -c 154112 /dev/urandom >rest
ends 0 "put as much as there is room for" balladmoor put worn.img REST rest
ends 0 "check" balladmoor check worn.img
prints "worn.img: sound; files 3; clusters free 0, held by files 305, bad 1, reserved 7"
check ".. their values are as they were" [ "$(bytes worn.img 812 12)" = f01ffff23ffff45ffff67fff ]
check ".. in both copies" [ "$(bytes worn.img 1324 12)" = f01ffff23ffff45ffff67fff ]
check ".. and so are their bytes" cmp <(tail -c +$((205 * 512 + 1)) listed.img | head -c 4096) \
  <(tail -c +$((205 * 512 + 1)) worn.img | head -c 4096)
ends 0 "get it back" balladmoor get worn.img REST -
check ".. whole" cmp rest "$made/out"

echo "-- the one without the other"
ends 0 "list of a disk without either" balladmoor list listed.img
list_ends "158 208" free
worn '\x00\x70\xFF'
ends 0 "list of a disk with a bad cluster" balladmoor list worn.img
list_ends "157 696" free 512 bad
ends 0 "check" balladmoor check worn.img
prints "worn.img: sound; files 2; clusters free 308, held by files 4, bad 1, reserved 0"
worn '\xF6\x0F\x00'
ends 0 "list of a disk with a reserved cluster" balladmoor list worn.img
list_ends "157 696" free 512 reserved
ends 0 "check --json" balladmoor check --json worn.img
holds "the same" '{"sound": true, "files": 2, "free": 308, "held": 4, "bad": 0, "reserved": 1}'

# Clusters 2 and 3 of a disk of 360 KB, of 1,024 bytes each: FF7 and FF0.
cp 360.img worn.img
for copy in 512 1536; do poke worn.img $((copy + 3)) '\xF7\x0F\xFF'; done
ends 0 "list --json of a disk of larger clusters" balladmoor list --json worn.img
holds "in bytes" '{"sound": true, "label": null, "free": 360448, "bad": 1024, "reserved": 1024, "files": []}'

echo "-- a worn disk that is not sound"
worn '\xF7\xFF\xFF'
ends 1 "list" balladmoor list worn.img
check ".. has no line behind the files'" [ "$(tail -n 1 "$made/out")" = "        2 files               1 065 bytes" ]
ends 1 "list --json" balladmoor list --json worn.img
holds "null" "{\"sound\": false, \"label\": null, \"free\": null, \"bad\": null, \"reserved\": null,
  \"files\": [$tare_json, $day_json]}"
balladmoor map worn.img >"$made/out"
prints "$(row 194 '......x?')"
prints "x  bad: 1 cluster"
