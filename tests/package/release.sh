# Sourced by run: make dist.
# shellcheck shell=bash disable=SC2154

echo "-- the release"
release=balladmoor-$(cat VERSION)-x86_64-linux

# dist FOLDER MASK: makes the release there, with new files of these permissions.
dist() (
  umask "$2"
  make dist DIST="$1"
)

check "make dist" dist "$made/dist" 022
check "once more, for a user who shares nothing" dist "$made/again" 077
check "both have the same bytes" cmp "$made/dist/$release.tar.gz" "$made/again/$release.tar.gz"
mkdir "$made/unpacked"
check "it unpacks" tar -C "$made/unpacked" -xzf "$made/dist/$release.tar.gz"
same "into one folder" "$release" "$(ls "$made/unpacked")"
there=$made/unpacked/$release
for file in bin/balladmoor bin/listing include/balladmoor.h include/balladmoor_help.h lib/libscale.a \
  lib/pkgconfig/balladmoor.pc share/man/man1/balladmoor.1; do
  check "it has $file" [ -s "$there/$file" ]
done
ends 0 "its command makes a disk" tests/x86.sh "$there/bin/balladmoor" format 160 "$made/released.img"
tests/x86.sh "$there/bin/listing" <"$made/released.img" >"$made/out"
prints "sound=yes"
check "README's program builds by it, where it was unpacked" builds "$there/lib/pkgconfig" "$made/released"
# README promises glibc 2.34. runs_by_it PROGRAM: it wants no newer one.
runs_by_it() {
  local newest
  newest=$("$(tests/x86.sh --cc -print-prog-name=objdump)" -T "$1" | grep -o 'GLIBC_[0-9.]*' | sort -Vu | tail -n 1)
  echo "it wants ${newest:?}"
  [ "$(printf '%s\n' GLIBC_2.34 "$newest" | sort -V | tail -n 1)" = GLIBC_2.34 ]
}
for program in "$there"/bin/*; do
  check "$(basename "$program") runs with glibc 2.34" runs_by_it "$program"
done
