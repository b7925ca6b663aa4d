# Sourced by run: make install and make uninstall.
# shellcheck shell=bash disable=SC2154

# files FOLDER: the files below it.
files() {
  (cd "$1" && find . -type f | sed 's|^\./||' | sort)
}

# builds PC OUT: README's C program, built by what pkg-config says of the folder PC, with no other folder named.
builds() {
  local flags
  flags=$(PKG_CONFIG_LIBDIR=$1 pkg-config --cflags --libs balladmoor) || return
  # shellcheck disable=SC2086
  "$root/tests/x86.sh" --cc -Wall -Wextra -Werror -std=c11 -pedantic "$made/example.c" $flags -o "$2"
}

awk '/^```c$/ { on = 1; next } /^```$/ { on = 0 } on' README.md >"$made/example.c"

echo "-- make install"
prefix=$made/usr
check "make install" make install PREFIX="$prefix"
same "it puts these files in place" "$(files "$prefix")" "bin/balladmoor
include/balladmoor.h
include/balladmoor_help.h
lib/libscale.a
lib/pkgconfig/balladmoor.pc
share/bash-completion/completions/balladmoor
share/doc/balladmoor/INTERFACE.md
share/doc/balladmoor/README.md
share/man/man1/balladmoor.1"
for header in include/*.h; do
  check "$header is installed as it is" cmp "$header" "$prefix/$header"
done
same "pkg-config has the version" "$(cat VERSION)" \
  "$(PKG_CONFIG_LIBDIR=$prefix/lib/pkgconfig pkg-config --modversion balladmoor)"
check "README's program builds by pkg-config" builds "$prefix/lib/pkgconfig" "$made/example"
ends 0 "the installed command makes a disk" tests/x86.sh "$prefix/bin/balladmoor" format 160 "$made/hive.img"
tests/x86.sh "$made/example" "$made/hive.img" >"$made/out"
prints "refused by 2"

echo "-- make uninstall"
mkdir -p "$prefix/share/man/man1"
touch "$prefix/share/man/man1/other.1"
check "make uninstall" make uninstall PREFIX="$prefix"
same "it leaves what is not ours" share/man/man1/other.1 "$(files "$prefix")"
check "it leaves no folder of ours" [ ! -d "$prefix/share/doc/balladmoor" ]
check "once more" make uninstall PREFIX="$prefix"

echo "-- for a packager"
check "make install with DESTDIR" make install DESTDIR="$made/stage" PREFIX=/usr
check "nothing in it names the stage" [ -z "$(grep -rlF "$made" "$made/stage")" ]
same "pkg-config has the prefix" /usr "$(PKG_CONFIG_LIBDIR=$made/stage/usr/lib/pkgconfig pkg-config --variable=prefix balladmoor)"
check "make uninstall with DESTDIR" make uninstall DESTDIR="$made/stage" PREFIX=/usr
same "it leaves nothing" "" "$(files "$made/stage")"
