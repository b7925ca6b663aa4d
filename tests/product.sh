#!/usr/bin/env bash
# product.sh archive   makes target/staticlib/libscale.a, the scale's calls
# product.sh member    makes target/staticlib/libmember.a, what the command asks beside them
# product.sh listing   makes target/staticlib/liblisting.a, the listing
# product.sh sample    makes target/bin/sample, the program that makes the sample volume
# product.sh worked    makes target/bin/worked, the program that prints the worked numbers
# Only where it is missing or older than a source; what is proved already is not proved again. One at a time, since tests run
# beside each other.
set -eu
cd "$(dirname "$0")/.."
mkdir -p target/bin target/staticlib
exec 9>target/product.lock
flock 9

# For every x86-64 processor: rt's own choice is for newer ones, and an archive does not look on which it runs.
cpu=--cpu=x86-64

# is_fresh FILE: whether it is there and no source is newer. What rt makes of a crate, in its folder out, is no source.
is_fresh() {
  [ -e "$1" ] &&
    [ -z "$(find crates.txt crates -regex 'crates/[^/]*/out' -prune -o -type f ! -path '*/must-fail/*' -newer "$1" -print -quit)" ]
}

# put FILE AS: puts what rt made there, whole or not at all.
put() {
  cp "$1" "$2.new"
  mv "$2.new" "$2"
}

# library NAME: makes target/staticlib/libNAME.a of the crate NAME_c, which exports for C what the crate NAME has.
library() {
  local archive=target/staticlib/lib$1.a
  is_fresh "$archive" && return
  (cd "crates/$1_c" && rt lib $cpu)
  put "crates/$1_c/out/lib$1_c.a" "$archive"
}

# program NAME: makes target/bin/NAME of the crate NAME. rt makes it by a run.
program() {
  is_fresh "target/bin/$1" && return
  (cd "crates/$1" && rt run $cpu >/dev/null)
  put "crates/$1/out/$1" "target/bin/$1"
}

case $1 in
archive) library scale ;;
member) library member ;;
listing) library listing ;;
sample) program sample ;;
worked) program worked ;;
*)
  echo "product.sh: no product is called $1" >&2
  exit 2
  ;;
esac
