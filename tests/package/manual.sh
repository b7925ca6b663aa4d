# Sourced by run: the manual page.
# shellcheck shell=bash disable=SC2154

echo "-- the manual page"
# page: the page as a terminal of 80 columns shows it.
page() {
  LC_ALL=C.UTF-8 MANWIDTH=80 MANROFFSEQ='' man --warnings -E UTF-8 -l balladmoor.1 2>"$made/warnings"
}

page >"$made/page"
same "man has nothing to warn of" "" "$(cat "$made/warnings")"
check "it fits 80 columns" [ "$(wc -L <"$made/page")" -le 80 ]
for part in NAME SYNOPSIS DESCRIPTION VERBS "EXIT STATUS" EXAMPLES; do
  check "it has the part $part" grep -qx "$part" "$made/page"
done
same "the installed page is found by its name" "$(cat "$made/page")" \
  "$(LC_ALL=C.UTF-8 MANWIDTH=80 MANROFFSEQ='' man -M "$made/unpacked/$release/share/man" -E UTF-8 balladmoor)"
