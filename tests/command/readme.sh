# Sourced by run: the README's C example, built with the header and archive that were installed.
# shellcheck shell=bash disable=SC2154

echo "-- the README's example"
awk '/^```c$/ { on = 1; next } /^```$/ { on = 0 } on' "$root/README.md" >example.c
ends 0 "it builds" "$root/tests/x86.sh" --cc -Wall -Wextra -Werror -std=c11 -pedantic -I"$made/prefix/include" \
  example.c "$made/prefix/lib/libscale.a" -o example
ends 0 "it finds the tare" "$root/tests/x86.sh" ./example listed.img
prints "the tare has 40 bytes"
"$root/tests/x86.sh" ./example 160.img >"$made/out"
check "it ends with 1 without a tare" [ $? -eq 1 ]
prints "refused by 2"
