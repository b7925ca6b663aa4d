# Sourced by run: the manual page and the completion say what the command does, by its own help.
# shellcheck shell=bash disable=SC2154

echo "-- the manual page, the completion and the command's help"
balladmoor() {
  "$root/tests/x86.sh" "$there/bin/balladmoor" "$@"
}

# synopsis: the page's lines of that part, each with single spaces.
synopsis() {
  sed -n '/^SYNOPSIS/,/^DESCRIPTION/s/^ *\(balladmoor .*\)/\1/p' "$made/page" | tr -s ' '
}

# options: the options in what comes in, each once.
options() {
  grep -o -e '--[a-z-]*' | sort -u
}

# flat: what comes in as one line, with single spaces and no word in two pieces.
flat() {
  tr -s ' \n' ' ' | sed 's/‐ //g'
}

same "the version" "balladmoor $(cat VERSION)" "$(balladmoor --version)"
verbs=$(balladmoor --help | sed -n 's/^  \([a-z][a-z]*\) .*/\1/p' | sort)
check "the help has verbs" [ "$(wc -l <<<"$verbs")" -ge 12 ]
same "the manual page has the help's verbs" "$verbs" "$(synopsis | sed -n 's/^balladmoor \([a-z][a-z]*\) .*/\1/p' | sort -u)"
# shellcheck disable=SC2086
completes "balladmoor " $verbs -h --help --version
for verb in $verbs; do
  balladmoor help "$verb" >"$made/help"
  words=$(head -n 1 "$made/help")
  check "the manual page has: ${words%%, or *}" grep -qxF -e "${words%%, or *}" <(synopsis)
  # shellcheck disable=SC2046
  completes "balladmoor $verb --" $(head -n 1 "$made/help" | options)
  while read -r line; do
    check "the manual page has: $line" grep -qF -e "$line" "$made/page"
  done < <(sed -n 's/^ *\([{"].*\)/\1/p' "$made/help")
done
# the verb, and what its help and the manual page must say
while IFS='|' read -r verb words; do
  check "help $verb has: $words" grep -qF -e "$words" <(balladmoor help "$verb" | flat)
  check "the manual page has it too" grep -qF -e "$words" <(flat <"$made/page")
done <<'END'
check|Bad: the disk is worn there. Reserved: kept from files, which says nothing of wear.
list|the free bytes, then those of bad and those of reserved clusters, if there are any.
map|(a to z without r and x, A to Z, + for all others), . free, x bad, r reserved,
END
same "the exit statuses" "$(balladmoor --help | sed -n '/^Exit status/,$p' | grep -o '\b[0-9]\b')" \
  "$(sed -n '/^EXIT STATUS/,/^[B-Z]/s/^ *\([0-9]\) .*/\1/p' "$made/page")"

cd "$made/desk" || exit 1
balladmoor format 160 real.img
balladmoor put real.img TARE.KEY tare.txt
balladmoor put real.img 19830901.LOG tare.txt
completes "balladmoor get real.img " TARE.KEY 19830901.LOG
completes "balladmoor list real.img 1" 19830901.LOG
cd "$root" || exit 1
