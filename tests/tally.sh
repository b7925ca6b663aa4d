# Sourced by the gate and by tests: counts checks, adds up the tallies of programs, and keeps what a command printed. $made is
# a folder that goes at the end.
# shellcheck shell=bash
passed=0
failed=0
skipped=0
made=$(mktemp -d)
trap 'rm -rf "$made"' EXIT

# check WHAT COMMAND..: one check, by the command's status.
check() {
  local what=$1
  shift
  if "$@"; then
    echo "ok: $what"
    passed=$((passed + 1))
  else
    fail "$what"
  fi
}

# fail WHAT: one check that failed.
fail() {
  echo "FAILED: $1"
  failed=$((failed + 1))
}

# skip WHAT: one check that is not made here.
skip() {
  echo "skipped: $1"
  skipped=$((skipped + 1))
}

# count COMMAND..: runs a program that has a tally of its own, shows what it prints, and adds it up.
count() {
  "$@" 2>&1 | tee "$made/counted"
  add_up "${PIPESTATUS[0]}" "$made/counted" "$*"
}

# add_up STATUS LOG WHAT: adds the tally of a program that ended with this status and printed this. The last line must be
# 'N passed, M failed', with an N above 0, and the status 0 just where M is. What is not so is one failure more.
add_up() {
  local good bad
  if ! [[ $(tail -n 1 "$2") =~ ^([0-9]+)\ passed,\ ([0-9]+)\ failed$ ]]; then
    fail "$3: no line 'N passed, M failed' at its end (exit status $1)"
    return
  fi
  good=${BASH_REMATCH[1]}
  bad=${BASH_REMATCH[2]}
  passed=$((passed + good))
  failed=$((failed + bad))
  [ "$good" -gt 0 ] || fail "$3: it passed nothing"
  [ "$1" -eq 0 ] || [ "$bad" -gt 0 ] || fail "$3: nothing failed, and its exit status is $1"
  [ "$1" -ne 0 ] || [ "$bad" -eq 0 ] || fail "$3: something failed, and its exit status is 0"
  add_skipped "$2" "$3"
}

# add_skipped LOG WHAT: adds what a program skipped. It has a line 'skipped: WHAT' for each, and before its last line how many
# there are, 'K skipped'; one that has no such line skipped nothing.
add_skipped() {
  local told named
  told=$(tail -n 2 "$1" | sed -n '1s/^\([0-9]*\) skipped$/\1/p')
  named=$(grep -c '^skipped: ' "$1")
  [ "${told:-0}" -eq "$named" ] || fail "$2: it says that ${told:-0} were skipped, and names $named"
  skipped=$((skipped + named))
}

# ends STATUS WHAT COMMAND..: one check, that the command ends with this status, and has printed on standard error if
# and only if that is not 0. What it printed stands in $made/out and $made/err.
ends() {
  local status=$1 what=$2 ended
  shift 2
  "$@" >"$made/out" 2>"$made/err"
  ended=$?
  check "$what" told "$status" "$ended"
}

told() {
  if [ "$1" -ne "$2" ] || { [ "$1" -eq 0 ] && [ -s "$made/err" ]; } || { [ "$1" -ne 0 ] && [ ! -s "$made/err" ]; }; then
    echo "status $2, not $1, with:"
    cat "$made/out" "$made/err"
    return 1
  fi
}

# prints LINE: the last command printed this line.
prints() {
  check ".. prints: $1" has_line "$1"
}

has_line() {
  grep -qxF -e "$1" "$made/out" || { cat "$made/out"; return 1; }
}

# says WORDS: the last command has these words in what it said on standard error, in one line.
says() {
  check ".. says: $1" has_words "$1"
}

has_words() {
  { grep -qF -e "$1" "$made/err" && [ "$(wc -l <"$made/err")" -eq 1 ]; } || { cat "$made/err"; return 1; }
}

# poke FILE OFFSET BYTES: puts bytes, written as for printf, into a file.
poke() {
  # shellcheck disable=SC2059
  printf "$3" | dd of="$1" bs=1 seek="$2" conv=notrunc status=none
}

# bytes FILE OFFSET COUNT: prints bytes of a file, in hex.
bytes() {
  od -An -v -tx1 -j"$2" -N"$3" "$1" | tr -d ' \n'
}

# epoch DATE TIME: the second, for SOURCE_DATE_EPOCH.
epoch() {
  date -u -d "$1 $2" +%s
}

finish() {
  echo "$skipped skipped"
  echo "$passed passed, $failed failed"
  [ "$failed" -eq 0 ]
}
