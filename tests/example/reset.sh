# Sourced by run: a disk that a reset in the middle of a save has left. Of each sector it has the old bytes or the new ones.
# shellcheck shell=bash disable=SC2154

# shown: the last command printed the one weighing less the tare, and nothing else.
shown() {
  cmp "$made/out" <(echo "08:00:00 61250 g, net $((61250 - 12500)) g")
}

# only_shown WHAT: torn.img is not sound; the weighing is shown, nothing is stored, and what to do is said.
only_shown() {
  cp torn.img before.img
  ends 1 "$1" scale torn.img 1983-09-07 08:00:00 61250
  check ".. shows the weight against the tare" shown
  says "torn.img: The disk is not sound (finding "
  says "The weighings were shown against the tare that was rescued off it, 12500 g, and nothing was stored."
  says "Bring its files off by balladmoor get --rescue, and put them on a new disk, the tare too."
  check ".. and the disk is as it was" cmp torn.img before.img
}

# stored WHAT: torn.img is sound, and the weighing is stored.
stored() {
  ends 0 "$1" scale torn.img 1983-09-07 08:00:00 61250
  check ".. shows the weight against the tare" shown
  check ".. and it is stored" cmp <(echo "08:00:00 61250") <(balladmoor get torn.img 19830907.LOG -)
}

# mix N: torn.img is the disk on which just those changed sectors are new that the bits of N say.
mix() {
  local i at
  cp old.img torn.img
  for i in "${!changed[@]}"; do
    at=${changed[i]}
    (($1 >> i & 1)) || continue
    dd if=new.img of=torn.img bs=512 skip="$at" seek="$at" count=1 conv=notrunc status=none
  done
}

echo "-- after a reset: all mixes of the sectors that a save changes"
cp hive.img old.img
cp hive.img new.img
balladmoor delete new.img 19830901.LOG
scale new.img 1983-09-06 07:00:00 50000 >"$made/out"
head -c 1000 /dev/urandom >notes
balladmoor put new.img NOTES.TXT notes
mapfile -t changed < <(cmp -l old.img new.img | awk '{ print int(($1 - 1) / 512) }' | sort -nu)
# Both copies of the table, the root, and at least three clusters.
check "sectors 1, 2, 3 and others have changed" [ "${changed[*]:0:3} $((${#changed[@]} > 5))" = "1 2 3 1" ]
broken=0
for ((n = 0; n < 1 << ${#changed[@]}; n++)); do
  mix "$n"
  if balladmoor check torn.img >"$made/out" 2>"$made/err"; then
    stored "disk $n is sound"
  else
    broken=$((broken + 1))
    only_shown "disk $n is not"
  fi
done
check "half of them or more are not sound" [ "$broken" -ge $((1 << (${#changed[@]} - 1))) ]
mix 1
ends 1 "two weighings on a disk that is not sound" scale torn.img 1983-09-07 08:00:00 61250 12000
prints "08:00:00 12000 g, net $((12000 - 12500)) g"
ends 1 ".. that can't be shown" to_full torn.img 1983-09-07 08:00:00 61250
says "The weighings could not be shown against the tare that was rescued off it"

echo "-- what the sentence advises"
balladmoor get --rescue torn.img TARE.KEY rescued 2>"$made/err"
check "the tare is brought off" cmp tare rescued
cp rescued TARE.KEY
balladmoor format 160 fresh.img
balladmoor put fresh.img . TARE.KEY
balladmoor mode fresh.img TARE.KEY 01
ends 0 "and it weighs on a new disk" scale fresh.img 1983-09-07 08:00:00 61250
check ".. against the same tare" shown

# no_tare WHAT WORDS: torn.img is not sound and has no tare, for the reason said; nothing is weighed.
no_tare() {
  cp torn.img before.img
  ends 1 "$1" scale torn.img 1983-09-07 08:00:00 61250
  tells "TARE.KEY: $2"
  tells "torn.img: The disk is broken. Keep a copy of it as it is, and take it to the service bench. (finding "
  check ".. and shows no weight" [ ! -s "$made/out" ]
  check ".. and the disk is as it was" cmp torn.img before.img
}

echo "-- not sound, and no tare to be rescued: it refuses to weigh"
root_at=1536
start=$(od -An -tu2 -j$((root_at + 26)) -N2 old.img)
mix 1
poke torn.img $((root_at + 29)) '\x02'
no_tare "the tare's chain is too short, broken or without end" "The tare's chain of clusters is too short, broken or without end, so nothing is weighed."
tells "(refusal 5)"
mix 1
poke torn.img $root_at '\xE5'
no_tare "the tare's entry is erased" "There is no tare on this disk, so nothing is weighed."
tells "(refusal 2)"
mix 1
poke torn.img $((root_at + 11)) '\x20'
no_tare "the tare is not read-only" "The tare is not read-only, so it may have been changed."
mix 1
poke torn.img $(((start + 5) * 512)) 'x'
no_tare "the tare is no number" "This is no number of grams, so nothing is weighed."
