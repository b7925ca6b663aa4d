# Sourced by run: help, options, several files, dates, marks, and what is printed for programs.
# shellcheck shell=bash disable=SC2154

echo "-- help and version"
ends 0 "-h" balladmoor -h
cp "$made/out" "$made/short"
ends 0 "--help" balladmoor --help
check ".. is the same" cmp "$made/short" "$made/out"
ends 0 "--version" balladmoor --version
prints "balladmoor $(sed -n 's/^#define BM_VERSION "\(.*\)"$/\1/p' "$root/include/balladmoor.h")"
for verb in $(sed -n 's/^  \([a-z]*\) .*/\1/p' "$made/short"); do
  ends 0 "help $verb" balladmoor help "$verb"
  check ".. is of it" grep -q "^balladmoor $verb " "$made/out"
  check ".. in lines of 80" [ "$(wc -L <"$made/out")" -le 80 ]
  cp "$made/out" "$made/long"
  ends 0 "$verb --help" balladmoor "$verb" --help
  check ".. is the same" cmp "$made/long" "$made/out"
done
check "twelve verbs" [ "$(grep -c '^  [a-z]' "$made/short")" -eq 12 ]
ends 2 "help for a verb that there is not" balladmoor help copy
cp 160.img ./--json
ends 0 "-- ends the options" balladmoor check -- --json
prints "--json: sound; files 0; clusters free 313, held by files 0, bad 0, reserved 0"
rm ./--json

echo "-- several files are put"
mkdir -p in out
for name in one.log two.log three.log; do echo "$name" >"in/$name"; done
cp 160.img disk.img
ends 0 "put . three files" balladmoor put disk.img . in/one.log in/two.log in/three.log
ends 0 "list --names" balladmoor list --names disk.img
check ".. has them" cmp "$made/out" <(printf '%s\n' ONE.LOG TWO.LOG THREE.LOG)
cp disk.img before.img
head -c 200000 /dev/zero >in/long.log
for words in ". in/one.log in/toolongname" ". in/one.log in/none" ". in/one.log in/long.log"; do
  echo new >in/one.log
  echo >in/toolongname
  # shellcheck disable=SC2086
  ends 1 "put $words" balladmoor put disk.img $words
  check ".. changes nothing" cmp disk.img before.img
done
for words in "A in/one.log in/two.log" ". in/one.log -" ". in/one.log out/ONE.LOG"; do
  # shellcheck disable=SC2086
  ends 2 "put $words" balladmoor put disk.img $words
done
check "nothing was changed" cmp disk.img before.img

echo "-- several files are got"
ends 0 "get to a folder" balladmoor get disk.img ONE.LOG TWO.LOG three.log out
check ".. the first" cmp <(echo one.log) out/ONE.LOG
check ".. the last, by the name that was given" cmp <(echo three.log) out/three.log
ends 0 "get one to a folder" balladmoor get disk.img THREE.LOG out/
check ".. it is there" cmp <(echo three.log) out/THREE.LOG
rm out/ONE.LOG out/three.log out/THREE.LOG
ends 1 "get where the second is there already" balladmoor get disk.img ONE.LOG TWO.LOG THREE.LOG out
says "out/TWO.LOG: The file is there already"
check ".. makes none" [ "$(ls out)" = TWO.LOG ]
ends 1 "get where the second is not on the disk" balladmoor get disk.img ONE.LOG NONE THREE.LOG out
says "NONE: No file of that name"
check ".. makes none" [ "$(ls out)" = TWO.LOG ]
ends 2 "get several to a file" balladmoor get disk.img ONE.LOG TWO.LOG out/new
says "out/new: This is no folder."
ends 0 "get several to standard output" balladmoor get disk.img ONE.LOG THREE.LOG -
check ".. one after the other" cmp "$made/out" <(printf '%s\n' one.log three.log)

echo "-- dates are kept"
touch -d "1983-09-01 18:05:58" in/two.log
ends 0 "put --keep-dates" balladmoor put --keep-dates disk.img . in/two.log
balladmoor list disk.img >"$made/out"
prints "TWO      LOG         8 1983-09-01  18:05  ---A"
ends 0 "get --keep-dates" balladmoor get --keep-dates disk.img TWO.LOG out/again
check ".. has the date" [ "$(stat -c %Y out/again)" -eq "$(stat -c %Y in/two.log)" ]
export TZ=UTC-5
ends 0 "put and get, five hours east" balladmoor put --keep-dates disk.img EAST in/two.log
balladmoor list disk.img >"$made/out"
prints "EAST                 8 $(date -r in/two.log +%F)  $(date -r in/two.log +%k:%M)  ---A"
balladmoor get --keep-dates disk.img EAST out/east
check ".. has the date" [ "$(stat -c %Y out/east)" -eq "$(stat -c %Y in/two.log)" ]
unset TZ
cp listed.img other.img
poke other.img $((1536 + 22)) '\x00\xC0\x00\x00'
ends 0 "get --keep-dates of a file that has none" balladmoor get --keep-dates other.img TARE.KEY out/none
check ".. has the present date" [ $(($(date +%s) - $(stat -c %Y out/none))) -lt 60 ]
ends 2 "put --keep-dates from standard input" balladmoor put --keep-dates disk.img A - <day
ends 2 "get --keep-dates to standard output" balladmoor get --keep-dates disk.img TWO.LOG -
rm -r in out

echo "-- marks"
cp listed.img disk.img
# the mode after it, and the words
while IFS='|' read -r shown words; do
  # shellcheck disable=SC2086
  ends 0 "mode $words" balladmoor mode disk.img DAY001.LOG $words
  balladmoor mode disk.img DAY001.LOG >"$made/out"
  prints "$shown"
done <<'END'
21 read-only archive|+r
22 hidden archive|-r +h
26 hidden system archive|+S
07 read-only hidden system|+rhs -A
01 read-only|-hs
20 archive|-r +a
00|-a +r -r
06 hidden system|6
END
cp disk.img before.img
for words in "+x" "r" "+" "-" "01 +r" "+r 01" "+r -"; do
  # shellcheck disable=SC2086
  ends 2 "mode $words" balladmoor mode disk.img DAY001.LOG $words
done
check "nothing was changed" cmp disk.img before.img
ends 0 "put over a hidden system file" balladmoor put disk.img DAY001.LOG tare
balladmoor mode disk.img DAY001.LOG >"$made/out"
prints "26 hidden system archive"

echo "-- for programs"
# holds WHAT TEXT: what was printed is one object of JSON, equal to this one.
holds() {
  check ".. is $1" python3 -c 'import json, sys; sys.exit(json.load(sys.stdin) != json.loads(sys.argv[1]))' "$2" <"$made/out"
}
ends 0 "check --json" balladmoor check --json listed.img
holds "sound" '{"sound": true, "files": 2, "free": 309, "held": 4, "bad": 0, "reserved": 0}'
ends 0 "list --json" balladmoor list --json listed.img
tare_json='{"name": "TARE.KEY", "directory": false, "size": 40, "date": "1983-09-01", "time": "06:40:00",
  "read_only": true, "hidden": false, "system": false, "archive": true}'
day_json='{"name": "DAY001.LOG", "directory": false, "size": 1025, "date": "1983-09-01", "time": "18:05:58",
  "read_only": false, "hidden": false, "system": false, "archive": true}'
holds "all of it" "{\"sound\": true, \"label\": null, \"free\": 158208, \"bad\": 0, \"reserved\": 0,
  \"files\": [$tare_json, $day_json]}"
ends 0 "list --json of no files" balladmoor list --json 160.img
holds "an empty list" '{"sound": true, "label": null, "free": 160256, "bad": 0, "reserved": 0, "files": []}'

# A label, a name with signs that JSON marks, no date and no time.
cp listed.img other.img
poke other.img $((1536 + 32)) 'A"B\\\x1BC  '
poke other.img $((1536 + 32 + 22)) '\x00\xC0\x00\x00'
poke other.img $((1536 + 64)) 'OUR SCALE  \x08'
ends 0 "list --json of other makers' names" balladmoor list --json other.img
holds "valid" "{\"sound\": true, \"label\": \"OUR SCALE\", \"free\": 158208, \"bad\": 0, \"reserved\": 0,
  \"files\": [$tare_json,
  {\"name\": \"A\\\"B\\\\?C.LOG\", \"directory\": false, \"size\": 1025, \"date\": null, \"time\": null,
   \"read_only\": false, \"hidden\": false, \"system\": false, \"archive\": true}]}"

# broken_json FINDING OBJECT: check --json of broken.img prints this object, says nothing and ends with 4.
broken_json() {
  balladmoor check --json broken.img >"$made/out" 2>"$made/err"
  check "check --json of finding $1" [ $? -eq 4 ]
  check ".. says nothing" [ ! -s "$made/err" ]
  holds "finding $1" "$2"
}
cp listed.img broken.img
poke broken.img 512 '\xF9'
broken_json 1 '{"sound": false, "finding": 1, "place": 0, "names": [], "lost": 0}'
cp listed.img broken.img
poke broken.img $((1536 + 32 + 11)) '\x10'
broken_json 4 '{"sound": false, "finding": 4, "place": 1, "names": ["DAY001.LOG"], "lost": 0}'
ends 1 "list --json of a directory" balladmoor list --json broken.img
holds "marked" "{\"sound\": false, \"label\": null, \"free\": null, \"bad\": null, \"reserved\": null,
  \"files\": [$tare_json,
  {\"name\": \"DAY001.LOG\", \"directory\": true, \"size\": 1025, \"date\": \"1983-09-01\", \"time\": \"18:05:58\",
   \"read_only\": false, \"hidden\": false, \"system\": false, \"archive\": false}]}"
ends 1 "list of a directory" balladmoor list broken.img
prints "DAY001   LOG <DIR>     1983-09-01  18:05  ----"
ends 1 "list --names leaves it out" balladmoor list --names broken.img
check ".. and has the file" cmp "$made/out" <(echo TARE.KEY)
cp listed.img broken.img
poke broken.img $((1536 + 32 + 26)) '\x02\x00\x00\x02'
broken_json 6 '{"sound": false, "finding": 6, "place": 2, "names": ["TARE.KEY", "DAY001.LOG"], "lost": 3}'
ends 1 "check --json of what can't be read" balladmoor check --json none.img
check ".. prints nothing" [ ! -s "$made/out" ]
ends 1 "list --json of what is no disk" balladmoor list --json tare
check ".. prints nothing" [ ! -s "$made/out" ]
