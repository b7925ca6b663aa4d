# Sourced by run: files by patterns. Which files a pattern finds is from document 02's words; each file holds its own name.
# shellcheck shell=bash disable=SC2154

# The files in the order of slots. The label, behind them, has a day file's name.
days=(TARE.KEY DAY001.LOG DAY002.LOG DAY1.LOG DAY.LOG DAYTIME.LOG HIDDEN.KEY SYSTEM.KEY BOTH.KEY NOTE)
mkdir in out here
for name in "${days[@]}"; do echo "$name" >"in/$name"; done
cp 160.img days.img
at 1983-09-01 18:05:58 put days.img . "${days[@]/#/in/}"
balladmoor mode days.img TARE.KEY +r
balladmoor mode days.img HIDDEN.KEY +h
balladmoor mode days.img SYSTEM.KEY +s
balladmoor mode days.img BOTH.KEY +hs
poke days.img $((1536 + 32 * 10)) 'DAY003  LOG\x08'
cp days.img before.img

# printed NAMES..: the last command printed these names, in this order, and nothing else.
printed() {
  check ".. prints $*" cmp "$made/out" <(printf '%s\n' "$@")
}

printed_nothing() {
  check ".. prints nothing" [ ! -s "$made/out" ]
}

nothing_copied() {
  check "nothing was copied" [ -z "$(find out here -type f)" ]
}

# finds PATTERN NAMES..: list by the pattern has these names.
finds() {
  ends 0 "list --names '$1'" balladmoor list --names days.img "$1"
  printed "${@:2}"
}

# from_here WORDS..: the command, in the folder here.
from_here() (
  cd here && balladmoor "$@"
)

echo "-- which files a pattern finds"
finds 'DAY???.LOG' DAY001.LOG DAY002.LOG DAY1.LOG DAY.LOG
finds '*.KEY' TARE.KEY HIDDEN.KEY SYSTEM.KEY BOTH.KEY
finds '*.*' "${days[@]}"
finds '????????.???' "${days[@]}"
finds '*' NOTE
finds '*.' NOTE
finds 'N???' NOTE
finds 'D*.LOG' DAY001.LOG DAY002.LOG DAY1.LOG DAY.LOG DAYTIME.LOG
finds 'day00?.l*' DAY001.LOG DAY002.LOG
finds '?A*.???' TARE.KEY DAY001.LOG DAY002.LOG DAY1.LOG DAY.LOG DAYTIME.LOG
finds 'DAYTIME*.LOG' DAYTIME.LOG
finds 'DAY1.LOG' DAY1.LOG
finds 'hidden.key' HIDDEN.KEY
ends 0 "a full directory" balladmoor list --names slots.img '*'
check ".. each file once, in the order of slots" cmp "$made/out" <(seq -f 'F%g' 64)
cp days.img fewer.img
balladmoor delete fewer.img DAY001.LOG
ends 0 "an erased slot is passed over" balladmoor list --names fewer.img 'DAY00?.LOG'
printed DAY002.LOG

echo "-- what list shows of them"
ends 0 "list 'DAY???.LOG'" balladmoor list days.img 'DAY???.LOG'
prints " Volume in days.img is DAY003  LOG"
prints "DAY001   LOG        11 1983-09-01  18:05  ---A"
prints "DAY1     LOG         9 1983-09-01  18:05  ---A"
prints "$(printf '%9d files%20d bytes' 4 $((11 + 11 + 9 + 8)))"
prints "                            155 136 bytes free"
check ".. and no other file" [ "$(wc -l <"$made/out")" -eq 8 ]
ends 0 "list BOTH.KEY" balladmoor list days.img BOTH.KEY
prints "BOTH     KEY         9 1983-09-01  18:05  -HSA"
prints "$(printf '%9d file %20d bytes' 1 9)"
ends 0 "list --json '*'" balladmoor list --json days.img '*'
holds "that file alone" '{"sound": true, "label": "DAY003  LOG", "free": 155136, "bad": 0, "reserved": 0,
  "files": [{"name": "NOTE", "directory": false, "size": 5, "date": "1983-09-01", "time": "18:05:58",
  "read_only": false, "hidden": false, "system": false, "archive": true}]}'
ends 0 "of an image from standard input" balladmoor list --names - 'N*' <days.img
printed NOTE

echo "-- a pattern that finds nothing"
for pattern in 'N??' 'DAY?' 'DAY003.LOG' 'TARE'; do
  ends 1 "list '$pattern'" balladmoor list days.img "$pattern"
  says "$pattern: No file on the disk matches this pattern."
  says "(refusal 18)"
  printed_nothing
done
for form in --names --json; do
  ends 1 "list $form '*.TXT'" balladmoor list $form days.img '*.TXT'
  says "(refusal 18)"
  printed_nothing
done
ends 1 "on a blank disk" balladmoor list 160.img '*.*'
says "(refusal 18)"
ends 1 "get '*.TXT'" balladmoor get days.img '*.TXT' out
says "*.TXT: No file on the disk matches this pattern."
says "(refusal 18)"
ends 1 "get of a name and '*.TXT'" balladmoor get days.img TARE.KEY '*.TXT' out
says "(refusal 18)"
ends 1 "get of '*.KEY' and a name of no file" balladmoor get days.img '*.KEY' NONE out
says "NONE: No file of that name"
nothing_copied

echo "-- bad patterns"
# Too many signs, the star being one of them; a star that is not the last of its part; no name; two dots; signs of no name.
for pattern in 'ABCDEFGH*' 'ABCDEFGHI' 'A.LOG*' '**' '*A' '*?' '*A.LOG' 'A.*G' '.LOG' '.*' '' 'A.B.C' '*.*.*' 'A/?*' 'A +*' \
  $'\x80*' $'D\xC3\x84Y*.LOG'; do
  ends 1 "list $(printf %q "$pattern")" balladmoor list days.img "$pattern"
  says ": A pattern has 1 to 8 "
  says "(refusal 42)"
  printed_nothing
  [[ $pattern == *[*?]* ]] || continue
  ends 1 "get $(printf %q "$pattern")" balladmoor get days.img "$pattern" out
  says ": A pattern has 1 to 8 "
  says "(refusal 42)"
done
ends 1 "list of no letters" balladmoor list --names days.img ""
says "(an empty pattern): "
ends 1 "get of a name that is none" balladmoor get days.img .LOG out
says ".LOG: A name has 1 to 8"
nothing_copied

echo "-- disks that are not sound"
cp days.img broken.img
for copy in 512 1024; do poke broken.img $((copy + 300)) '\xFF\x0F'; done
for words in "list" "list --names" "list --json" "get"; do
  # shellcheck disable=SC2086
  ends 1 "$words broken.img '*.KEY'" from_here $words ../broken.img '*.KEY'
  says "../broken.img: The disk is broken, and a pattern wants a sound one."
  says "Without a pattern list shows its files all the same"
  says "(refusal 41; finding 7 at cluster 200: "
  printed_nothing
done
balladmoor list --names broken.img >"$made/out" 2>"$made/err"
printed "${days[@]}"
ends 1 "list of what is no disk" balladmoor list day '*.*'
says "day: This is no whole image"
says "(refusal 40)"
ends 2 "get --rescue by a pattern" balladmoor get --rescue broken.img '*.KEY' out
says "*.KEY: A pattern wants a sound disk, and --rescue takes names alone. See them by list without a pattern"
ends 2 ".. beside a name" balladmoor get --rescue broken.img TARE.KEY 'DAY?.LOG' out
says "DAY?.LOG: A pattern wants a sound disk"
nothing_copied

# made_in FOLDER NAMES..: the folder has these files and no other, each with its bytes. Then it is emptied.
made_in() {
  check ".. makes ${*:2}" cmp <(cd "$1" && ls) <(printf '%s\n' "${@:2}" | sort)
  for name in "${@:2}"; do check ".. $name has its bytes" cmp "$1/$name" "in/$name"; done
  rm -f "$1"/*
}

# streams NAMES WORDS..: get of the words to standard output gives the bytes of these files, in this order.
streams() {
  ends 0 "get ${*:2} -" balladmoor get days.img "${@:2}" -
  # shellcheck disable=SC2086
  printed $1
}

echo "-- get copies each file that a pattern finds"
ends 0 "get 'DAY???.LOG'" from_here get ../days.img 'DAY???.LOG'
made_in here DAY001.LOG DAY002.LOG DAY1.LOG DAY.LOG
ends 0 "get '*.KEY' to a folder" balladmoor get days.img '*.KEY' out
made_in out TARE.KEY HIDDEN.KEY SYSTEM.KEY BOTH.KEY
ends 0 "get '*.*' to a folder" balladmoor get days.img '*.*' out/
made_in out "${days[@]}"
ends 0 "get of one file by a pattern, to a folder" balladmoor get days.img 'T*.*' out
made_in out TARE.KEY
ends 0 "get of two patterns that overlap" balladmoor get days.img 'DAY00?.LOG' 'DAY*.LOG' out
made_in out DAY001.LOG DAY002.LOG DAY1.LOG DAY.LOG DAYTIME.LOG
ends 0 "get of a full directory" balladmoor get slots.img '*' out
check ".. each file" cmp <(cd out && ls -v) <(seq -f 'F%g' 64)
rm out/*
streams "DAY001.LOG DAY002.LOG" 'DAY00?.LOG'
streams "DAY1.LOG DAY.LOG DAY001.LOG DAY002.LOG" 'DAY?.LOG' 'DAY???.LOG'
streams "TARE.KEY HIDDEN.KEY SYSTEM.KEY BOTH.KEY" tare.key '*.KEY'
streams "HIDDEN.KEY SYSTEM.KEY BOTH.KEY TARE.KEY" '*.KEY' tare.key
ends 0 "get --keep-dates 'DAY?.LOG'" balladmoor get --keep-dates days.img 'DAY?.LOG' out
for name in DAY.LOG DAY1.LOG; do
  check ".. $name has the date" [ "$(stat -c %Y "out/$name")" -eq "$(date -d "1983-09-01 18:05:58" +%s)" ]
done
made_in out DAY.LOG DAY1.LOG
ends 2 "get --keep-dates 'DAY?.LOG' -" balladmoor get --keep-dates days.img 'DAY?.LOG' -

echo "-- but over no file, and to no file"
echo mine >out/DAY002.LOG
cp out/DAY002.LOG here
ends 1 "get where the second is there already" balladmoor get days.img 'DAY???.LOG' out
says "out/DAY002.LOG: The file is there already"
ends 1 "get to here" from_here get ../days.img '*.*'
says "DAY002.LOG: The file is there already"
for folder in out here; do
  check ".. $folder has what it had" [ "$(cd $folder && grep -r '')" = DAY002.LOG:mine ]
  rm $folder/DAY002.LOG
done
ends 2 "get several to a file" balladmoor get days.img 'DAY*.LOG' out/new
says "out/new: This is no folder."
ends 2 "get one to a file" balladmoor get days.img 'T*.KEY' out/new
says "out/new: This is no folder. Several files, or those of a pattern in quotes, go to a folder that is there, "
ends 2 "get with the folder forgotten" from_here get ../days.img TARE.KEY '*.LOG'
says "*.LOG: This is no folder."
nothing_copied
ends 0 "but a path may have such signs" balladmoor get days.img TARE.KEY 'out/?'
check ".. the bytes" cmp in/TARE.KEY 'out/?'
rm 'out/?'

echo "-- names that no caller may give: they are found, and can't be copied"
# Some would lead out of the folder, some to another file. The name as it is stored, and as list spells it.
while IFS='|' read -r stored spelled; do
  cp days.img other.img
  mkdir out/X here/X
  poke other.img $((1536 + 32 * 9)) "$stored"
  ends 0 "a disk with $spelled is sound" balladmoor check other.img
  ends 0 ".. list" balladmoor list --names other.img '*.*'
  printed "${days[@]:0:9}" "$spelled"
  ls -R . >"$made/before"
  ends 1 ".. get to a folder" balladmoor get other.img '*.*' out
  says "$spelled: Another system gave a file this name"
  says "(refusal 42)"
  ends 1 ".. get to here" from_here get ../other.img '*.*'
  check ".. copies nothing" cmp "$made/before" <(ls -R .)
  rmdir out/X here/X
done <<'END'
X/A     KEY|X/A.KEY
X/../../UP |X/../../.UP
/A      KEY|/A.KEY
day001  log|day001.log
DAY.LOG    |DAY.LOG
A B        |A B
A*         |A*
A?         |A?
A\x80      B  |A?.B
       A   |       A
END
check "nothing was made outside" [ ! -e /A.KEY ]
ends 0 "a pattern that leaves it out" balladmoor get other.img 'DAY?.LOG' out
made_in out DAY.LOG DAY1.LOG
check "the image is as it was" cmp days.img before.img
rm -r in out here
