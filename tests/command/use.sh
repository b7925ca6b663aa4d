# Sourced by run: a disk formatted, filled and read.
# shellcheck shell=bash disable=SC2154

echo "-- usage"
ends 0 "--help" balladmoor --help
check ".. fits 24 lines" [ "$(wc -l <"$made/out")" -le 24 ]
check ".. of 80" [ "$(wc -L <"$made/out")" -le 80 ]
for words in "" "nothing" "format 160" "format 160 a b" "format 170 a.img" "format fe a.img" "check" "list a b c" \
  "free" "get a" "get a b c d" "put a b" "put a b c d" "show a" "delete a" "rename a b" "mode a" "mode a b 1 2" \
  "mode a b 021" "mode a b 2x" "--help list"; do
  # shellcheck disable=SC2086
  ends 2 "wrong usage: $words" balladmoor $words
done
check "wrong usage made no file" [ -z "$(ls)" ]

echo "-- blank disks"
# KIND, its other name, bytes, clusters, bytes of a cluster
while read -r size byte length clusters cluster; do
  ends 0 "format $size" balladmoor format "$size" "$size.img"
  check ".. its length" [ "$(stat -c %s "$size.img")" -eq "$length" ]
  check ".. its kind byte" [ "$(bytes "$size.img" 512 3)" = "${byte,,}ffff" ]
  ends 0 "free $size" balladmoor free "$size.img"
  prints "$((clusters * cluster)) bytes free: $clusters of $clusters clusters of $cluster bytes"
  ends 0 "check $size" balladmoor check "$size.img"
  prints "$size.img: sound; files 0; clusters free $clusters, held by files 0, bad 0, reserved 0"
  ends 0 "format $byte" balladmoor format "$byte" "$byte.img"
  check ".. is the same" cmp "$size.img" "$byte.img"
done <<'END'
160 FE 163840 313 512
180 FC 184320 351 512
320 FF 327680 315 1024
360 FD 368640 354 1024
END
ends 1 "format does not take a file that is there" balladmoor format 160 360.img
says "there already"
check ".. and leaves it" cmp 360.img FD.img

echo "-- the disk of document 01's listing"
head -c 40 /dev/urandom >tare
head -c 1025 /dev/urandom >day
cp 160.img disk.img
ends 0 "put the tare" at 1983-09-01 06:40:00 put disk.img tare.key tare
ends 0 "mark it read-only" balladmoor mode disk.img TARE.KEY 21
ends 0 "ask for its mode" balladmoor mode disk.img TARE.KEY
prints "21 read-only archive"
ends 0 "put the day, from standard input" at 1983-09-01 18:05:58 put disk.img DAY001.LOG - <day
check "the table begins as in document 01" [ "$(bytes disk.img 512 9)" = feffffff4f0005f0ff ]
check "the tare's stamp, start and size" [ "$(bytes disk.img $((1536 + 22)) 10)" = 00352107020028000000 ]
check "the day's stamp, start and size" [ "$(bytes disk.img $((1536 + 54)) 10)" = bd902107030001040000 ]
ends 0 "list" balladmoor list disk.img
prints "TARE     KEY        40 1983-09-01   6:40  R--A"
prints "DAY001   LOG      1025 1983-09-01  18:05  ---A"
prints "        2 files               1 065 bytes"
prints "                            158 208 bytes free"
ends 0 "check" balladmoor check disk.img
prints "disk.img: sound; files 2; clusters free 309, held by files 4, bad 0, reserved 0"
ends 0 "get to a file" balladmoor get disk.img tare.key tare.back
check ".. the bytes that were put" cmp tare tare.back
ends 0 "get under its own name" balladmoor get disk.img DAY001.LOG
check ".. the bytes that were put" cmp day DAY001.LOG
ends 1 "get does not take a file that is there" balladmoor get disk.img DAY001.LOG tare.back
check ".. and leaves it" cmp tare tare.back
ends 0 "get to standard output" balladmoor get disk.img DAY001.LOG -
check ".. the bytes that were put" cmp day "$made/out"
cp disk.img listed.img

echo "-- what is refused"
cp disk.img before.img
# the number, words of the sentence, and the command
while IFS='|' read -r number sentence words; do
  # shellcheck disable=SC2086
  ends 1 "$words" balladmoor $words
  says "$sentence"
  says "(refusal $number)"
done <<'END'
5|TARE.KEY: The file is read-only. If it may go,|delete disk.img TARE.KEY
5|TARE.KEY: The file is read-only. If it may have another name,|rename disk.img TARE.KEY T.KEY
5|TARE.KEY: A file of that name is read-only. If it may be replaced,|put disk.img TARE.KEY day
5|TARE.KEY: A file has that name already.|rename disk.img DAY001.LOG TARE.KEY
5|day001.log: A file has that name already.|rename disk.img DAY001.LOG day001.log
5|Only these bits may be set|mode disk.img DAY001.LOG 10
5|Only these bits may be set|mode disk.img DAY001.LOG 08
2|DAY002.LOG: No file of that name|delete disk.img DAY002.LOG
2|DAY002.LOG: No file of that name|get disk.img DAY002.LOG back
2|DAY002.LOG: No file of that name|show disk.img DAY002.LOG
2|DAY002.LOG: No file of that name|mode disk.img DAY002.LOG
2|DAY002.LOG: No file of that name|rename disk.img DAY002.LOG A
42|toolongname: A name has 1 to 8|put disk.img toolongname day
42|A.LONG: A name has 1 to 8|put disk.img A.LONG day
42|A*B: A name has 1 to 8|show disk.img A*B
42|A/B: A name has 1 to 8|rename disk.img DAY001.LOG A/B
42|A*B: A name has 1 to 8|rename disk.img A*B C
42|A*B: A name has 1 to 8|rename disk.img A*B A/B
END
check "nothing was changed" cmp disk.img before.img
check "nothing was made" [ ! -e back ]

echo "-- rename, show, delete"
printf 'Hives 7\n\001\377 end' >text
ends 0 "put" balladmoor put disk.img TEXT text
ends 0 "rename" balladmoor rename disk.img text note.txt
ends 0 "show" balladmoor show disk.img NOTE.TXT
prints "000000  48 69 76 65 73 20 37 0A 01 FF 20 65 6E 64        Hives 7... end"
ends 0 "put again, shorter" balladmoor put disk.img NOTE.TXT /dev/null
ends 0 "show nothing" balladmoor show disk.img NOTE.TXT
check ".. prints nothing" [ ! -s "$made/out" ]
ends 0 "delete" balladmoor delete disk.img NOTE.TXT
ends 0 "clear the tare's mark" balladmoor mode disk.img TARE.KEY 20
ends 0 "then it may be deleted" balladmoor delete disk.img TARE.KEY
ends 0 "list" balladmoor list disk.img
prints "        1 file                1 025 bytes"

echo "-- a full disk"
head -c 362497 /dev/urandom >long
head -c 362496 long >fits
cp 360.img full.img
ends 1 "one byte more than a 360 KB disk has room for" balladmoor put full.img LONG long
says "The disk is full: it has room for 362496 of 362497 bytes"
check ".. and nothing was changed" cmp full.img 360.img
ends 0 "as much as it has room for" balladmoor put full.img LONG fits
ends 0 "get it back" balladmoor get full.img LONG fits.back
check ".. whole" cmp fits fits.back
ends 0 "free" balladmoor free full.img
prints "0 bytes free: 0 of 354 clusters of 1024 bytes"
ends 1 "a second file" balladmoor put full.img MORE tare
says "room for 0 of 40 bytes"
cp 160.img slots.img
for n in $(seq 64); do balladmoor put slots.img "F$n" /dev/null || break; done
ends 1 "a 65th name on a disk of 64 slots" balladmoor put slots.img F65 tare
says "F65: The directory has no room for another name."
ends 0 "list" balladmoor list slots.img
prints "       64 files                   0 bytes"

echo "-- stamps"
while read -r status date time shown; do
  cp 160.img stamp.img
  ends "$status" "put on $date $time" at "$date" "$time" put stamp.img A tare
  if [ "$status" -eq 0 ]; then
    balladmoor list stamp.img >"$made/out"
    prints "A                   40 $date  $(printf %5s "$shown")  ---A"
  else
    says "(refusal 43)"
    check ".. and nothing was changed" cmp stamp.img 160.img
  fi
done <<'END'
0 1980-01-01 00:00:00 0:00
0 2099-12-31 23:59:59 23:59
1 1979-12-31 23:59:59
1 2100-01-01 00:00:00
END
export SOURCE_DATE_EPOCH=1983-09-01
ends 1 "a SOURCE_DATE_EPOCH that is no number" balladmoor put stamp.img A tare
unset SOURCE_DATE_EPOCH
says "SOURCE_DATE_EPOCH"
cp 160.img stamp.img
sooner=$(TZ=UTC-5 date +'%F  %k:%M')
TZ=UTC-5 balladmoor put stamp.img A tare
later=$(TZ=UTC-5 date +'%F  %k:%M')
check "the clock's time, five hours east" grep -q -e "^A .* $sooner " -e "^A .* $later " <(balladmoor list stamp.img)
