# Sourced by run: a weighing that is stored is never called not stored, never stored twice, and is a line of its own.
# shellcheck shell=bash disable=SC2154

# once TIME GRAMS: the last weighing is on the disk, and given again it is not stored again.
once() {
  local file=19830904.LOG
  check ".. it is stored" [ "$(balladmoor get hive.img $file - | tail -n 1)" = "$1 $2" ]
  cp hive.img before.img
  ends 1 ".. given again, it is not stored again" scale hive.img 1983-09-04 "$1" "$2"
  says "$file: Its last line is $1 $2 already, so nothing was stored."
  check ".. and shows no weight" [ ! -s "$made/out" ]
  same
}

# tells WORDS: the last command has these words on standard error, which has other lines too.
tells() {
  check ".. says: $1" grep -qF -e "$1" "$made/err"
}

to_full() {
  scale "$@" >/dev/full
}

to_nobody() {
  scale "$@" >&-
}

to_nobody_at_all() {
  scale "$@" <&- >&- 2>&-
}

# The reader at the other end of the pipe has gone.
to_a_gone_reader() {
  local pipe
  exec {pipe}> >(:)
  wait $!
  scale "$@" >&"$pipe"
  local status=$?
  exec {pipe}>&-
  return $status
}

echo "-- stored, but not certain"
ends 3 "standard output is full" to_full hive.img 1983-09-04 07:00:00 50000
says "19830904.LOG: The weighings are stored, but could not be shown."
once 07:00:00 50000
ends 3 "standard output is closed" to_nobody hive.img 1983-09-04 07:00:01 50000
says "are stored, but could not be shown."
once 07:00:01 50000
to_nobody_at_all hive.img 1983-09-04 07:00:01 50001
check "standard input and error too" [ $? -eq 3 ]
once 07:00:01 50001
ends 3 "whoever was to read the weights has gone" to_a_gone_reader hive.img 1983-09-04 07:00:02 50000
says "are stored, but could not be shown."
once 07:00:02 50000
ends 3 "the folder can't be flushed" unflushed hive.img 1983-09-04 07:00:03 50000
tells "19830904.LOG: The weighings are stored, but a cut of power may still undo that."
prints "07:00:03 50000 g, net $((50000 - 12500)) g"
once 07:00:03 50000

echo "-- the same weighing twice"
ends 0 "the same weight a second later" scale hive.img 1983-09-04 07:00:04 50000
ends 0 "another weight in the same second" scale hive.img 1983-09-04 07:00:04 5000
ends 0 "another one, whose digits end the last line" scale hive.img 1983-09-04 07:00:04 0
ends 0 "the same on another day" scale hive.img 1983-09-05 07:00:04 0
ends 0 "three at a time, two of them alike" scale hive.img 1983-09-05 07:00:05 50000 50000 50001
cp hive.img before.img
ends 1 "the three again" scale hive.img 1983-09-05 07:00:05 50000 50000 50001
says "19830905.LOG: Its last line is 07:00:05 50001 already, so nothing was stored."
same
ends 1 "the last of them with another" scale hive.img 1983-09-05 07:00:05 50001 50002
same
ends 1 "the last of them with zeros before it" scale hive.img 1983-09-05 07:00:05 0050001
same
printf 'checked at 07:00:06 50000\n' >note
balladmoor put hive.img 19830905.LOG note
ends 0 "a line that ends with the weighing is another" scale hive.img 1983-09-05 07:00:06 50000
day 19830905.LOG "checked at 07:00:06 50000" "07:00:06 50000"
printf '07:00:07 50000' >unended
balladmoor put hive.img 19830905.LOG unended
cp hive.img before.img
ends 1 "a last line without its newline, again" scale hive.img 1983-09-05 07:00:07 50000
same
ends 0 "after a line without its newline a new one begins" scale hive.img 1983-09-05 07:00:07 5000
day 19830905.LOG "07:00:07 50000" "07:00:07 5000"
printf '\n' >empty_line
balladmoor put hive.img 19830905.LOG empty_line
ends 0 "a file that is one newline" scale hive.img 1983-09-05 07:00:07 5000
day 19830905.LOG "" "07:00:07 5000"
for file in 19830904.LOG 19830905.LOG; do balladmoor delete hive.img $file; done
