# Sourced by run: the completion for bash.
# shellcheck shell=bash disable=SC2154

echo "-- completion"
# completes WORDS WANTED..: with these words typed, the last of them begun, bash offers what is wanted, in any order.
completes() {
  local wanted
  wanted=$(printf '%s\n' "${@:2}" | sort)
  same "'$1' is completed" "$wanted" "$(offered "$1")"
}

# offered WORDS: what the completion offers. It runs as bash runs it, in the folder with the images.
offered() (
  # shellcheck disable=SC1091
  . "$root/completion/balladmoor"
  cd "$made/desk" || exit 1
  read -ra COMP_WORDS <<<"$1"
  [[ $1 != *' ' ]] || COMP_WORDS+=("")
  COMP_CWORD=$((${#COMP_WORDS[@]} - 1))
  "$(complete -p balladmoor | sed 's/.*-F \([^ ]*\) .*/\1/')" "${COMP_WORDS[0]}"
  printf '%s\n' "${COMPREPLY[@]}" | sort
)

# The command as far as the completion uses it.
balladmoor() {
  [ "$*" = "list --names hive.img" ] && printf '%s\n' TARE.KEY 19830901.LOG 19830902.LOG
}

mkdir "$made/desk"
touch "$made/desk/hive.img" "$made/desk/tare.txt"
mkdir "$made/desk/hours"

completes "balladmoor f" format free
completes "balladmoor --" --help --version
completes "balladmoor help de" delete
completes "balladmoor format F" FE FF FC FD
completes "balladmoor format 160 h" hive.img hours
completes "balladmoor check " hive.img hours tare.txt
completes "balladmoor check --" --json
completes "balladmoor list --" --names --json
completes "balladmoor list --names hi" hive.img
completes "balladmoor list hive.img TA" TARE.KEY
completes "balladmoor list --json hive.img 1983" 19830901.LOG 19830902.LOG
completes "balladmoor list hive.img TARE.KEY " ""
completes "balladmoor map hi" hive.img
completes "balladmoor get --" --keep-dates --rescue
completes "balladmoor get --rescue hive.img TA" TARE.KEY
completes "balladmoor put --" --keep-dates
completes "balladmoor get hive.img " TARE.KEY 19830901.LOG 19830902.LOG
completes "balladmoor get --keep-dates hive.img 1983" 19830901.LOG 19830902.LOG
completes "balladmoor get hive.img TARE.KEY ta" TARE.KEY tare.txt
completes "balladmoor put hive.img ta" TARE.KEY
completes "balladmoor put hive.img TARE.KEY t" tare.txt
completes "balladmoor put --keep-dates hive.img . hive.img ta" tare.txt
completes "balladmoor rename hive.img 19830901.LOG " ""
completes "balladmoor mode hive.img TARE.KEY +" +r +h +s +a
completes "balladmoor mode hive.img TARE.KEY +r -" -r -h -s -a
completes "balladmoor show missing.img " ""
completes "balladmoor nothing hive.img " ""
