# proving.sh: functions of the scripts that prove and build: what they need, how far a proof is, and how a folder is replaced.

# Ends a script on a machine without the kit.
need_kit() {
  command -v rt > /dev/null || { echo "The command rt is not on the path: this needs the Rattle kit." >&2; exit 3; }
}

# Ends a script on a machine without one of these, PROGRAM:PACKAGE each, once it has named all that are not there.
need_programs() {
  local word lacks=""
  for word in "$@"; do
    command -v "${word%:*}" > /dev/null || { echo "There is no ${word%:*}: install ${word##*:}." >&2; lacks=yes; }
  done
  [ -z "$lacks" ] || exit 3
}

# Ends a script in a checkout that it can not write into. The variable `top` is the folder of that.
need_writable() {
  { mkdir -p "$top/bin" && [ -w "$top/bin" ]; } 2> /dev/null && return
  echo "The folder $top can not be written to: call this in a copy of it that can." >&2
  exit 3
}

# About how many minutes it takes on this machine to prove from nothing what takes that many with four processors.
minutes_here() {
  local count
  count=$(nproc)
  [ "$count" -lt 4 ] || count=4
  echo $(($1 * 4 / count))
}

# Reads what rt prints, keeps it in a log, and says every 20 seconds, or as the third word has it, how far rt is: the crate, how
# many of its functions are checked, and how many minutes have passed. The second word is how many it takes from nothing.
show_progress() {
  local log=$1 minutes=$2 every=${3:-20} line part="" crate="" count=0 of="" shown="begun" said=-99 status
  while true; do
    IFS= read -r -t 5 line && status=0 || status=$?
    part+=$line
    if [ "$status" -eq 0 ]; then
      printf '%s\n' "$part" >> "$log"
      if [[ $part =~ ^(checked\ .*,|so far:)\ ([0-9]+)\ of\ ([0-9]+) ]]; then
        # another crate may begin without a line that says so, as with RT_JOBS
        [ "${BASH_REMATCH[3]}" = "$of" ] || count=0
        of=${BASH_REMATCH[3]}
        # rt has two counts, in lines of two kinds: the greater one is shown
        [ "${BASH_REMATCH[2]}" -le "$count" ] || count=${BASH_REMATCH[2]}
        shown="${crate:+$crate: }$count of $of functions checked"
      elif [[ $part =~ ^rt:\ .*waiting\ for ]]; then
        shown="waits for another run on this machine"
      elif [[ $part =~ ^rt:\ chose\ .*\ for\ ([a-z_]+)$ ]]; then
        crate=${BASH_REMATCH[1]} count=0 shown="${BASH_REMATCH[1]}: begun"
      fi
      part=""
    elif [ "$status" -le 128 ]; then
      return 0
    fi
    if [ $((SECONDS - said)) -ge "$every" ]; then
      echo "$shown; $((SECONDS / 60)) min, of about $minutes min from nothing" >&2
      said=$SECONDS
    fi
  done
}

# Puts a folder in the place of another, which goes only then. Both are on one disk.
replace_folder() {
  local old
  old=$(mktemp -d "$(dirname "$1")/old.XXXXXX")
  [ ! -e "$2" ] || mv "$2" "$old/"
  mv "$1" "$2"
  rm -rf "$old"
}
