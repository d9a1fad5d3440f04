# words.sh: functions of the scripts: what they say of themselves, and of wrong words. A script that uses them has a function
# `usage`, whose first line is the line of the usage, and the variables `top` and `script`, its name.

# Ends a script that is only asked what it is.
answer_questions() {
  local word
  for word in "$@"; do
    case $word in
      -h | --help) usage; exit 0 ;;
      --version) echo "$script (Bogzhami) $(cat "$top/VERSION")"; exit 0 ;;
    esac
  done
}

# Ends a script whose words are wrong, and says what is wrong with them.
refuse_words() {
  local line
  line=$(usage)
  printf '%s: %s\n%s\n' "$script" "$1" "${line%%$'\n'*}" >&2
  exit 2
}

# Ends a script that takes no words and has got some.
take_no_words() {
  [ $# -eq 0 ] || refuse_words "there is no use for '$1'"
}

# Puts into the variable `jobs` the words by which rt proves as many functions at once as RT_JOBS says, if that is set. rt ci reads
# the variable itself. Ends a script if it is no number.
take_jobs() {
  jobs=()
  [ -n "${RT_JOBS:-}" ] || return 0
  [[ $RT_JOBS =~ ^[1-9][0-9]*$ ]] || refuse_words "RT_JOBS is no number of jobs: '$RT_JOBS'"
  jobs=(--jobs "$RT_JOBS")
}

# What that variable does, for the usage of the scripts that prove.
print_jobs() {
  echo "The variable RT_JOBS says how many functions are proved at once. Without it that depends on processors and memory."
}

# What the words of the program may be, for the usage of the scripts that run it.
print_commands() {
  cat << END
  scan ENC          lists all tokens, one a line
  scan ENC LIMIT    the same, with a key limit of 1 to 65536 bytes instead of 1024
  follow ENC        lists each token as soon as no more input can change it
  calls ENC WORD    lists the answers to calls; WORD is made of the letters s (scan), p (peek) and k (skip)
  decode ENC        says what text the input is
  --help            prints this
  --version         prints the version

ENC is any, utf8, utf16le or utf16be. docs/COMMANDS.md explains the lines. The exit status is 0; 1 if a line is a fault;
2 if the words are wrong; 3 if reading or writing fails, memory is refused or something that is needed is not there.
END
}

# Ends a script whose words the program would refuse. So that is said before the program is built.
check_command() {
  [ $# -gt 0 ] || refuse_words "a command is missing"
  case $1 in
    scan | follow | calls | decode) ;;
    *) refuse_words "there is no command '$1'$(hint_at_input "$1")" ;;
  esac
  [ $# -gt 1 ] || refuse_words "$1 needs an encoding"
  case $2 in
    any | utf8 | utf16le | utf16be) ;;
    *) refuse_words "there is no encoding '$2'$(hint_at_input "$2")" ;;
  esac
  check_last_words "$1" "${@:3}"
}

# Ends a script whose standard input is closed or a folder, which the program would refuse too.
check_input() {
  local why
  if [ ! -e /dev/fd/0 ]; then why="Bad file descriptor"; elif [ -d /dev/fd/0 ]; then why="Is a directory"; else return 0; fi
  echo "$script: standard input: $why" >&2
  exit 3
}

# Ends a script if what follows the encoding does not belong to this command.
check_last_words() {
  local most=1
  case $1 in
    follow | decode) most=0 ;;
    scan) [ $# -eq 1 ] || is_key_limit "$2" || refuse_words "there is no key limit '$2'$(hint_at_input "$2")" ;;
    calls)
      [ $# -gt 1 ] || refuse_words "calls needs a word of s, p and k"
      [[ $2 =~ ^[spk]*$ ]] || refuse_words "there is no list of calls '$2'"
      ;;
  esac
  [ $# -le $((most + 1)) ] || refuse_words "there is no use for '${*:$((most + 2)):1}'; the input is standard input"
}

# What is added to the message on a wrong word if a file has that name.
hint_at_input() {
  [ ! -e "$1" ] || echo "; the input is standard input"
}

is_key_limit() {
  [[ $1 =~ ^[1-9][0-9]{0,4}$ ]] && [ "$1" -le 65536 ]
}
