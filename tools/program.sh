# What the scripts judge, why, page and translate share: they read recordings, and prove, build and run a program of this repository.
# A script that sources this has set root, the repository's folder, and name, the program's name, which starts its messages. It has a
# function usage that prints its help.

program=$root/crates/$name/out/$name
work=$(mktemp -d)
trap 'rm -rf "$work"' EXIT

say() { printf '%s: %s\n' "$name" "$*" >&2; }

# fail STATUS MESSAGE: says the message and ends the script.
fail() {
  say "$2"
  exit "$1"
}

# The reason that a command gave for its failure, from the message it left in the file said.
reason() { sed 's/.*: //' "$work/said"; }

# misuse MESSAGE: says the message and the usage, and ends the script.
misuse() {
  say "$1"
  usage >&2
  exit 2
}

# unwritten STATUS: a command that wrote to standard output failed; ends the script. Where it ended by SIGPIPE, as the reader left, so
# does the script, and says nothing.
unwritten() {
  [ "$1" -ne 141 ] || kill -PIPE $$
  fail 3 "standard output cannot be written: $(reason)"
}

# Prints the help that was asked for, and ends the script.
show_help() {
  usage 2>"$work/said" || unwritten $?
  exit
}

# no_option WORD: ends the script, as there are no options but those that it knows.
no_option() { misuse "there is no option $1; a file of this name is ./$1"; }

# must_be_readable FILE: ends with status 2 where FILE, or standard input for -, cannot be read.
must_be_readable() {
  local file=$1
  if [ "$file" = - ]; then
    file=/dev/stdin
    [ -e "$file" ] || fail 2 "-: standard input is closed"
  fi
  [ ! -d "$file" ] || fail 2 "$1: is a directory"
  [ -e "$file" ] || fail 2 "$1: no such file"
  [ -r "$file" ] || fail 2 "$1: cannot be read"
}

# take FILE COPY: copies FILE, or standard input for -, as far as the program reads, which is 1,413 bytes. So a read that fails is
# found here, before the program runs on any file.
take() {
  { if [ "$1" = - ]; then head -c 1413; else head -c 1413 <"$1"; fi; } >"$2" 2>"$work/said" || fail 2 "$1: cannot be read: $(reason)"
}

# plan LAST: how many crates of this repository the program stands on, with its own; on a second line how many of them are proved where LAST
# was the last to be, none where it is empty; and on a third those that come next: not proved, but all below them are. crates.txt lists the
# crates lowest first, and rt proves those of a program in that order.
plan() {
  awk -v program="$name" -v last="$1" '
    { sub(/#.*/, ""); split($0, parts, ":"); split(parts[1], words, " ") }
    words[1] != "" { order[++count] = words[1]; needs[words[1]] = parts[2] }
    END {
      wanted[program]
      for (i = count; i > 0; i--) if (order[i] in wanted) {
        total++
        split(needs[order[i]], below, " ")
        for (k in below) wanted[below[k]]
      }
      for (i = 1; i <= count && last != ""; i++) if (order[i] in wanted) {
        proved[order[i]]
        done++
        if (order[i] == last) break
      }
      for (i = 1; i <= count; i++) if (order[i] in wanted && !(order[i] in proved)) {
        open = 1
        split(needs[order[i]], below, " ")
        for (k in below) if (below[k] in needs && !(below[k] in proved)) open = 0
        if (open) next_ones = next_ones (next_ones == "" ? "" : ", ") order[i]
      }
      print total "\n" done + 0 "\n" next_ones
    }' "$root/crates.txt"
}

# progress < what rt prints: says of each crate when it is proved, in how many seconds, and which come next, and nothing of one that was
# proved before.
progress() {
  local line crate= total count next since=$SECONDS
  while IFS= read -r line; do
    case $line in
      "crate "*": modules "*) crate=${line#crate } crate=${crate%%:*} ;;
      "logic=proved "*)
        { read -r total; read -r count; read -r next; } < <(plan "$crate")
        say "proved $crate, $count of $total crates ($((SECONDS - since)) s)${next:+; next: $next}"
        since=$SECONDS
        : >"$work/proved"
        ;;
    esac
  done
}

# Proves and builds the program where something changed since it was built. rt runs it then, here on an empty input.
prove() {
  local total count next
  command -v rt >/dev/null || fail 1 "rt, the command of the Rattle kit, is missing, so the program cannot be proved"
  if [ ! -x "$program" ]; then
    { read -r total; read -r count; read -r next; } < <(plan "")
    say "proving and building the program on its first use, $total crates, which takes some minutes; first: $next"
  fi
  if ! (cd "$root/crates/$name" && rt run </dev/null) 2>&1 >/dev/null | tee "$work/log" | progress || [ ! -x "$program" ]; then
    tail -n 20 "$work/log" >&2
    fail 1 "the program is not proved and built; above is the end of what 'rt run' printed in crates/$name"
  fi
  [ ! -e "$work/proved" ] || say "ready"
}

# run_on COPY LEAST: the program on a copy of a file; its output, at least LEAST bytes, goes to the file out. It failed where its status
# says so, and where it wrote to standard error.
run_on() {
  local status=0
  "$program" <"$1" >"$work/out" 2>"$work/error" || status=$?
  cat "$work/error" >&2
  [ "$status" -eq 0 ] && [ ! -s "$work/error" ] && [ "$(wc -c <"$work/out")" -ge "$2" ]
}

# show FILE NUMBER: what the program printed of FILE, byte for byte; where the number of files is over 1, its name before it.
show() {
  if [ "$2" -gt 1 ]; then printf '%s:\n' "$1" || return; fi
  cat "$work/out"
}

# print_each LEAST WORD..: a script whose words are files alone: prints what the program says of each, at least LEAST bytes.
print_each() {
  local least=$1 file dashes=0 number=0
  shift
  case ${1-} in
    -h | --help) show_help ;;
    --) shift ;;
    -?*) no_option "$1" ;;
  esac
  [ $# -gt 0 ] || { usage >&2; exit 2; }
  for file in "$@"; do
    must_be_readable "$file"
    [ "$file" != - ] || dashes=$((dashes + 1))
  done
  [ "$dashes" -le 1 ] || fail 2 "- is standard input, which can be given once"
  for file in "$@"; do
    number=$((number + 1))
    take "$file" "$work/$number"
  done
  prove
  number=0
  for file in "$@"; do
    number=$((number + 1))
    run_on "$work/$number" "$least" || fail 1 "$file: the program failed"
    show "$file" $# 2>"$work/said" || unwritten $?
  done
}
