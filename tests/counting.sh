# What the tests written in bash share, sourced by them: cases are counted, and a test that ran other than the cases it meant to fails.
passed=0 failed=0

# count PASSED FAILED: so many cases more.
count() { passed=$((passed + $1)) failed=$((failed + $2)); }

# wrong TEXT: a failure that is no case of its own, as a program that ended badly; the test fails by it.
amiss=0
wrong() {
  echo "$1"
  amiss=$((amiss + 1))
}

# stop TEXT: the test cannot go on.
stop() {
  echo "$1"
  echo "0 passed, 1 failed"
  exit 1
}

# lines FILE NUMBER COMMAND..: the command's output goes to the file; it must succeed and write so many lines.
lines() {
  local file=$1 number=$2 got
  shift 2
  "$@" >"$file" || wrong "$* ended with status $?"
  got=$(wc -l <"$file")
  [ "$got" -eq "$number" ] || wrong "$* wrote $got lines, not $number"
}

# a_number NAME VALUE: stops unless the value is a whole number above 0.
a_number() {
  [[ $2 =~ ^[1-9][0-9]*$ ]] || stop "$1=$2 is no number of files above 0"
}

# closing MEANT: the test's closing line and status; a failure more where it ran other than the cases it meant to.
closing() {
  [ $((passed + failed)) -eq "$1" ] || wrong "ran $((passed + failed)) cases, not $1"
  echo "$passed passed, $((failed + amiss)) failed"
  [ $((failed + amiss)) -eq 0 ]
}

# differing ONE TWO: how many lines of two lists differ, as text: awk takes a file in digits alone for a number, and rounds it.
# They are joined by a byte that no answer has.
differing() { paste -d $'\x01' "$1" "$2" | awk -F $'\x01' '($1 "") != ($2 "") { n++ } END { print n + 0 }'; }

# same NAME EXPECTED GOT: compares two lists of answers line by line; each line is a case.
same() {
  local number different
  number=$(wc -l <"$2")
  different=$(differing "$2" "$3")
  [ "$different" -le "$number" ] || different=$number
  count $((number - different)) "$different"
  echo "$1: $number files, $different different"
  [ "$different" -eq 0 ] || diff "$2" "$3" | head -n 10
}

# checked COMMAND NAME FILES GOT: a command of the oracle checks printed lines, whose rings are free, file by file; each file is a case.
checked() {
  local number different report
  number=$(wc -l <"$3")
  report=$(paste "$3" "$4" | target/oracle/release/oracle "$1")
  different=$(tail -n 1 <<<"$report" | sed -n "s/^$number compared, \([0-9]*\) different\$/\1/p")
  if [ -z "$different" ]; then
    wrong "$2: the oracle compared other than $number files"
    return
  fi
  count $((number - different)) "$different"
  echo "$2: $number files, $different different"
  [ "$different" -eq 0 ] || head -n 10 <<<"$report"
}

# judged NAME FILES GOT: the judge's lines.
judged() { checked check "$@"; }

# explained NAME FILES GOT: what why prints.
explained() { checked check-why "$@"; }
