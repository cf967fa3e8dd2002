# Sourced by the `run` scripts: finds the program, judges many recordings, prints a table of the verdicts.
# The script has set `here`, its folder, and `runs`, the number of recordings for each line of the table.

top=$(cd "$here/../.." && pwd)
lftrace=${LFTRACE:-crates/lftrace/out/lftrace}
# In an archive it is the one on the PATH.
[ -n "${LFTRACE:-}" ] || [ -e "$top/$lftrace" ] || lftrace=$(command -v lftrace || echo "$lftrace")
found=$(cd "$top" && command -v "$lftrace") || { echo "run: there is no program $lftrace: LFTRACE may name one" >&2; exit 3; }
case $found in /*) lftrace=$found ;; *) lftrace=$top/$found ;; esac
case $runs in '' | 0* | *[!0-9]*) echo "run: $runs is no number of runs" >&2; exit 2 ;; esac

folder=$(mktemp -d) || exit 2
trap 'rm -rf "$folder"' EXIT
trap 'exit 2' HUP INT TERM
cd "$folder" || exit 2
failed=0

# fails WHY: the script goes on, and ends with status 1.
fails() {
  echo "run: $*" >&2
  failed=1
}

# needs COMMAND WHAT: ends the script if there is no such command, or it doesn't run, as a rustc without a toolchain.
needs() {
  "$1" --version > /dev/null 2>&1 || { echo "run: there is no $2 ($1)" >&2; exit 3; }
}

# needs_library HEADER FLAG CODE WHAT: ends the script if the C++ compiler can't build a program of this code.
needs_library() {
  printf '#include <%s>\n%b\n' "$1" "$3" > probe.cpp
  "$cxx" -std=c++17 -pthread probe.cpp -o probe "$2" 2> errors.txt || { echo "run: there is no $4" >&2; exit 3; }
}

# build FLAG SOURCE NAME [FILE EDIT]: builds ./NAME of the C++ sources of the folder. EDIT is a fault: sed makes it
# in FILE. False: it edits nothing, or can't be built.
build() {
  rm -rf source
  mkdir -p source recorder
  cp "$here/../recorder/lftrace.h" recorder
  cp "$here"/*.hpp "$here"/*.cpp source
  if [ $# -gt 3 ]; then
    sed -E "$5" "$here/$4" > "source/$4"
    if cmp -s "$here/$4" "source/$4"; then
      fails "$3 edits nothing"
      return 1
    fi
  fi
  "$cxx" -std=c++17 -O1 -Wall -Wextra -pthread "source/$2.cpp" -o "$3" "$1" 2> errors.txt && return
  cat errors.txt >&2
  fails "$3 can't be built"
  return 1
}

# limited WORDS..: runs a command, and ends it if it hangs: after 30 seconds, or as many as `patience` says.
limited() {
  timeout -k 2 "${patience:-30}" "$@"
  status=$?
  case $status in 124 | 137) echo "hangs: $*" ;; esac
  return $status
}

# judge PROGRAM EXTERNALS TRACE, pair PROGRAM EXTERNALS FIRST SECOND: prints the verdict. False: there is none.
judge() { verdict judge "$@"; }
pair() { verdict pair "$@"; }
verdict() {
  command=$1
  shift
  limited "$lftrace" "$command" --lower "$@" 2>&1
  [ $status -le 1 ]
}

# follow PROGRAM: prints what is told of a log of standard input while it comes.
follow() {
  told=$(limited "$lftrace" follow --lower "$1" 2>&1)
  case $?,$told in
    '0,accepted '* | '1,broken '* | '3,unbroken '* | '4,odd '*) echo "$told" ;;
    *) echo "follow: $told" ;;
  esac
}

# begin_table NAME
begin_table() {
  printf '| %-20s | runs | verdicts |\n|---|---|---|\n' "$1"
}

# line NAME HOW EXPECTED WORDS..: a line of the table. `once WORDS..` records a run and prints the verdict.
# EXPECTED is a pattern. HOW is `always` if each verdict must match it. It is `often` if the other verdicts must
# be `accepted` or `same`, and not all of 20 or more.
line() {
  name=$1 how=$2 expected=$3 made=0
  shift 3
  while [ "$made" -lt "$runs" ]; do
    once "$@" || { echo "no verdict"; break; }
    made=$((made + 1))
  done > verdicts.txt
  counts=$(sed -E -e 's/^(second )?broken rule=([0-9]+) ([a-z-]+) .*/\3 (rule \2)/' \
    -e 's/^(accepted|same|differ|unbroken|odd) .*/\1/' verdicts.txt | sort | uniq -c | sort -rn |
    awk '{ n = $1; $1 = ""; printf "%s%s%s", (NR > 1 ? ", " : ""), n, $0 }')
  printf '| %-20s | %4d | %s |\n' "$name" "$made" "$counts"
  found=$(grep -cE "$expected" verdicts.txt)
  other=$(grep -vE "^(accepted|same) |$expected" verdicts.txt | head -n 1)
  if [ -n "$other" ]; then fails "$name: $other"
  elif [ "$how" = always ] && [ "$found" -lt "$runs" ]; then fails "$name: only $found of $runs as expected"
  elif [ "$runs" -ge 20 ] && [ "$found" -eq 0 ]; then fails "$name: none of $runs as expected"
  fi
}
