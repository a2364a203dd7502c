# What the tests of the fronts share: counts of checks. A test sets `folder`, a folder of its own, and may set `first`, with
# which the first check that fails is the last.
passed=0 failed=0 first=

# report NAME FAULT: passed, where there is no fault
report() {
  if [ -z "$2" ]; then
    passed=$((passed + 1))
    echo "$1: ok"
  else
    failed=$((failed + 1))
    echo "$1: FAILED: $2"
    if [ "$first" ]; then finish; fi
  fi
}

# check NAME COMMAND..: passed, where the command succeeds
check() {
  local name=$1
  shift
  if "$@" >"$folder/log" 2>&1; then report "$name" ""; else report "$name" "status $?: $(tail -n 12 "$folder/log")"; fi
}

# counted NAME COMMAND..: adds what a command counts in its last line, and shows the lines before it
counted() {
  "${@:2}" >"$folder/counted" 2>&1
  grep -v '^[0-9]* passed' "$folder/counted"
  local counts
  counts=$(tail -n 1 "$folder/counted")
  if [[ $counts =~ ^([0-9]+)\ passed,\ ([0-9]+)\ failed$ ]]; then
    passed=$((passed + BASH_REMATCH[1])) failed=$((failed + BASH_REMATCH[2]))
  else
    report "$1" "$counts"
  fi
}

# is_there COMMAND..: whether it can be run
is_there() {
  local second=${2:-}
  "$@" >/dev/null 2>&1 || { echo "not here, so not tried: $1 ${second%%--*}"; false; }
}

# block TITLE KIND: the first block of this kind below a title of README.md, which stands in the folder `top`
block() {
  awk -v title="## $1" -v fence="\`\`\`$2" '
    /^```$/ && inside { exit }
    inside { print }
    /^## / { below = ($0 == title) }
    below && $0 == fence { inside = 1 }' "$top/README.md"
}

finish() {
  echo "$passed passed, $failed failed"
  [ "$failed" -eq 0 ]
  exit
}
