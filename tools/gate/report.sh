# What the scripts of this folder share that are lines of shell: counts of checks.
good=0 bad=0

# report NAME WANTED FOUND: a check
report() {
  if [ "$2" = "$3" ]; then
    good=$((good + 1))
    echo "$1: ok"
  else
    bad=$((bad + 1))
    echo "$1: FAILED: wanted '$2', found '$3'"
  fi
}

finish() {
  echo "$good passed, $bad failed"
  [ "$bad" -eq 0 ]
}
