# For the scripts of this folder: counts what passes and what fails, one line each.
passed=0
failed=0

# tell NAME VERDICT: the verdict is ok, or says what is wrong.
tell() {
  printf '%s: %s\n' "$1" "$2"
  if [[ $2 == ok ]]; then
    passed=$((passed + 1))
  else
    failed=$((failed + 1))
  fi
}

# The last line, in the form of `rt ci`, and the status.
finish() {
  printf '%s passed, %s failed\n' "$passed" "$failed"
  ((failed == 0))
}

# Adds up the counts of a log whose last line of this form has them. Where there is none, that is a failure.
add_counts() {
  local line more=0 wrong=1
  while IFS= read -r line; do
    if [[ $line =~ ^([0-9]+)\ passed,\ ([0-9]+)\ failed ]]; then
      more=${BASH_REMATCH[1]}
      wrong=${BASH_REMATCH[2]}
    fi
  done <"$1"
  passed=$((passed + more))
  failed=$((failed + wrong))
}
