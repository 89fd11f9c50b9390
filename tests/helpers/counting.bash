# Counts what passed and what failed, for the suites in bash; `./check` adds the counts of their last lines.
# shellcheck shell=bash
passed=0
failed=0
# pass
pass() {
  passed=$((passed + 1))
}
# fail TEXT..: counts a failure, and prints what it was.
fail() {
  failed=$((failed + 1))
  echo "FAILED $*"
}
# Prints the last line; its status is the script's.
end_counts() {
  echo "$passed passed, $failed failed"
  [ "$failed" = 0 ]
}
