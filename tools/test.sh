#!/usr/bin/env bash
# The test command: the toolchain's identity, the generated files and tables, the gate over all crates, then the static library, the host's tests and
# the comparison; ends in the verdict 'N passed, M failed'.
# Where a step fails, what each of them said stays in a folder below target/log.
set -u
cd "$(dirname "${BASH_SOURCE[0]}")/.." || exit 1
logs=target/log/$(date +%Y-%m-%d-%H%M%S)
passed=0
mkdir -p "$logs"

# failed STEP [COUNT]: ends with the verdict, so many of which failed.
failed() {
  echo "$1 failed: what it said is in $logs/$1, the steps before it are beside that"
  echo "$passed passed, ${2:-1} failed"
  exit 1
}

# step NAME COMMAND...: runs the command, and keeps what it says.
step() {
  local name=$1
  shift
  "$@" 2>&1 | tee "$logs/$name"
  return "${PIPESTATUS[0]}"
}

# The gate's own numbers go into the verdict; a gate that ends without them has failed. An edit that is bad shows nothing and fails here, but not in
# `rt ci`, which counts it in its line 'rt: ok'.
gate() {
  step gate rt ci
  local status=$? verdict not_passed well bad
  verdict=$(grep -oE '^[0-9]+ passed, [0-9]+ failed' "$logs/gate" | tail -n 1)
  read -r passed _ not_passed _ <<< "${verdict:-0 passed, 1 failed}"
  well=$(grep '^rt: ok' "$logs/gate" | tail -n 1)
  bad=$(grep -oE ', [0-9]+ bad' <<< "$well" | grep -oE '[0-9]+')
  [ "$status" -eq 0 ] && [ "$not_passed" -eq 0 ] && [ -n "$well" ] && [ "${bad:-0}" -eq 0 ] && return
  failed gate $((not_passed > 0 ? not_passed : ${bad:-0} > 0 ? bad : 1))
}

step kit tools/kit.sh || failed kit
step words python3 tools/gen_words.py --check || failed words
step meanings python3 tools/gen_meanings.py --check || failed meanings
step counts python3 tools/gen_counts.py --check || failed counts
step money python3 tools/gen_money.py --check || failed money
step reading_order python3 tools/reading_table.py --check || failed reading_order
step edit_table python3 tools/edit_table.py --check || failed edit_table
gate
step library tools/prove.sh library yokepear || failed library
step host host/test.sh || failed host
step comparison compare/run.sh || failed comparison
rm -rf "$logs"
echo "$passed passed, 0 failed"
