#!/bin/sh
# Runs tools/policies, which needs Python, as `tables` lists it, and compares what it prints and says, and the status, with what stands here; and its
# simulator on random traces and on other examples.
#
#     examples/policies/check.sh [PROGRAM]
#
# The last line is `N passed, M failed`.
examples=$(cd "$(dirname "$0")/.." && pwd) || exit 1
. "$examples/common.sh"
cd "$examples/policies" || exit 1

runs_of tables table tool ../../tools/policies --program "$program"

# The page has a row for each policy, of each trace.
run closed told ../../tools/policies --program "$program" --html "$made/page" ../lesson/preempted.trace ../lesson/paged-out.trace
grep -c '^<tr><th>[A-Za-z]' "$made/page" >"$made/output"
echo 14 >"$made/rows"
compare page $? 0 '' "$made/rows"

count ./check_policies.py
end_of_check
