#!/bin/sh
# Runs the built program on each trace of this room by `order`, which prints NAME.text; by the words that `cases` lists; and with copies in folders.
#
#     examples/runs/check.sh [PROGRAM]
#
# To add an example, add its two files; to add a run by other words, add a line to `cases`. The last line is `N passed, M failed`.
examples=$(cd "$(dirname "$0")/.." && pwd) || exit 1
. "$examples/common.sh"
cd "$examples/runs" || exit 1

traces_in_order
runs_of cases text run "$program"

# A made trace in drawn turns prints the same each time.
run closed told "$program" make 7 2000 4 4 8192
mv "$made/output" "$made/calls"
run "$made/calls" told "$program" turns 3
mv "$made/output" "$made/first"
run "$made/calls" told "$program" turns 3
compare made-in-turns-twice $? 0 '' "$made/first"

# The curve of 20,000 calls takes no minute: one look at the history does for all capacities.
run closed told "$program" make 7 20000 1 4 8192
mv "$made/output" "$made/calls"
run "$made/calls" told timeout 60 "$program" curve
compare made-curve $? 0 '' made-curve.text

count ./check-folders.sh
end_of_check
