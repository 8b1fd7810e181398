#!/bin/sh
# Runs the built program on each trace of this room by `order`, and by the words that `cases` lists: it prints NAME.text.
#
#     examples/lesson/check.sh [PROGRAM]
#
# The last line is `N passed, M failed`.
examples=$(cd "$(dirname "$0")/.." && pwd) || exit 1
. "$examples/common.sh"
cd "$examples/lesson" || exit 1

traces_in_order
runs_of cases text run "$program"
end_of_check
