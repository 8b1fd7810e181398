#!/bin/sh
# Has the built program judge the histories of this room, as `cases` lists them, the texts of `grammar`, its own histories, and damaged ones.
#
#     examples/histories/check.sh [PROGRAM]
#
# To add a history, add its file, its verdict in NAME.text and a line to `cases`. The last line is `N passed, M failed`.
examples=$(cd "$(dirname "$0")/.." && pwd) || exit 1
. "$examples/common.sh"
cd "$examples/histories" || exit 1

runs_of cases text run "$program"

# No history is passed over.
for history in *.history; do
    run cases told grep -q "| *$history *|"
    compare "$history in cases" $? 0 '' ''
done

# The program says yes of its own histories. These stand in what it prints between the answers, one for each call, and the counts.
own() {
    trace=$1
    shift
    run "$trace" told "$program" "$@" --history
    answers=$(grep -c '^[0-9]' "$trace")
    { cat "$trace"; sed -e '/^tiles /,$d' "$made/output" | tail -n +$((answers + 1)); echo end; } >"$made/own"
    run "$made/own" told "$program" check
    compare "$trace by $*" $? 0 '' one-load.text
}
own ../lesson/paged-out.trace order
own ../lesson/paged-out.trace replay
own ../lesson/locked.trace turns 3
own ../runs/busy.trace turns 24
own ../runs/daemon.trace order
own ../runs/daemon.trace turns 3
own ../runs/daemon.trace replay
own ../runs/no-call.trace order
own ../runs/sixteen-spaces.trace replay
own ../runs/swap-full.trace --swap 2 order
own ../runs/slots-of-discarded.trace --swap 2 order
own ../runs/one-to-spare-for-two.trace turns 3

count ./check_histories.py

# Of damaged histories, and of lines damaged in a byte, it says what the reference model says.
run /dev/null told ../../tools/try-check --seeds 1..8 --bytes 300 --program "$program"
status=$?
if [ "$status" = 0 ]; then : >"$made/output"; fi
compare damaged "$status" 0 '' ''
end_of_check
