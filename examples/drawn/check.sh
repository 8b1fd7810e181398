#!/bin/sh
# Makes drawn runs and some others beside tools/judge, the reference model, has it judge runs in threads, runs the longest trace, and says whether the drawn
# runs of run_tests walk each row of docs/steps.md.
#
#     examples/drawn/check.sh [PROGRAM]
#
# The last line is `N passed, M failed`.
examples=$(cd "$(dirname "$0")/.." && pwd) || exit 1
. "$examples/common.sh"
cd "$examples/drawn" || exit 1

# Makes a run by these words with its history, over so many slots where a number is given, and compares it with that of tools/judge. The text
# is long, and stands nowhere.
judge() {
    name=$1
    trace=$2
    slots=$3
    shift 3
    run "$trace" told ../../tools/judge "$@" --history ${slots:+--swap "$slots"} "$trace"
    mv "$made/output" "$made/judged"
    run "$trace" told "$program" ${slots:+--swap "$slots"} "$@" --history
    compare "$name" $? 0 '' "$made/judged"
}

# Runs the program beside the reference model on drawn traces, as docs/comparison.md says. What that prints is shown only where a run differs.
compare_drawn() {
    name=$1
    shift
    run /dev/null told ../../tools/judge compare "$@" --program "$program"
    status=$?
    if [ "$status" = 0 ]; then : >"$made/output"; fi
    : >"$made/message"
    compare "$name" "$status" 0 '' ''
}

compare_drawn drawn-with-ample-frames --seeds 1..20 --forms order,turns
compare_drawn drawn-with-few-frames --seeds 251..270 --forms order,turns
compare_drawn drawn-by-page-sizes --seeds 501..504 --sizes all
compare_drawn drawn-short-of-frames --seeds 1..3 --short
compare_drawn drawn-short-of-slots-in-threads --seeds 1..25 --short --forms replay --swap 4
compare_drawn drawn-with-pins --seeds 1..3,251..255 --forms order,turns --pins
compare_drawn drawn-with-pins-by-page-sizes --seeds 1..2 --sizes all --pins
compare_drawn drawn-with-pins-short-of-frames --seeds 1..2 --short --pins
compare_drawn drawn-with-pins-over-slots --seeds 251..252 --forms order,turns --swap 8 --pins
compare_drawn drawn-curves --seeds 1..3 --forms curve
compare_drawn drawn-curves-by-sizes --seeds 1..1 --forms curve --sizes 02,0123
compare_drawn drawn-plans --seeds 251..253 --forms plan1,plan2,plan3
compare_drawn drawn-streams --seeds 1..5,251..255 --forms stream
compare_drawn drawn-streams-with-pins --seeds 1..3,251..253 --forms stream --pins
compare_drawn drawn-streams-by-page-sizes --seeds 1..1 --forms stream --sizes all
compare_drawn drawn-streams-short-of-frames --seeds 1..3 --forms stream --short
compare_drawn drawn-streams-over-slots --seeds 251..254 --forms stream --swap 4
compare_drawn drawn-over-slots --seeds 251..254 --forms order,turns --swap 8

# With the examples these show every kind of entry but a failed read: where all frames are under wired pages; and beside a daemon, where few
# frames are left, and few slots too.
judge all-wired ../runs/wired.trace '' order
judge paged-out ../lesson/paged-out.trace '' order
judge daemon-at-the-end ../runs/daemon-at-the-end.trace '' order
judge one-to-spare-in-turns ../runs/one-to-spare-for-two.trace '' turns 3
../../tools/judge short 18 1 >"$made/short"
judge short-of-frames "$made/short" '' turns 18
judge short-of-slots "$made/short" 4 turns 18
../../tools/judge make 7 2000 4 4 8192 >"$made/calls"
judge made-in-turns "$made/calls" '' turns 3
../../tools/judge short --pins 4 1 >"$made/pins"
judge short-with-pins "$made/pins" '' turns 4
judge busy-in-turns ../runs/busy.trace '' turns 24

# In threads each run makes another history, so it is judged, and the laws after each of its entries.
echo legal >"$made/legal"
for trace in ../lesson/paged-out.trace ../runs/daemon.trace ../runs/sixteen-spaces.trace ../runs/busy.trace ../runs/one-to-spare-for-two.trace; do
    run "$trace" told "$program" replay --history
    mv "$made/output" "$made/history"
    run /dev/null told ../../tools/judge history replay --laws "$trace" "$made/history"
    compare "$trace in threads" $? 0 '' "$made/legal"
done
# In the last, wired pages and processors are fewer than the frames, so no access is refused for want of one.
run "$made/history" told grep noframes
compare none-short-in-threads $? 1 '' ''

# The longest trace over the most frames: loads, and as each 64th call a store, of four times as many pages as there are frames.
awk 'BEGIN {
    print "trace 1 32768 4 2\n0 map 0 0 65536 fixed write\n1 map 1 0 65536 fixed write"
    for (i = 2; i < 262144; i++) {
        address = i * 40503 % 65536 * 8192
        if (i % 64) print i % 4 " load " i % 2 " " address
        else print i % 4 " store " i % 2 " " address " 7"
    }
    print "end"
}' >"$made/longest"
run "$made/longest" told "$program" order
status=$?
{ wc -l <"$made/output"; tail -n 2 "$made/output"; } >"$made/ends"
mv "$made/ends" "$made/output"
printf '262151\nframes 0 0 32768\nend\n' >"$made/wanted"
compare longest "$status" 0 '' "$made/wanted"

# Streams of a million calls and more: their counts are reckoned as they are drawn.
for words in '--seed 1' '--seed 2 --sizes 03 --frames 32768' '--seed 3 --sizes 012 --frames 512 --calls 300000'; do
    ../../tools/long-trace $words --counts "$made/reckoned" >"$made/long"
    run "$made/long" told "$program" stream
    compare "long-trace $words" $? 0 '' "$made/reckoned"
done

# The drawn runs of run_tests walk each row of the table of steps.
run /dev/null told python3 ./walked_rows.py
compare walked-rows $? 0 '' walked-rows.text
end_of_check
