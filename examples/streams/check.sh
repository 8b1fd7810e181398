#!/bin/sh
# Has the built program run the streams that `cases` lists, and the texts of ../refused/grammar and some others, beside tools/judge.
#
#     examples/streams/check.sh [PROGRAM]
#
# To add a stream, add a line to `cases`, and what it prints in NAME.text. The last line is `N passed, M failed`.
examples=$(cd "$(dirname "$0")/.." && pwd) || exit 1
. "$examples/common.sh"
cd "$examples/streams" || exit 1

runs_of cases text run "$program"

# By a stream the counts are those of `order`, which are its last lines.
for trace in ../lesson/*.trace ../runs/*.trace; do
    run "$trace" told "$program" order
    tail -n 7 "$made/output" >"$made/counts"
    run "$trace" told "$program" stream
    compare "$trace" $? 0 '' "$made/counts"
done

# Counts are out before the next line is there.
mkfifo "$made/fed" "$made/counted"
"$program" stream 1 <"$made/fed" >"$made/counted" &
exec 8>"$made/fed" 9<"$made/counted"
printf 'trace 1 512 1 1\n0 map 0 0 8 fixed read\n' >&8
read -r first <&9
printf '0 load 0 0\nend\n' >&8
exec 8>&-
{ printf '%s\n' "$first"; cat <&9; } >"$made/output"
exec 9<&-
: >"$made/message"
wait $!
compare at-once $? 0 '' each-call.text

# A stream has more calls than another trace may have.
{ printf 'trace 1 512 1 1\n0 map 0 0 8 fixed read\n'; yes '0 load 0 0' | head -n 262144; echo end; } >"$made/more"
run "$made/more" told "$program" stream 262145
compare more-calls $? 0 '' more-calls.text

# The curves of a stream begin as those that `curve` prints, where it takes the trace.
for trace in ../lesson/*.trace ../runs/*.trace; do
    "$program" curve <"$trace" 2>"$made/refused" | sed '$d' >"$made/curves"
    [ -s "$made/curves" ] || continue
    run "$trace" told "$program" stream curve
    status=$?
    head -n 1024 "$made/output" >"$made/first"
    mv "$made/first" "$made/output"
    compare "$trace" "$status" 0 '' "$made/curves"
done

# And they go on behind them: of 1,500 pages that are loaded one after another, and then once more, a TLB of fewer entries has none left.
{
    printf 'trace 2 2048 1 1 0\n0 map 0 0 1500 fixed read\n'
    for round in first second; do seq 0 8192 12279808 | sed 's/^/0 load 0 /'; done
    echo end
} >"$made/twice"
{ seq 1 1499 | sed 's/$/ 3000 3000/'; seq 1500 4096 | sed 's/$/ 1500 1500/'; echo end; } >"$made/fallen"
run "$made/twice" told "$program" stream curve
compare twice $? 0 '' "$made/fallen"

count ./check_streams.py
end_of_check
