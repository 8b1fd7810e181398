#!/bin/sh
# Runs the tools where no program is built, by a link, where memory or the room for their output is short, and interrupted at once: each works, or ends
# with a message of its own and a status that isn't 0.
#
#     examples/tools/check-ends.sh [PROGRAM]
#
# The last line is `N passed, M failed`.
examples=$(cd "$(dirname "$0")/.." && pwd) || exit 1
. "$examples/common.sh"
cd "$examples/tools" || exit 1

# Where no program is built the reference model runs.
mkdir -p "$made/alone/examples/drawn"
cp -R ../../tools "$made/alone"
cp ../drawn/random_trace.py "$made/alone/examples/drawn"
build='`cd crates/superpager && rt run -- order <../../examples/lesson/preempted.trace`'
model='by the slow reference model (README.md says how to build the program, which the lesson does not need)'
run closed told "$made/alone/tools/compare" --sizes 0,01 --csv ../lesson/working-set.trace
compare compared-alone $? 0 "compare: $model" compared-alone.table
run closed told "$made/alone/tools/picture" ../lesson/demoted-by-store.trace
compare pictured-alone $? 0 "picture: $model" pictured.picture
run ../lesson/preempted.trace told "$made/alone/tools/judge" order
compare judged-alone $? 0 '' ../lesson/preempted.text

# A file that isn't there is told before that.
run closed told "$made/alone/tools/picture" none.trace
compare none-alone $? 1 "picture: none.trace can't be read: No such file or directory" ''
run closed told "$made/alone/tools/compare" none.trace
compare none-compared-alone $? 1 "compare: none.trace can't be read: No such file or directory" ''
run ../refused/refused.trace told "$made/alone/tools/judge" order
compare refused-alone $? 1 'judge: line 3: range; line 3, word 4: 7 is no multiple of 8, an address' ''

# It doesn't run a trace that takes it minutes.
{ echo 'trace 1 512 1 1'; yes '0 load 0 0' | head -n 20001; echo end; } >"$made/long"
run "$made/long" told "$made/alone/tools/picture" -
sed 1d "$made/message" >"$made/second"
mv "$made/second" "$made/message"
compare long-alone $? 0 "picture: - has 20001 calls, and the slow reference model runs at most 20000 here. Build the program: \
$build. (\`--program tools/judge\` runs it however long it takes)" ''

# By a link to it a tool finds what it is made of.
ln -s "$examples/../tools/judge" "$made/model"
ln -s model "$made/judge"
run ../lesson/preempted.trace told "$made/judge" order -
compare by-a-link $? 0 '' ../lesson/preempted.text

# Files have one block alone, so the system takes a part of what is printed; and Python writes it as it is.
cut() {
    name=$1
    shift
    (trap '' XFSZ && ulimit -f 1 && PYTHONUNBUFFERED=1 "$@" >"$made/output" 2>"$made/message" </dev/null)
    status_of_run=$?
    : >"$made/output"
    compare "$name-cut" "$status_of_run" 1 "$name: File too large" ''
}
cut picture ../../tools/picture --program "$program" ../lesson/demoted-by-store.trace
cut judge ../../tools/judge order ../lesson/working-set.trace
cut explain ../../tools/explain --strip ../lesson/working-set.trace
cut compare ../../tools/compare --program "$program" --frames 512,1024,1536,2048,2560,3072 ../lesson/working-set.trace
cut from-lackey ../../tools/from-lackey regions.lackey

# Where memory is short a tool says so in its own words, also while it is read.
for limit in 24000 30000 40000; do
    for words in 'explain ../runs/ls.trace' 'judge order ../runs/ls.trace' "compare --program $program ../runs/ls.trace"; do
        (ulimit -v "$limit" && ../../tools/$words >/dev/null 2>"$made/message" </dev/null)
        if grep -q Traceback "$made/message"; then told=1; else told=0; fi
        : >"$made/message"
        : >"$made/output"
        compare "${words%% *}-of-$limit" "$told" 0 '' ''
    done
done

# An interrupt ends a tool, however soon it comes. What it reads never comes.
mkfifo "$made/never"
exec 9<>"$made/never"
for after in 0.01 0.03 0.1 0.3; do
    timeout --preserve-status -s INT -k 20 "$after" ../../tools/from-lackey <&9 >/dev/null 2>&1
    status_of_run=$?
    : >"$made/message"
    : >"$made/output"
    compare "interrupted-after-$after" "$status_of_run" 130 '' ''
done
end_of_check
