#!/bin/sh
# Runs the built program on words, texts, inputs and outputs that it must not take, as `cases` lists them, and on the texts of `grammar`.
#
#     examples/refused/check.sh [PROGRAM]
#
# To add a text that is refused, or just not, add a line to `grammar`. The last line is `N passed, M failed`.
examples=$(cd "$(dirname "$0")/.." && pwd) || exit 1
. "$examples/common.sh"
cd "$examples/refused" || exit 1
# A word that is no UTF-8, for `cases`.
not_utf_8=$(printf '\377')

runs_of cases text run "$program"

# No trace is passed over.
for trace in *.trace; do
    run cases told grep -q "| *$trace *|"
    compare "$trace in cases" $? 0 '' ''
done

# Behind the cause a line says what the words may be, or where more is told of a line of a trace.
"$program" ordr <refused.trace 2>&1 | cut -d ' ' -f 1-2 >"$made/output"
"$program" order <refused.trace 2>&1 | cut -d ' ' -f 1-2 >>"$made/output"
printf 'superpager: usage\nusage: superpager\nsuperpager: line\nsee: tools/explain\n' >"$made/lines"
: >"$made/message"
compare more-of-a-refusal 0 0 '' "$made/lines"

count ./check_grammar.py
end_of_check
