#!/bin/sh
# Runs tools/from-lackey, tools/compare and tools/explain, which need Python, as `conversions`, `comparisons` and `explanations` list it, and
# tools/lesson-sheet, and compares what they print and say, and the status, with what stands here. The built program runs on each trace of this room by
# `order`, which prints NAME.text.
#
#     examples/tools/check.sh [PROGRAM]
#
# The last line is `N passed, M failed`.
examples=$(cd "$(dirname "$0")/.." && pwd) || exit 1
. "$examples/common.sh"
cd "$examples/tools" || exit 1

# Runs a tool as `tool` does, on a text as printf writes it. All that is printed becomes one line of the message, with what the program
# says of the text where that differs, by `stream` where the tool is asked for a stream.
explain() {
    printf "$1" >"$made/text"
    shift
    case " $* " in
        *' --stream '*) form=stream ;;
        *) form=order ;;
    esac
    tool "$made/text" "$@"
    status_of_run=$?
    "$program" $form <"$made/text" 2>&1 >/dev/null | sed -e 's/^superpager: //' -e '/^see: /d' >"$made/told"
    if [ "$status_of_run" = 3 ] && ! head -n 1 "$made/output" | cmp -s - "$made/told"; then
        cat "$made/told" >>"$made/output"
    fi
    cat "$made/message" "$made/output" | paste -s -d ' ' - >"$made/line"
    mv "$made/line" "$made/message"
    : >"$made/output"
    return "$status_of_run"
}

traces_in_order

runs_of conversions trace tool ../../tools/from-lackey

# As many pages as these, each at the start of its 4 MiB, need more than a space.
awk 'BEGIN { for (i = 100000; i < 102100; i++) printf " L %d000000,1\n", i }' >"$made/scattered"
tool "$made/scattered" told ../../tools/from-lackey
compare scattered $? 1 'from-lackey: the 2100 touched pages have no room in a space of 1048576' scattered.trace

runs_of comparisons table tool ../../tools/compare --program "$program"

# All frames are under these pages. The first is used again, so that it stands in the image when it is paged out for a page of space 1.
awk 'BEGIN {
    print "trace 1 512 1 2\n0 map 0 0 512 fixed read\n0 map 1 0 1 fixed read"
    for (i = 0; i < 512; i++) print "0 load 0 " i * 8192
    print "0 load 0 0\n0 load 1 0\n0 load 0 0\nend"
}' >"$made/in-use"
tool "$made/in-use" told ../../tools/compare --program "$program" --csv /dev/stdin
compare compared-in-use $? 0 '' compared-in-use.table

runs_of pictures picture tool ../../tools/picture --program "$program"

# A name that is no UTF-8 stands in a page with escapes.
name=$made/$(printf '\377')
cp ../lesson/eight-pages.trace "$name"
tool closed told ../../tools/picture --program "$program" --html "$made/page" "$name"
grep -c '<title>.xff</title>' "$made/page" >"$made/output"
echo 1 >"$made/one"
compare pictured-by-bytes $? 0 '' "$made/one"

# Beside a trace that is written to a file stands what it was made of.
for name in written:from-lackey-folded part:from-lackey-stopped; do
    cat "$made/${name%:*}" "$made/${name%:*}.about" >"$made/output"
    cat "${name#*:}.trace" "${name#*:}.trace.about" >"$made/whole"
    : >"$made/message"
    compare "${name%:*}" $? 0 '' "$made/whole"
done

# Lines of another system end with a carriage return too.
sed 's/$/\r/' regions.lackey >"$made/returns"
tool "$made/returns" told ../../tools/from-lackey --calls 11
: >"$made/message"
compare with-returns $? 0 '' from-lackey-stopped.trace

runs_of explanations none explain ../../tools/explain

# A stream has more calls than another trace may have.
{ printf 'trace 1 512 1 1\n'; yes '0 load 0 0' | head -n 262145; echo end; } >"$made/more"
tool "$made/more" told ../../tools/explain -
compare too-many-calls $? 3 '' too-many-calls.explained

# The sheet of the lesson's exercises has each of them with its answer where these are asked for.
tool /dev/null told ../../tools/lesson-sheet --answers
status_of_sheet=$?
grep -o '^\*\*[A-Z][a-z]*\.\*\*\|^\*Answer\.\*' "$made/output" >"$made/text"
mv "$made/text" "$made/output"
compare lesson-sheet $status_of_sheet 0 '' lesson-sheet.answers

# As a page it has the same exercises, each with five lines for an answer where none are asked for.
tool /dev/null told ../../tools/lesson-sheet --html "$made/sheet"
status_of_sheet=$?
grep -c '<hr>' "$made/sheet" >"$made/output"
grep -c '^\*\*' lesson-sheet.answers | awk '{ print 5 * $1 }' >"$made/lines-of-room"
compare lesson-page $status_of_sheet 0 '' "$made/lines-of-room"

count ./check-ends.sh
end_of_check
