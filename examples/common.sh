# What the checks of the rooms share. A check sets `examples` to the path of this folder and reads this file, with its own first word: PROGRAM, which
# is crates/superpager/out/superpager where it isn't given. `rt ci` at the top leaves it there, built of what it proved. Where it isn't there no run is
# made. A check ends by `end_of_check`.

check=${0##*/}
case ${1-} in
    '') program=$(dirname "$examples")/crates/superpager/out/superpager ;;
    /*) program=$1 ;;
    *) program=$PWD/$1 ;;
esac
if [ ! -x "$program" ] || [ -d "$program" ]; then
    printf '%s: no program at %s. Build it: `cd crates/superpager && rt run -- order <../../examples/lesson/preempted.trace`\n' "$check" "$program" >&2
    printf '0 passed, 0 failed\n'
    exit 1
fi

made=$(mktemp -d) || exit 1
trap 'rm -rf "$made"' EXIT
trap 'exit 1' HUP TERM
trap 'echo "$check: interrupted" >&2; exit 130' INT
passed=0
failed=0

# Runs a command on an input and an output, and answers its status. What the program says behind the cause, its usage or where to see more, is left out.
run() {
    input=$1
    output=$2
    shift 2
    case $input,$output in
        closed,closed) "$@" <&- >&- ;;
        closed,full) "$@" <&- >/dev/full ;;
        closed,*) "$@" <&- ;;
        *,closed) "$@" <"$input" >&- ;;
        *,full) "$@" <"$input" >/dev/full ;;
        *) "$@" <"$input" ;;
    esac >"$made/output" 2>"$made/message"
    status_of_command=$?
    sed -i -e '/^usage: superpager /d' -e '/^see: /d' "$made/message"
    return "$status_of_command"
}

# Runs a tool as `run` does. Its message becomes one line, without that of its usage.
tool() {
    run "$@"
    status_of_run=$?
    line=$(sed '/^usage: /d' "$made/message" | paste -s -d ' ' -)
    if [ -n "$line" ]; then printf '%s\n' "$line"; fi >"$made/message"
    return "$status_of_run"
}

# Compares what a run of this name came to, its status among it, with what is expected, and counts it.
compare() {
    name=$1
    status=$2
    expected=$3
    said=$4
    text=$5
    [ -e "$text" ] || text=/dev/null
    if [ -n "$said" ]; then printf '%s\n' "$said"; fi >"$made/expected"
    wrong=
    [ "$status" = "$expected" ] || wrong="status $status in place of $expected; "
    cmp -s "$text" "$made/output" || wrong="${wrong}another output than $text; "
    cmp -s "$made/expected" "$made/message" || wrong="${wrong}another message than '$said'; "
    if [ -z "$wrong" ]; then
        passed=$((passed + 1))
    else
        failed=$((failed + 1))
        printf '%s: %s\n' "$name" "${wrong%; }"
        diff "$text" "$made/output"
        diff "$made/expected" "$made/message"
    fi
}

# Makes the runs of a table by `run` or another function: of this command, with the words of each line behind it. Their outputs are NAME.ENDING.
runs_of() {
    table=$1
    ending=$2
    how=$3
    shift 3
    sed -e '/^#/d' -e '/^$/d' -e 's/ *| */|/g' "$table" >"$made/lines"
    while IFS='|' read -r name words input output status message; do
        eval "$how \"\$input\" \"\$output\" \"\$@\" $words"
        compare "$name" $? "$status" "$message" "$name.$ending"
    done <"$made/lines"
}

# Runs each trace of the room by `order`: it is done, says nothing and prints NAME.text.
traces_in_order() {
    for trace in *.trace; do
        run "$trace" told "$program" order
        compare "${trace%.trace}" $? 0 '' "${trace%.trace}.text"
    done
}

# Counts with the others what a script tried on the program, which ends its output as `end_of_check` does. One more has failed where it didn't.
count() {
    "$1" "$program" >"$made/tried" 2>&1
    sed '$d' "$made/tried"
    read -r tried _ not_so _ <<END
$(tail -n 1 "$made/tried")
END
    passed=$((passed + ${tried:-0}))
    failed=$((failed + ${not_so:-1}))
}

# Tells how many runs passed and failed, in the last line, and answers 1 where one failed, or none was made.
end_of_check() {
    printf '%s passed, %s failed\n' "$passed" "$failed"
    [ "$failed" = 0 ] && [ "$passed" != 0 ]
}
