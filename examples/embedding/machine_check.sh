#!/bin/sh
# Builds the static library of `crates/superpager_machine` by build.sh, compiles the machine's C programs over it, plain and with the sanitizers, and runs them:
# machine_example.c prints of machine.trace, and of the traces of `../lesson` and `../runs`, what `superpager order` prints of each, and what must be
# refused is. The library asks for no other symbols than `machine_symbols` lists.
#
#     examples/embedding/machine_check.sh [PROGRAM]
#
# PROGRAM isn't run: what it prints stands beside the traces. Where there is no C compiler nothing is tried. The last line is `N passed, M failed`.
cd "$(dirname "$0")" || exit 1
crate=../../crates/superpager_machine
library=$crate/out/libsuperpager_machine.a
compiler=${CC:-cc}
flags='-std=c11 -O2 -Wall -Wextra -Werror -D_POSIX_C_SOURCE=200809L'
sanitizers='-O1 -g -fsanitize=address,undefined -fno-sanitize-recover=all'
passed=0
failed=0

# Tells the counts in the last line, and ends.
ends() {
    printf '%s passed, %s failed\n' "$passed" "$failed"
    [ "$failed" = 0 ]
    exit
}

if ! command -v "$compiler" >/dev/null; then
    printf 'embedding: skipped, since there is no C compiler\n'
    ends
fi
made=$(mktemp -d) || exit 1
trap 'rm -rf "$made"' EXIT
trap 'exit 1' HUP INT TERM

# Counts a command by its name. What it prints is told where it fails.
counts() {
    name=$1
    shift
    if "$@" >"$made/said" 2>&1; then
        passed=$((passed + 1))
    else
        failed=$((failed + 1))
        printf 'embedding: %s\n' "$name"
        cat "$made/said"
    fi
}

# The symbols that the library doesn't have.
asks() {
    nm -u "$library" | sed -n 's/^ *U //p' | sort | cmp - machine_symbols
}

# Compiles a program over the library.
compiles() {
    "$compiler" $flags $more -o "$made/${1%.c}" "$1" heap.c "$library"
}

# What must be refused is.
refuses() {
    compiles machine_refusals.c && "$made/machine_refusals"
}

# It prints of a trace what stands beside it.
prints() {
    "$made/machine_example" <"$1" >"$made/text" && cmp "$made/text" "${1%.trace}.text"
}

if ! command -v rt >/dev/null || ! ./build.sh superpager_machine >"$made/said" 2>&1; then
    [ ! -e "$made/said" ] || tail -n 3 "$made/said"
    if [ ! -e "$library" ]; then
        printf 'embedding: skipped, since the library of the whole pager is not built\n'
        ends
    fi
fi
counts 'symbols' asks
for more in '' "$sanitizers"; do
    echo 'int main(void) { return 0; }' >"$made/empty.c"
    if ! "$compiler" $more -o "$made/empty" "$made/empty.c" >/dev/null 2>&1; then
        printf 'embedding: %s: skipped, since the compiler has no sanitizers\n' "$more"
        continue
    fi
    counts "machine_example.c $more" compiles machine_example.c
    counts "machine_refusals.c $more" refuses
    for trace in machine.trace ../lesson/*.trace ../runs/*.trace; do
        if [ -e "${trace%.trace}.text" ] && ! grep -q '^daemon' "$trace"; then
            counts "$trace $more" prints "$trace"
        fi
    done
done
ends
