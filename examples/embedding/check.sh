#!/bin/sh
# Builds the static library of `crates/superpager_c` by build.sh, compiles the C programs of this room over it, plain and with the sanitizers, and runs
# them: `example` prints example.text, `random` finds no answer that differs from its model's, `bare` gets along without a C library. The library asks
# for no other symbols than `symbols` lists.
#
#     examples/embedding/check.sh [PROGRAM [CALLS]]
#
# PROGRAM isn't run. CALLS is how many random calls are made, 200,000 where it isn't given. Where there is no C compiler, or no library can be had,
# nothing is tried. The last line is `N passed, M failed`.
cd "$(dirname "$0")" || exit 1
calls=${2:-200000}
crate=../../crates/superpager_c
library=$crate/out/libsuperpager_c.a
compiler=${CC:-cc}
flags='-std=c11 -O2 -Wall -Wextra -Werror -D_POSIX_C_SOURCE=200809L'
sanitizers='-O1 -g -fsanitize=address,undefined -fno-sanitize-recover=all'
passed=0
failed=0

# Tells the counts in the last line, and ends.
ends() {
    printf '%s passed, %s failed\n' "$passed" "$failed"
    [ "$failed" = 0 ]
    exit
}

if ! command -v "$compiler" >/dev/null; then
    printf 'embedding: skipped, since there is no C compiler\n'
    ends
fi
made=$(mktemp -d) || exit 1
trap 'rm -rf "$made"' EXIT
trap 'exit 1' HUP INT TERM
if ! command -v rt >/dev/null || ! ./build.sh >"$made/said" 2>&1; then
    tail -n 1 "$made/said" 2>/dev/null
    if [ ! -e "$library" ]; then
        printf 'embedding: skipped, since there is no %s\n' "${library##*/}"
        ends
    fi
fi

# Counts a command by its name. What it prints is told where it fails.
counts() {
    name=$1
    shift
    if "$@" >"$made/said" 2>&1; then
        passed=$((passed + 1))
    else
        failed=$((failed + 1))
        printf 'embedding: %s\n' "$name"
        cat "$made/said"
    fi
}

# Compiles a program out of these files, over the library.
compiles() {
    "$compiler" $flags $more -o "$made/${1%.c}" "$@" "$library"
}

# The example prints what stands here.
prints() {
    compiles example.c heap.c && "$made/example" >"$made/text" && cmp "$made/text" example.text
}

# Random calls are answered as the model answers them, with a memory that runs out now and then.
answers() {
    "$compiler" $flags $more -Dmalloc=scarce_malloc -c -o "$made/heap.o" heap.c && compiles random.c "$made/heap.o" && "$made/random" "$calls" 1
}

# The times are told, whatever they are.
is_timed() {
    compiles bench.c heap.c && "$made/bench" 1000 && compiles bench_calls.c heap.c && "$made/bench_calls" 100
}

# There is no C library.
is_bare() {
    more='-ffreestanding -nostdlib -static'
    compiles bare.c heap_buffer.c && "$made/bare"
}

# The symbols that the library doesn't have.
asks() {
    nm -u "$library" | sed -n 's/^ *U //p' | sort | cmp - symbols
}

counts 'symbols' asks
for more in '' "$sanitizers"; do
    echo 'int main(void) { return 0; }' >"$made/empty.c"
    if ! "$compiler" $more -o "$made/empty" "$made/empty.c" >/dev/null 2>&1; then
        printf 'embedding: %s: skipped, since the compiler has no sanitizers\n' "$more"
        continue
    fi
    counts "example $more" prints
    counts "random $more" answers
    counts "bench $more" is_timed
done
case $(uname -sm) in
    'Linux x86_64') counts 'bare' is_bare ;;
esac
ends
