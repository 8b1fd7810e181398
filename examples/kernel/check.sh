#!/bin/sh
# Compiles the kernel of this room over the static library of `crates/superpager_c`, plain and with the sanitizers, and runs it with superpages and
# without: it prints kernel.text. Without a C library it asks for no other symbols than `symbols` lists.
#
#     examples/kernel/check.sh [PROGRAM]
#
# PROGRAM isn't run. Where there is no C compiler, or the library isn't built, nothing is tried: examples/embedding/check.sh builds it. The last line
# is `N passed, M failed`.
cd "$(dirname "$0")" || exit 1
library=../../crates/superpager_c/out/libsuperpager_c.a
compiler=${CC:-cc}
flags='-std=c11 -O2 -Wall -Wextra -Werror -D_POSIX_C_SOURCE=200809L'
passed=0
failed=0

# Tells the counts in the last line, and ends.
ends() {
    printf '%s passed, %s failed\n' "$passed" "$failed"
    [ "$failed" = 0 ]
    exit
}

if ! command -v "$compiler" >/dev/null; then
    printf 'kernel: skipped, since there is no C compiler\n'
    ends
fi
if [ ! -e "$library" ]; then
    printf 'kernel: skipped, since there is no %s\n' "${library#../../}"
    ends
fi
made=$(mktemp -d) || exit 1
trap 'rm -rf "$made"' EXIT
trap 'exit 1' HUP INT TERM

# Counts a command by its name. What it prints is told where it fails.
counts() {
    name=$1
    shift
    if "$@" >"$made/said" 2>&1; then
        passed=$((passed + 1))
    else
        failed=$((failed + 1))
        printf 'kernel: %s\n' "$name"
        cat "$made/said"
    fi
}

# It prints what stands here, first with superpages and then without.
prints() {
    "$compiler" $flags $more -o "$made/kernel" main.c kernel.c machine.c ../embedding/heap_buffer.c "$library" || return
    "$made/kernel" >"$made/text" && "$made/kernel" --base-pages >>"$made/text" && diff "$made/text" kernel.text
}

# What the kernel asks for beside the library and its memory.
asks() {
    "$compiler" $flags -ffreestanding -nostdlib -r -o "$made/kernel.o" kernel.c ../embedding/heap_buffer.c "$library" || return
    nm -u "$made/kernel.o" | sed -n 's/^ *U //p' | sort | diff - symbols
}

for more in '' '-O1 -g -fsanitize=address,undefined -fno-sanitize-recover=all'; do
    echo 'int main(void) { return 0; }' >"$made/empty.c"
    if "$compiler" $more -o "$made/empty" "$made/empty.c" >/dev/null 2>&1; then
        counts "prints $more" prints
    else
        printf 'kernel: %s: skipped, since the compiler has no sanitizers\n' "$more"
    fi
done
counts 'symbols' asks
ends
