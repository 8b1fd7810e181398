#!/bin/sh
# Makes crates/CRATE/out/libCRATE.a of the libraries that `rt ci` proved and left in crates/*/out: the crate is proved, and compiled over those, in a
# minute or two. Nothing is done where no source is newer. Without those libraries take `rt lib`, in the crate's folder, which proves them.
#
#     examples/embedding/build.sh [CRATE]
#
# CRATE is superpager_c where it isn't given.
crate=${1:-superpager_c}
cd "$(dirname "$0")/../../crates/$crate" || exit 1
built=out/lib$crate.a

# The crates behind the colons of these crates' lines.
named() {
    for name in "$@"; do
        sed -n "s/^$name\( [a-z_]*\)*: *//p" ../../crates.txt
    done
}

# The crate, and all those below it.
crates=$crate
while wider=$(printf '%s\n' $crates $(named $crates) | sort -u) && [ "$wider" != "$(printf '%s\n' $crates | sort -u)" ]; do
    crates=$wider
done

newer=yes
set --
for name in $crates; do
    [ -d "../$name/src" ] || continue
    set -- "$@" "../$name/src" "../$name/specs" "../$name/proofs"
done
[ -e "$built" ] && newer=$(find "$@" -newer "$built" -type f 2>/dev/null | head -n 1)
[ -n "$newer" ] || exit 0

kit=$(dirname "$(rt doc)") || exit 1
set -- --extern "std=$kit/rlibs/std.rlib"
for name in $crates; do
    [ "$name" != "$crate" ] || continue
    rlib=$(dirname "$PWD")/$name/out/rlib/$name.rlib
    [ -d "../$name/src" ] || rlib=$kit/rlibs/$name.rlib
    if [ ! -e "$rlib/format" ]; then
        printf 'build.sh: %s is not there: run `rt ci` at the top, or `rt lib` in crates/%s\n' "$rlib" "$crate"
        exit 1
    fi
    set -- "$@" --extern "$name=$rlib"
done
mkdir -p out
exec "$kit/bin/rattle" build --crate-name "$crate" src/lib.rt "$@" -L "dependency=$kit/rlibs" --crate-type staticlib \
    --antt-project "$kit/rattle/logic/antt-project.json" --logic-built "$kit/logic_built" --toolchain "$kit/toolchain" -o "$built"
