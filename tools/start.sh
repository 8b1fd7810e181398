# How a tool starts: the shell reads its first lines, which read these, and Python reads the others. Python doesn't start where its input is a
# folder, and tells of an interrupt in its own words until `early` is there. So until then an interrupt waits, where `env` can make it, as that of
# Linux can; else it is passed over.
if [ -d /dev/stdin ]; then
    echo "${0##*/}: the input can't be read: Is a directory" >&2
    exit 1
fi
if env --block-signal=INT true 2>/dev/null; then
    exec env --block-signal=INT python3 "$0" "$@"
fi
trap '' INT
exec python3 "$0" "$@"
