#!/bin/sh
# Runs the built program with copies in the files of a folder, as `--folder DIR` asks: over folders that are new, were used before, can't be written to
# or fill up, and after a run was killed. Each run prints what the same over memory prints, or what stands here.
#
#     examples/runs/check-folders.sh [PROGRAM]
#
# The folders are made in a temporary one. The last line is `N passed, M failed`, after a line for each run that could not be tried here.
examples=$(cd "$(dirname "$0")/.." && pwd) || exit 1
. "$examples/common.sh"
cd "$made" || exit 1
runs=$examples/runs
mkdir unread-folder four-folder sixteen-folder one-folder placed-folder closed-folder full-folder killed-folder

# Makes a run by these words over memory and over a folder, and compares them.
same() {
    folder=$1
    trace=$2
    shift 2
    run "$trace" told "$program" "$@"
    mv output text
    run "$trace" told "$program" --folder "$folder" "$@"
    compare "$* over $folder" $? 0 '' text
}

# Runs of 10,000 calls over 512 frames: many pages are paged out and read again. The second run in a folder begins anew.
"$program" make 7 10000 4 4 512 >four
"$program" make 11 10000 16 16 512 >sixteen
"$program" make 3 10000 1 1 512 >one
same four-folder four order
same four-folder four order
same four-folder four turns 3 --history
same sixteen-folder sixteen order
same sixteen-folder four turns 9
same one-folder one replay
same one-folder /dev/null make 7 12 2 2 512
same one-folder /dev/null large 7 3

# Each space has its file, as long as the last page that was written to it.
for number in 0 1 10 11 12 13 14 15 2 3 4 5 6 7 8 9; do echo "space-$number"; done >text
run /dev/null told env LC_ALL=C ls sixteen-folder
compare files $? 0 '' text

# Words of no command make no file.
run four told "$program" --folder unread-folder ordr
compare unread $? 2 'superpager: usage' ''
run /dev/null told ls unread-folder
compare unread-files $? 0 '' ''

# A page's copy stands at its place in the file, the lowest byte of each word first.
printf 'trace 1 512 1 1\n0 map 0 0 2 fixed write\n0 store 0 8200 72623859790382856\n0 sync 0 1\nend\n' >placed
"$program" --folder placed-folder order <placed >told
zeros=' 00 00 00 00 00 00 00 00'
printf '0000000%s%s\n*\n0008192%s 08 07 06 05 04 03 02 01\n0008208%s%s\n*\n0016384\n' "$zeros" "$zeros" "$zeros" "$zeros" "$zeros" >text
run placed-folder/space-0 told od -A d -t x1
compare placed $? 0 '' text

# A folder without the right to write. Root may write to each, so the program is run as nobody then, who has to reach a copy of it: without words that
# ends with status 2.
as_nobody() {
    setpriv --reuid 65534 --regid 65534 --clear-groups "$@"
}
closed_to() {
    run "$runs/two-writes.trace" told "$@" --folder closed-folder order
    compare closed-folder $? 0 '' "$runs/two-writes-without-a-folder.text"
}
chmod a-w closed-folder
if [ "$(id -u)" != 0 ]; then
    closed_to "$program"
else
    chmod a+x .
    cp "$program" for-nobody
    chmod a+rx for-nobody
    run /dev/null told as_nobody ./for-nobody
    if [ $? = 2 ]; then
        closed_to as_nobody ./for-nobody
    else
        echo 'not tried, since root may write to each: a folder without the right to write'
    fi
fi

# A folder that fills: it takes the copies of six pages, and not that of page 40. First by a limit on the size of a file, in blocks of 512 or 1,024 bytes:
# the system sends a signal then, which is ignored, so that the write fails. And by a file system of 48 KiB, where one may be mounted, for that run alone.
under_a_limit() (
    trap '' XFSZ
    ulimit -f 96
    exec "$@"
)
on_a_small_system() {
    unshare -m sh -c 'mount -t tmpfs -o size=48k none full-folder && exec "$@"' sh "$@"
}
for how in under_a_limit on_a_small_system; do
    if run /dev/null told "$how" true; then
        run "$runs/seven-copies.trace" told "$how" "$program" --folder full-folder order
        compare "full-folder, $how" $? 0 '' "$runs/seven-copies-over-48k.text"
    fi
done

# A run that is killed, as soon as it wrote a copy, and one that begins anew in its folder.
killed() {
    "$program" --folder killed-folder order <long >/dev/null 2>&1 &
    run=$!
    while [ ! -s killed-folder/space-0 ] && kill -0 "$run" 2>/dev/null; do sleep 0.01; done
    kill -9 "$run"
    wait "$run" 2>/dev/null
}
"$program" make 5 262144 4 4 512 >long
run /dev/null told killed
compare killed $? 137 '' ''
same killed-folder four order

# An empty word is the folder that the program runs in.
same '' four order
run space-15 told cat
compare 'a file here' $? 0 '' ''
end_of_check
