#!/bin/sh
# Runs the built program on every example, and on words, inputs and outputs that it must not take; then the tools on theirs, and the program beside the
# reference model on drawn traces. What is printed and said, and the status, has to be what stands here. The checks are those of the rooms, each of which
# may be run by itself.
#
#     examples/check.sh [PROGRAM]
#
# PROGRAM is crates/superpager/out/superpager where it isn't given. `rt ci` at the top leaves it there, also where nothing was kept from an earlier run,
# and then these runs take a minute or two. The last line is `N passed, M failed`. The status is 1 where a run failed, or none was made.
examples=$(cd "$(dirname "$0")" && pwd) || exit 1
. "$examples/common.sh"

for room in lesson runs refused streams histories own-pager tools policies drawn embedding kernel; do
    count "$examples/$room/check.sh"
done
count "$examples/embedding/machine_check.sh"
end_of_check
