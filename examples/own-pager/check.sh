#!/bin/sh
# Has the built program judge the histories of `own_pager.py`: as it is, by another rule of paging out, and without a line.
#
#     examples/own-pager/check.sh [PROGRAM]
#
# The last line is `N passed, M failed`.
examples=$(cd "$(dirname "$0")/.." && pwd) || exit 1
. "$examples/common.sh"
cd "$examples/own-pager" || exit 1

# The verdict on a history that is made by a command.
verdict() {
    name=$1
    echo "$2" >"$made/verdict"
    shift 2
    "$@" >"$made/history"
    run "$made/history" told "$program" check
    compare "$name" $? 0 '' "$made/verdict"
}
verdict one-too-many yes python3 own_pager.py one-too-many.trace
verdict few-pages yes python3 own_pager.py few-pages.trace
verdict by-lru 'no 1027' python3 own_pager.py --lru one-too-many.trace
sed '/tlbs\[s\]\.pop/d' own_pager.py >"$made/stale.py"
verdict stale 'no 1036' python3 "$made/stale.py" one-too-many.trace
end_of_check
