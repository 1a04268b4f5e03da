#!/bin/sh
# A worker: audits shares of a job until none is left (shares.py).
#
#     work.sh JOB [MINUTES]
#
# Any number of workers may run at once, on all machines that see JOB and the bundles under one path. A worker takes a share by
# renaming its file in JOB/todo to one in JOB/taken, which one worker alone can do. The lines of the share come to JOB/lines in
# one piece. A share that was taken MINUTES ago, or 10 minutes, and has no lines is lost: it is put back, and is taken anew. The
# clocks of machines have to agree much better. A share that is audited twice has the same lines. One that was lost three times
# goes to JOB/lost, so that no file keeps others from being audited. The program is sm_tool on the path, or the one that
# SM_TOOL names. Status 2: there is no such job. Status 3: there is no such program.
set -u
late=${2:-10} mine=$(uname -n).$$
cd "${1:?usage: work.sh JOB [MINUTES]}" && [ -d todo ] || exit 2
"${SM_TOOL:-sm_tool}" --version >/dev/null || exit 3

# Audits a share. Its lines count if each file has one.
audit() {
    "${SM_TOOL:-sm_tool}" audit --json --strict --files-from "shares/$1" >"part.$1.$mine"
    [ "$(wc -l <"part.$1.$mine")" -eq "$(tr -cd '\0' <"shares/$1" | wc -c)" ] && mv "part.$1.$mine" "lines/$1" &&
        rm -f "todo/$1"* "taken/$1"*
}

while [ -n "$(find todo taken -type f)" ]; do
    for it in todo/*; do
        share=${it#todo/}
        [ -e "$it" ] && touch -c "$it" && mv "$it" taken 2>/dev/null && audit "${share%%+*}"
    done
    # The name of a share has a + for each time that it was lost.
    find taken -type f -mmin +"$late" | while read -r it; do
        case $it in *++) mv "$it" lost ;; *) mv "$it" "todo/${it#taken/}+" ;; esac
    done 2>/dev/null
    sleep 1
done
