#!/bin/sh
# Refuses growths of memory, one in each run: runs edump again and again, of which the first, the second and each further call of
# malloc or realloc fails, until a run makes no such call any more, or up to the number that is given. Each run must end with its
# report and its status, or with status 6 and nothing written; `redact` may have written a front of its report then. Says for each
# command how many runs ended so, and fails where one ended otherwise, or where fewer than 30 of the first 60 of `trial 0 10`,
# which makes a heap and a walker for each of ten processes, ended with 6.
#
#   bench/growths.sh all      each growth
#   bench/growths.sh [MOST]   the first 60, or as many as are given
most=${1:-60}
[ "$most" != all ] || most=1000000
here=$(CDPATH= cd -- "$(dirname -- "$0")" && pwd) || exit 1
edump="$here/../crates/edump/out/edump"
folder=$(mktemp -d) || exit 1
trap 'rm -rf "$folder"' EXIT
cc -O2 -shared -fPIC -o "$folder/refuse.so" "$here/refuse.c" -ldl || exit 1
cc -O2 -o "$folder/hostile" "$here/hostile.c" || exit 1
"$here/../edump" make 0 10 >"$folder/dump" || exit 1
failed=0

# What stands in `out` is a front of the report.
is_front() {
    size=$(wc -c <"$folder/out")
    [ "$size" -lt "$(wc -c <"$folder/expected")" ] && cmp -s -n "$size" "$folder/out" "$folder/expected"
}

# One command: its runs with each growth refused beside its run with ample memory.
try() {
    "$edump" "$@" >"$folder/expected"
    status=$?
    done=0
    wanting=0
    refused=0
    while [ "$refused" -lt "$most" ]; do
        refused=$((refused + 1))
        rm -f "$folder/refused"
        LD_PRELOAD="$folder/refuse.so" REFUSED=$refused REFUSAL="$folder/refused" "$edump" "$@" >"$folder/out" 2>"$folder/err"
        ended=$?
        if [ ! -e "$folder/refused" ]; then
            refused=$((refused - 1))
            break
        fi
        if [ "$ended" -eq "$status" ] && cmp -s "$folder/out" "$folder/expected"; then
            done=$((done + 1))
        elif [ "$ended" -eq 6 ] && [ ! -s "$folder/out" ]; then
            wanting=$((wanting + 1))
        elif [ "$ended" -eq 6 ] && [ "$1" = redact ] && is_front; then
            wanting=$((wanting + 1))
        else
            echo "growth $refused of edump $*: status $ended"
            failed=1
        fi
    done
    echo "edump $1: of $refused growths that were refused $wanting ended with 6, $done runs with the whole report"
}

try trial 0 10
if [ "$most" -ge 60 ] && [ "$wanting" -lt 30 ]; then
    echo "edump trial: fewer than 30 runs ended with 6"
    failed=1
fi
try term "$folder/dump" "<0.4.0>" 4000
try mail "$folder/dump" "<0.4.0>"
try audit "$folder/dump" 8
printf '=erl_crash_dump:0.4\n=proc:<0.1.0>\n=proc_heap:<0.1.0>\n10:E9:836802610177026F6B\n=end\n' >"$folder/external"
try ext "$folder/external" "<0.1.0>" 10
try reach "$folder/dump" "<0.4.0>"
try audit "$folder/dump" 8 full
try audit-json "$folder/dump" 8
try audit-settled "$folder/dump" 8 full
try cells "$folder/dump" "<0.4.0>"
try binaries "$folder/dump"
try holders "$folder/dump" 20
try triage "$folder/dump"
try redact "$folder/dump"
try field "$folder/dump" State
try fields "$folder/dump" proc State
try stacks "$folder/dump"
"$folder/hostile" budgets "$folder/budgets" 10000 && "$folder/hostile" texts "$folder/texts" 50 || exit 1
try peek "$folder/budgets" "<0.1.0>" 10
try peek "$folder/budgets" "<0.1.0>" mail 0 1000 15
try weigh "$folder/budgets" "<0.1.0>"
try weigh "$folder/texts" "<0.1.0>" 3 20
try shapes "$folder/texts" "<0.1.0>"
try shapes "$folder/texts" "<0.1.0>" 10 pids
"$folder/hostile" keys "$folder/keys" 100000 && "$folder/hostile" chain "$folder/chain" 200 || exit 1
try weigh "$folder/keys" "<0.1.0>" 3 10
try heavy "$folder/keys" "<0.1.0>"
try heavy "$folder/texts" "<0.1.0>" 1000
try path "$folder/chain" "<0.1.0>" 10
"$folder/hostile" calls "$folder/calls" 20 && "$folder/hostile" slots "$folder/slots" 20 || exit 1
try waits "$folder/calls" 3
try waits "$folder/slots"
exit "$failed"
