#!/bin/sh
# Times `edump index` and `edump info` on a dump of 1 GiB, once with 500,000 and once with 900,000 sections, warm, beside a
# C loop and grep; then `edump procs`, `edump field` and `edump triage` on a dump of 1 GiB with 200,000 processes, beside `edump index` and
# a program in C that only reads the same, and `edump stacks` and `edump waits` beside `edump procs`; then the load of heaps, beside the reading
# of their lines through `heap_line` and `form`, `edump term` beside a program in C that writes the same, and the walk of a
# term; then `edump peek` of ten messages beside a program in C that looks for each line's address, and beside `edump mail`, and
# `edump weigh` beside `edump reach` or, of a heap of 4 GiB, beside `edump peek`, `edump path`, `edump heavy` and `edump shapes` beside `edump weigh`;
# then the previews of binaries, and `edump binaries` beside `edump index` and a program in C that reads the same; then an external term, read and written;
# then `edump audit` beside `edump procs`, and `edump audit-json` beside `edump audit`; and then `edump redact` of a dump of
# 1 GiB beside `cat`, each into a file that isn't there before. Each command runs in turn for a number of rounds; the script
# prints its median in seconds, how many times that of another this is, and the most memory that it had. `bench/table` writes
# what it has printed into docs/SPEED.md and README.md.
#
#   bench/run.sh [ROUNDS]
#
# grep's output goes into a file, since grep stops at the first match where it is thrown away. The script writes its
# files into a folder of its own, which needs 4.3 GB, and removes them afterwards.
rounds=${1:-20}
here=$(CDPATH= cd -- "$(dirname -- "$0")" && pwd) || exit 1
folder=$(mktemp -d) || exit 1
trap 'rm -rf "$folder"' EXIT
cc -O2 -o "$folder/bench" "$here/bench.c" && cc -O2 -o "$folder/term" "$here/term.c" || exit 1
bench="$folder/bench"
dump="$folder/dump"
edump="$here/../crates/edump/out/edump"
heap_bench="$here/../crates/heap_bench/out/heap_bench"
echo "measured: $rounds rounds of the tree of $(git -C "$here" log -1 --format='%cs (%h)'), on $(nproc) processors ($(sed -n \
    's/^model name.*: //p' /proc/cpuinfo | head -n 1)) with $(uname -sr), whose load was $(cut -d ' ' -f 1 /proc/loadavg) before"
# The gate builds heap_bench too; where it hasn't, the crates below it are proved first.
[ -x "$heap_bench" ] || (cd "$here/../crates/heap_bench" && rt run -- lines data/small.heap) >"$folder/build.log" 2>&1 || exit 1

# One round of a command: the name of its times, the file for its output, and the command.
round() {
    times="$folder/$1.times"
    out=$2
    shift 2
    "$bench" measure "$out" "$@" >>"$times" || exit 1
}

# The median of the seconds under this name.
median() {
    sort -n "$folder/$1.times" | awk '{ s[NR] = $1 } END { printf "%.3f", (s[int((NR + 1) / 2)] + s[int(NR / 2) + 1]) / 2 }'
}

# The most memory under this name, in MB.
memory() {
    awk '$2 > most { most = $2 } END { printf "%.0f", most * 1024 / 1000000 }' "$folder/$1.times"
}

# The times under the first name, beside those of a command that was timed in the same rounds.
tell() {
    awk -v name="$2" -v took="$(median "$1")" -v beside="$(median "${3:-loop}")" -v other="${4:-the C loop}" -v most="$(memory "$1")" \
        'BEGIN { printf "%-14s %s s  %.2f times %s  %s MB\n", name, took, took / beside, other, most }'
}

for sections in 500000 900000; do
    rm -f "$folder"/*.times
    "$bench" write "$dump" 1073741824 "$sections" || exit 1
    sync "$dump"
    "$here/../edump" index "$dump" >"$folder/index" || exit 1
    echo "a dump of 1 GiB with $sections sections, $rounds rounds:"
    for _ in $(seq "$rounds"); do
        round index /dev/null "$edump" index "$dump"
        round info /dev/null "$edump" info "$dump"
        round loop /dev/null "$bench" scan "$dump"
        round grep "$folder/grep" env LC_ALL=C grep -ab '^=' "$dump"
    done
    tell index "edump index"
    tell info "edump info"
    tell loop "the C loop" loop itself
    tell grep "grep -ab '^='"
done

rm -f "$folder"/*.times
processes=200000
kept=$("$bench" procs "$dump" 1073741824 "$processes") || exit 1
sync "$dump"
"$edump" procs "$dump" >"$folder/procs" || exit 1
echo "a dump of 1 GiB with $processes processes, $rounds rounds, $(tail -n 1 "$folder/procs"):"
for _ in $(seq "$rounds"); do
    round index /dev/null "$edump" index "$dump"
    round procs /dev/null "$edump" procs "$dump"
    round field /dev/null "$edump" field "$dump" "Spawned by"
    round reread /dev/null "$bench" reread "$dump" 1 0
    round triage /dev/null "$edump" triage "$dump"
done
tell index "edump index" index "edump index"
tell procs "edump procs" index "edump index"
tell reread "reads alone" index "edump index"
tell field "edump field" procs "edump procs"
tell triage "edump triage" procs "edump procs"
# What the process table takes beside the index and the texts that it keeps.
for name in index procs; do sort -n -k 2 "$folder/$name.times" | tail -n 1; done |
    awk -v kept="$kept" -v count="$processes" \
        '{ most[NR] = $2 * 1024 } END { printf "%.0f bytes a process beside the index and the %d bytes that are kept of it\n", (most[2] - most[1] - kept) / count, kept / count }'
rm -f "$dump"

# Where processes stand: ten infos on the stack of each.
rm -f "$folder"/*.times
"$bench" stacks "$dump" "$processes" || exit 1
sync "$dump"
for _ in $(seq "$rounds"); do
    round procs /dev/null "$edump" procs "$dump"
    round stacks /dev/null "$edump" stacks "$dump"
done
echo "a dump of $(wc -c <"$dump") bytes, $processes stacks of ten infos:"
tell procs "edump procs" procs "itself"
tell stacks "edump stacks" procs "edump procs"
rm -f "$dump"

# For whom processes wait: each has a monitor, and holds its reference in a stack of ten words and a heap of ten lines.
rm -f "$folder"/*.times
"$bench" waits "$dump" "$processes" || exit 1
sync "$dump"
for _ in $(seq "$rounds"); do
    round procs /dev/null "$edump" procs "$dump"
    round waits /dev/null "$edump" waits "$dump"
done
echo "a dump of $(wc -c <"$dump") bytes, $processes processes that wait:"
tell procs "edump procs" procs "itself"
tell waits "edump waits" procs "edump procs"
rm -f "$dump"

# Heaps: the reading of the lines alone, the load of the heap, the walk of its one term, and what its one root reaches.
for shape in "list 1000000 0" "list 10000000 1" "tuples 1000000"; do
    rm -f "$folder"/*.times
    # shellcheck disable=SC2086
    set -- $shape
    "$bench" "$1" "$dump" "$2" $3 || exit 1
    sync "$dump"
    size=$(wc -c <"$dump")
    for _ in $(seq "$rounds"); do
        round lines /dev/null "$heap_bench" lines "$dump"
        round load /dev/null "$heap_bench" load "$dump" "<0.1.0>" 10
        round term "$folder/out" "$edump" term "$dump" "<0.1.0>" 10 1000000000
        round plain "$folder/plain" "$folder/term" "$dump" "<0.1.0>" 10
        [ "$2" -gt 1000000 ] && continue
        round previews /dev/null "$heap_bench" previews "$dump" "<0.1.0>" 10
        round walk /dev/null "$heap_bench" walk "$dump" "<0.1.0>" 10
        round reach /dev/null "$edump" reach "$dump" "<0.1.0>"
    done
    echo "a heap of $2 cells, $1${3:+, in order $3}, $size bytes of text:"
    tell lines "lines" lines "itself"
    tell load "load" lines "the lines"
    awk -v most="$(memory load)" -v size="$size" 'BEGIN { printf "the load had %.2f times the text\n", most * 1000000 / size }'
    cmp "$folder/out" "$folder/plain" || exit 1
    tell term "edump term" plain "the C program"
    tell plain "the C program" plain itself
    [ "$2" -gt 1000000 ] && continue
    awk -v walk="$(median walk)" -v load="$(median previews)" -v cells="$2" \
        'BEGIN { printf "judge and print: %.1f million nodes a second\n", 2 * cells / (walk - load) / 1000000 }'
    tell reach "edump reach" load "the load"
done
rm -f "$folder/out" "$folder/plain"

# Ten messages of heaps that are loaded, and of one of 4 GiB that isn't, and which of them holds how much.
for cells in 1000000 10000000 100000000; do
    rm -f "$folder"/*.times
    "$bench" messages "$dump" "$cells" 10 || exit 1
    sync "$dump"
    for _ in $(seq "$rounds"); do
        round addresses /dev/null "$bench" addresses "$dump"
        round peek /dev/null "$edump" peek "$dump" "<0.1.0>" mail 0 10
        round weigh /dev/null "$edump" weigh "$dump" "<0.1.0>"
        [ "$cells" -gt 10000000 ] && continue
        round mail /dev/null "$edump" mail "$dump" "<0.1.0>"
        round reach /dev/null "$edump" reach "$dump" "<0.1.0>"
    done
    echo "a heap of $cells cells, ten messages, $(wc -c <"$dump") bytes:"
    tell addresses "the addresses" addresses itself
    tell peek "edump peek" addresses "a program in C that only looks for addresses"
    if [ "$cells" -gt 10000000 ]; then
        tell weigh "edump weigh" peek "edump peek"
        continue
    fi
    tell mail "edump mail" peek "edump peek"
    tell reach "edump reach" mail "edump mail"
    tell weigh "edump weigh" reach "edump reach"
done

# A message for each list of such a heap, so that every cell is reached: the way to the last of them, and where most of it hangs.
rm -f "$folder"/*.times
"$bench" messages "$dump" 10000000 100000 || exit 1
sync "$dump"
last=$(tail -n 2 "$dump" | head -n 1 | cut -d : -f 1)
for _ in $(seq "$rounds"); do
    round weigh /dev/null "$edump" weigh "$dump" "<0.1.0>"
    round path /dev/null "$edump" path "$dump" "<0.1.0>" "$last"
    round heavy /dev/null "$edump" heavy "$dump" "<0.1.0>"
done
echo "a heap of 10000000 cells, a message for each list, $(wc -c <"$dump") bytes:"
tell weigh "edump weigh" weigh itself
tell path "edump path" weigh "edump weigh"
tell heavy "edump heavy" weigh "edump weigh"

# A million messages of such a heap: what kinds of them there are, and which holds how much.
rm -f "$folder"/*.times
"$bench" messages "$dump" 100000000 1000000 || exit 1
sync "$dump"
for _ in $(seq "$rounds"); do
    round weigh /dev/null "$edump" weigh "$dump" "<0.1.0>"
    round shapes /dev/null "$edump" shapes "$dump" "<0.1.0>"
done
echo "a heap of 100000000 cells, a million messages, $(wc -c <"$dump") bytes:"
tell weigh "edump weigh" weigh itself
tell shapes "edump shapes" weigh "edump weigh"

# References to binaries, over few and over many sections.
for sections in 10000 100000; do
    rm -f "$folder"/*.times
    "$bench" binaries "$dump" 1000000 "$sections" || exit 1
    sync "$dump"
    for _ in $(seq "$rounds"); do
        round load /dev/null "$heap_bench" load "$dump" "<0.1.0>" 10
        round previews /dev/null "$heap_bench" previews "$dump" "<0.1.0>" 10
    done
    echo "a million references to $sections binaries:"
    tell load "load" load "itself"
    tell previews "and previews" load "the load"
done

# Who holds binaries: a million references in 200,000 heaps, and one heap of 4 GiB.
for shape in "holders 1073741824 200000 100000" "repeated 4294967296"; do
    rm -f "$folder"/*.times
    # shellcheck disable=SC2086
    "$bench" "${shape%% *}" "$dump" ${shape#* } || exit 1
    sync "$dump"
    for _ in $(seq "$rounds"); do
        round index /dev/null "$edump" index "$dump"
        round procs /dev/null "$edump" procs "$dump"
        round triage /dev/null "$edump" triage "$dump"
        round binaries /dev/null "$edump" binaries "$dump"
        round reread /dev/null "$bench" reread "$dump" 3 1
        round only /dev/null "$bench" reread "$dump" 3 0
    done
    echo "a dump of $(wc -c <"$dump") bytes, $shape:"
    tell index "edump index" index "itself"
    tell binaries "edump binaries" index "edump index"
    tell binaries "edump binaries" reread "a program in C that reads the same"
    tell reread "that program" index "edump index"
    tell only "without looking" index "edump index"
    tell triage "edump triage" procs "edump procs"
done

# An external term, a list of small tuples: read and written into nothing. As many zeros are none, and are only read from the
# file.
rm -f "$folder"/*.times
"$bench" external "$dump" 4000000 || exit 1
sync "$dump"
size=$(wc -c <"$dump")
head -c "$size" /dev/zero >"$folder/zeros"
for _ in $(seq "$rounds"); do
    round external /dev/null "$heap_bench" external "$dump"
    round zeros /dev/null "$heap_bench" external "$folder/zeros"
done
rm -f "$folder/zeros"
awk -v took="$(median external)" -v file="$(median zeros)" -v size="$size" -v most="$(memory external)" \
    'BEGIN { printf "an external term of %d bytes: %.3f s, %.0f MB a second, %s MB\n", size, took - file, size / (took - file) / 1000000, most }'

# Links: five entries a process in 1 GiB and with nothing else beside them, and one process with a million.
for shape in "links 1073741824 200000" "links 0 200000" "star 1000000"; do
    rm -f "$folder"/*.times
    # shellcheck disable=SC2086
    set -- $shape
    "$bench" "$1" "$dump" "$2" $3 || exit 1
    sync "$dump"
    for _ in $(seq "$rounds"); do
        round procs /dev/null "$edump" procs "$dump"
        round audit /dev/null "$edump" audit "$dump" 1000
    done
    echo "a dump of $(wc -c <"$dump") bytes, $shape:"
    tell procs "edump procs" procs "itself"
    tell audit "edump audit" procs "edump procs"
done

# Five findings a process.
for processes in 200000 400000; do
    rm -f "$folder"/*.times
    "$bench" lonely "$dump" "$processes" || exit 1
    sync "$dump"
    for _ in $(seq "$rounds"); do
        round audit /dev/null "$edump" audit "$dump" 1000
        round json /dev/null "$edump" audit-json "$dump" 1000
    done
    echo "a dump with $((5 * processes)) findings:"
    tell audit "edump audit" audit "itself"
    tell json "and audit-json" audit "edump audit"
done
rm -f "$dump"

# Binaries made zero, beside `cat` and beside a program in C that only reads the dump twice and writes it. Each round
# has another order, since what a program takes depends on the one before it by up to a tenth.
for size in 4095 399; do
    rm -f "$folder"/*.times
    "$bench" payloads "$dump" 1073741824 "$size" || exit 1
    order="redact cat copy"
    for _ in $(seq "$rounds"); do
        order="${order#* } ${order%% *}"
        for name in $order; do
            rm -f "$folder/out"
            sync
            case $name in
            redact) round redact "$folder/out" "$edump" redact "$dump" ;;
            cat) round cat "$folder/out" cat "$dump" ;;
            copy) round copy "$folder/out" "$bench" copy "$dump" ;;
            esac
        done
    done
    echo "a dump of 1 GiB, half heaps and half binaries of $size bytes, $rounds rounds:"
    tell redact "edump redact" cat cat
    tell copy "two reads" cat cat
done
rm -f "$dump" "$folder/out"
