#!/bin/sh
# Times every command on dumps that someone wrote to make a reader slow, beside an ordinary dump with as many processes,
# sections, entries, roots or bytes of a heap, and on dumps of the same shapes twice as large. A row has the shape, the command,
# the seconds on the hostile dump, the seconds on the ordinary one and how many times these that is, and how many times the
# seconds the larger dump takes. Behind a row stands `SLOW` where it takes more than 5 times as long as the ordinary one, or more
# than 2.3 times as long twice as large; what takes less than a twentieth of a second isn't told from the start of a program, and
# is passed over.
#
#   bench/hostile.sh [ROUNDS]
#
# The best of ROUNDS rounds counts; a row that one round leaves below nine tenths of both bounds has no more of them, and one that
# is above a bound after them has as many again, up to three times, since what else the machine does makes a run slower and never
# faster. The script ends with status 1 where a row is slow. It writes its files into a folder of its own, which needs 1 GB, and
# removes them afterwards.
rounds=${1:-5}
here=$(CDPATH= cd -- "$(dirname -- "$0")" && pwd) || exit 1
folder=$(mktemp -d) || exit 1
trap 'rm -rf "$folder"' EXIT
cc -O2 -o "$folder/bench" "$here/bench.c" || exit 1
cc -O2 -o "$folder/hostile" "$here/hostile.c" || exit 1
edump="$here/../crates/edump/out/edump"
"$here/../edump" trial 0 1 >/dev/null || exit 1
forms=$("$here/../.ci/documents" --forms) || exit 1
slow=0

# The seconds of a command on a file, or those before it if they are fewer; `-` if there are none before it.
best() {
    before=$1
    shift
    now=$(timeout 120 "$folder/bench" measure /dev/null "$edump" "$@" 2>/dev/null || echo "120 0")
    echo "$before ${now%% *}" | awk '{ print ($1 == "-" || $2 < $1) ? $2 : $1 }'
}

# Times so many rounds more of a command on the hostile dump, on the ordinary one, and on the larger one, which
# take turns, so that a machine that is slow for a while is so for all three.
time_all() {
    count=$1
    command=$2
    shift 2
    for _ in $(seq "$count"); do
        took=$(best "$took" "$command" "$folder/once" "$@")
        usual=$(best "$usual" "$command" "$folder/plain" "$@")
        twice=$(best "$twice" "$command" "$folder/twice" "$@")
    done
}

# Whether what was timed is above so much of a bound.
is_above() {
    awk -v part="$1" -v took="$took" -v usual="$usual" -v twice="$twice" 'BEGIN {
        known = usual > 0.005 ? usual : 0.005
        exit !(took > part * 0.05 && took / known > part * 5 || twice > part * 0.1 && twice / took > part * 2.3)
    }'
}

# Tells of one command on a shape.
tell() {
    shape=$1
    shift
    took=- usual=- twice=- mark=
    time_all 1 "$@"
    if is_above 0.9; then
        for _ in 1 2 3 4; do
            time_all "$rounds" "$@"
            is_above 1 || break
        done
    fi
    if is_above 1; then
        mark="  SLOW"
        slow=1
    fi
    command=$1
    shift
    awk -v shape="$shape" -v words="$command $*" -v took="$took" -v usual="$usual" -v twice="$twice" -v mark="$mark" 'BEGIN {
        known = usual > 0.005 ? usual : 0.005
        printf "%-10s %-22s %8.3f s  %8.3f s  %6.2f times  twice as large %5.2f times%s\n", shape, words, took, usual,
            took / known, twice / (took > 0.005 ? took : 0.005), mark
    }'
}

# A command with its kinds of words, on the shape. A form that isn't named here is run with a word of each kind that has to be there.
try() {
    case $3 in
    "FILE" | "FILE [N]") tell "$1" "$2" ;;
    "FILE PID [N]") tell "$1" "$2" "<0.1.0>" 3 ;;
    "FILE PID [N] [pids]") tell "$1" "$2" "<0.1.0>" 3 && tell "$1" "$2" "<0.1.0>" 3 pids ;;
    "FILE PID N ADDR") tell "$1" "$2" "<0.1.0>" 3 10 ;;
    "FILE PID [NODES] [marked]") tell "$1" "$2" "<0.1.0>" 1 ;;
    "FILE PID ADDR [NODES] [marked]") tell "$1" "$2" "<0.1.0>" 10 $most ;;
    "FILE PID ADDR") tell "$1" "$2" "<0.1.0>" 10 ;;
    "FILE PID KIND"*) tell "$1" "$2" "<0.1.0>" mail 0 1000 "$nodes" ;;
    "FILE ADDR") tell "$1" "$2" 1 ;;
    "FILE LIMIT [full]") tell "$1" "$2" 5 && tell "$1" "$2" 5 full ;;
    "SEED COUNT") ;;
    "FILE "*) tell "$1" "$2" $("$here/../.ci/documents" --words "${3#FILE}" PID="<0.1.0>" ADDR=10) ;;
    *) echo "hostile: with which words is \`$2 $3\` to be run?" >&2 && exit 1 ;;
    esac
}

# A shape, with so many of what it has: all commands of the README on it. Of some roots of a process so many nodes are shown, and
# of a cell as many as a command shows unasked, or so many: a text that a thousand of them refer to is printed a thousand times.
shape() {
    nodes=${3:-1}
    most=$4
    "$folder/hostile" "$1" "$folder/once" "$2" || exit 1
    "$folder/hostile" plain "$1" "$folder/plain" "$2" || exit 1
    "$folder/hostile" "$1" "$folder/twice" $((2 * $2)) || exit 1
    while read -r command words; do
        try "$1" "$command" "$words" </dev/null
    done <<END
$forms
END
}

shape pids 100000
shape tags 65536
shape mailboxes 65536
shape kinds 50000
shape payload 20000000
shape external 20000000
shape subs 20000
shape address 500000
shape falling 500000
shape commas 30000000
shape equals 2000000
shape roots 1000000
shape one_pid 500000
shape star 200000
shape nested 4000000
shape counts 2000000
shape quoted 200
shape letters 10000000
shape marks 4000000
shape states 200000
shape places 200000
shape port_kinds 200000
shape frames 20000
shape numbers 500000
shape inner 200000
shape one_text 200000
shape texts 20000
shape tuple 1000000
shape flat 1000000
shape hash 1000000
shape keys 20000000 1 1
shape slices 400000
shape shuffled 4000000
shape budgets 1000000 1500
shape upwards 500000
shape chain 1000000
shape one_cell 1000000
shape atoms 100000
shape requests 1000000
shape slots 200000
shape references 1000000
shape calls 200000
exit "$slow"
