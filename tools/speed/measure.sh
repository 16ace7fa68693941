#!/bin/bash
# What a workflow costs: flushes of the device, processor time and instructions, by the program's own generator.
#
#   tools/speed/measure.sh [PROGRAM]
#
# PROGRAM is the built program, or crates/r3_cli/out/r3_cli. It isn't part of the gate. The flushes need strace, the
# instructions valgrind; without one its part is left out. Instructions are counted and not timed, so a busy machine
# gives the same figures. Processor time is the least of five runs over a store in memory (/dev/shm).
set -euo pipefail
top=$(cd "$(dirname "$0")/../.." && pwd)
program=${1:-$top/crates/r3_cli/out/r3_cli}
program=$(cd "$(dirname "$program")" && pwd)/$(basename "$program")
number=7
work=$(mktemp -d)
trap 'rm -rf "$work"' EXIT
cd "$work"

# per TOTAL COUNT: so much for one of COUNT, with two places
per() {
    awk "BEGIN { printf \"%.2f\", $1 / $2 }"
}

# instructions COUNT: those of a whole run
instructions() {
    rm -f store
    valgrind --tool=callgrind --callgrind-out-file=/dev/null "$program" store gen "$number" "$1" 2>&1 > /dev/null |
        sed -n 's/.*Collected : \([0-9]*\).*/\1/p'
}

count=10000
if [ -d /dev/shm ]; then
    memory=$(mktemp -d /dev/shm/speed.XXXXXX)
    trap 'rm -rf "$work" "$memory"' EXIT
    TIMEFORMAT='%U %S'
    least=$(for _ in 1 2 3 4 5; do
        rm -f "$memory/store"
        { time "$program" "$memory/store" gen "$number" "$count" > /dev/null; } 2>&1
    done | awk '{ print $1 + $2 }' | sort -g | head -n 1)
    echo "processor time: $(awk "BEGIN { printf \"%.1f\", 1000000 * $least / $count }") microseconds a workflow, of $count"
else
    echo "processor time: /dev/shm isn't there"
fi

if command -v strace > /dev/null; then
    strace -f -o calls -e trace=fsync,fdatasync,sync_file_range,msync "$program" store gen "$number" "$count" > said
    flushes=$(grep -c '(' calls || true)
    echo "said: $(cat said)"
    echo "flushes: $flushes in all, $(per "$flushes" "$count") a workflow, of $count"
else
    echo "flushes: strace isn't there"
fi

if command -v valgrind > /dev/null; then
    few=1000
    many=16000
    of_few=$(instructions "$few")
    of_many=$(instructions "$many")
    echo "instructions: $((of_few / few)) a workflow, of $few"
    echo "instructions: $((of_many / many)) a workflow, of $many"
    echo "instructions: $(((of_many - of_few) / (many - few))) for each workflow past the first $few"
else
    echo "instructions: valgrind isn't there"
fi
