#!/usr/bin/env bash
# Refuses each request for memory of the controller of three rates in turn, and sees what the program answers.
#
#     bench/memory.sh [PROGRAM]
#
# PROGRAM is that of ./clockrun where none is given, which is then built first where need be. With one worker and with four,
# each request is refused alone, and once more with all that come after it. The answer must be `no memory` with status 6 and an empty
# out, or, where the program does without, the right trace. The last line is 'N requests: M answered no memory, K the right
# answer, 0 wrong', and the status is 1 where an answer was wrong. A C compiler, cc, is needed.
set -eu

here="$(dirname "$(readlink -f "${BASH_SOURCE[0]}")")"
root="$(dirname "$here")"
example="$root/examples/three_rates"
scratch="$(mktemp -d)"
trap 'rm -rf "$scratch"' EXIT

if [ $# -gt 0 ]; then
    program="$(readlink -f "$1")"
else
    program="$root/crates/clockrun/out/clockrun"
    # Called without words the script builds the program where it is old, and the program ends with status 3.
    "$root/clockrun" 2>/dev/null || [ $? -eq 3 ]
fi
cc -O1 -shared -fPIC -o "$scratch/refuse.so" "$here/refuse.c" -ldl
cp "$example/loop.mo" "$example/level.csv" "$scratch/"
cd "$scratch"
echo 'no memory' >no_memory

# Runs the controller on so many threads with such requests refused.
run() {
    status=0
    timeout 60 env REFUSE="memory:$2" REFUSE_COUNT=requests LD_PRELOAD=./refuse.so "$program" loop.mo --table level.csv \
        --stop 0.02 --workers "$1" >out 2>err </dev/null || status=$?
}

requests=0
refused=0
right=0
wrong=0
for workers in 1 4; do
    run "$workers" 0
    if [ "$status" -ne 0 ] || ! cmp -s out "$example/out"; then
        echo "bench: the controller does not run with --workers $workers" >&2
        exit 1
    fi
    total="$(cat requests)"
    for ((number = 1; number <= total; number++)); do
        for from in "$number" "$number.."; do
            run "$workers" "$from"
            requests=$((requests + 1))
            if [ "$status" -eq 6 ] && [ ! -s out ] && cmp -s err no_memory; then
                refused=$((refused + 1))
            elif [ "$status" -eq 0 ] && [ ! -s err ] && cmp -s out "$example/out"; then
                right=$((right + 1))
            else
                wrong=$((wrong + 1))
                echo "request $from with --workers $workers: status $status, $(wc -c <out) bytes of out, err: $(cat err)"
            fi
        done
    done
    echo "--workers $workers: $total requests for memory, each refused alone and with all behind it"
done
echo "$requests requests: $refused answered no memory, $right the right answer, $wrong wrong"
[ "$wrong" -eq 0 ]
