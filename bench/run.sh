#!/usr/bin/env bash
# Times the proved program on a long run and on a large model, and checks what it prints.
#
#     bench/run.sh [REPEATS]
#
# Prints for each case the seconds of the fastest of REPEATS runs (3 where none is given), all with the output in a
# file. The files stand in bench/generated/, which is not stored.
set -eu

here="$(dirname "$(readlink -f "${BASH_SOURCE[0]}")")"
root="$(dirname "$here")"
program="$root/crates/clockrun/out/clockrun"
generated="$here/generated"
repeats="${1:-3}"
names=60000

fail() {
    echo "bench: $1" >&2
    exit 1
}

# Runs MODEL up to STOP, which ends with STATUS, and prints the seconds of the fastest run.
fastest() {
    python3 - "$program" "$1" "$2" "$3" "$4" "$repeats" <<'PYTHON'
import subprocess
import sys
import time

program, model, stop, out, status, repeats = sys.argv[1:]
seconds = []
for _ in range(int(repeats)):
    with open(out, "wb") as to:
        begun = time.perf_counter()
        ended = subprocess.run([program, model, "--stop", stop], stdout=to, stderr=subprocess.DEVNULL)
        seconds.append(time.perf_counter() - begun)
    if ended.returncode != int(status):
        sys.exit(f"bench: {model} ended with status {ended.returncode}")
print(f"{min(seconds):.3f}")
PYTHON
}

# A case: its name, its model, its stop, and the number of lines and the first bytes of the last line that are wanted.
measure() {
    local case_name="$1" model="$2" stop="$3" lines="$4" last="$5"
    local out="$generated/out.csv" seconds
    seconds="$(fastest "$model" "$stop" "$out" 0)"
    [ "$(wc -l <"$out")" -eq "$lines" ] || fail "$case_name: $out has not $lines lines"
    [ "$(tail -n 1 "$out" | head -c "${#last}")" = "$last" ] || fail "$case_name: the last line of $out does not begin with $last"
    printf '%-40s %8s s  %12s bytes of output\n' "$case_name" "$seconds" "$(stat -c %s "$out")"
}

# A text that is refused: its name and the text.
refused() {
    local case_name="$1" model="$2"
    printf '%-40s %8s s\n' "$case_name" "$(fastest "$model" 0 "$generated/out.csv" 1)"
}

# The program is built where it is missing or older than its sources. Called without words it only ends with status 3.
status=0
"$root/clockrun" 2>/dev/null || status=$?
[ "$status" -eq 3 ] || fail "the program was not built; ./clockrun says why"

mkdir -p "$generated"
"$here/generate.py" --names "$names" >"$generated/chain.mo"
"$here/generate.py" --names 5000 >"$generated/steps.mo"
"$here/generate.py" --names 5000 --sums >"$generated/sums.mo"
"$here/generate.py" --names 2000 --held >"$generated/held.mo"
"$here/generate.py" --controllers >"$generated/controllers.mo"
# Of each text the first ends in a byte of no token, and the second in a token that nothing may follow.
for text in chain controllers; do
    { cat "$generated/$text.mo"; echo "$"; } >"$generated/$text-lexed.mo"
    { cat "$generated/$text.mo"; echo "]"; } >"$generated/$text-parsed.mo"
done

echo "$(nproc) cores; chain.mo has $names names in $(stat -c %s "$generated/chain.mo") bytes"
measure "counter, 1,000,001 rows" "$here/counter.mo" 1000 1000002 "1000,1000001"
measure "chain, 1 row" "$generated/chain.mo" 0 2 "0,1,2,"
measure "chain, 100 rows" "$generated/chain.mo" 99 101 "99,100,101,"
measure "5,000 equations, 2,000 ticks" "$generated/steps.mo" 1999 2001 "1999,2000,2001,"
steps="$(fastest "$generated/steps.mo" 1999 "$generated/out.csv" 0)"
awk -v seconds="$steps" 'BEGIN { printf "%-40s %8.1f ns, with its output\n", "an equation at a tick", seconds * 1e9 / (5000 * 2000) }'
measure "5,000 sums, 2,000 ticks" "$generated/sums.mo" 1999 2001 "1999,2000,2001,"
measure "1,998 held names, 10,001 rows" "$generated/held.mo" 100 10002 "100,101,10001,101,102,"
for text in controllers chain; do
    refused "$text, divided into tokens" "$generated/$text-lexed.mo"
    refused "$text, and parsed" "$generated/$text-parsed.mo"
done
rm -f "$generated/out.csv"
