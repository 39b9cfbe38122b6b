#!/usr/bin/env bash
# Times the stress model of 1,000 members with 1, 2 and 4 workers, and checks that all print the same.
#
#     bench/stress.sh [REPEATS [STOP]]
#
# Prints for each number of workers the seconds of the fastest of REPEATS runs (3 where none is given) up to STOP seconds
# of the model (10 where none is given).
set -eu

root="$(dirname "$(dirname "$(readlink -f "${BASH_SOURCE[0]}")")")"
program="$root/crates/clockrun/out/clockrun"
repeats="${1:-3}"
stop="${2:-10}"

# The program is built where it is missing or older than its sources. Called without words it only ends with status 3.
status=0
"$root/clockrun" 2>/dev/null || status=$?
[ "$status" -eq 3 ] || { echo "bench: the program was not built; ./clockrun says why" >&2; exit 1; }

python3 - "$program" "$repeats" "$stop" <<'PYTHON'
import subprocess
import sys
import time

program, repeats, stop = sys.argv[1:]
texts = set()
for workers in (1, 2, 4):
    seconds = []
    for _ in range(int(repeats)):
        begun = time.perf_counter()
        words = [program, "1000", "--stop", stop, "--mode", "stress", "--workers", str(workers)]
        texts.add(subprocess.run(words, check=True, capture_output=True).stdout)
        seconds.append(time.perf_counter() - begun)
    print(f"{workers} workers {min(seconds):10.3f} s")
if len(texts) != 1:
    sys.exit("bench: the workers print other texts")
print(texts.pop().decode(), end="")
PYTHON
