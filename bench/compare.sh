#!/usr/bin/env bash
# Times the proved program in whole runs, beside another program where one is named, and tells how the times grow.
#
#     bench/compare.sh [--runs N] [OTHER]
#
# OTHER is a program with the same words, say one without a proof. For each case stand the median of N runs (5 where none is
# given) of the processor time, user and system, with the start of the program in it, the most memory that a run held, and,
# where there is another program, what the proved one takes for each unit of the other, and whether both print the same bytes.
# Output goes to a file that is not kept. Behind the cases stand exponents: times over sizes of 1, 2, 4 and 8, the time of an
# empty run taken off.
set -eu

root="$(dirname "$(dirname "$(readlink -f "${BASH_SOURCE[0]}")")")"

# The program is built where it is missing or older than its sources. Called without words it only ends with status 3.
status=0
"$root/clockrun" 2>/dev/null || status=$?
[ "$status" -eq 3 ] || { echo "bench: the program was not built; ./clockrun says why" >&2; exit 1; }

exec "$root/bench/compare.py" "$root/crates/clockrun/out/clockrun" "$@"
