#!/usr/bin/env bash
# Has each read and write of whole calls fail in turn, and sees what the program answers; then lets it write to outputs of
# the machine that take nothing.
#
#     bench/devices.sh [PROGRAM]
#
# PROGRAM is that of ./clockrun where none is given, which is then built first where need be. A read that fails must end
# with status 4 and name its file, a write that fails with status 5, a prefix of the right out and nothing on err; a read
# or write that moves one byte and a thread that is not started change nothing. No call may hang. The last line is 'N passed, M failed', and the status is 1
# where something failed. A C compiler, cc, is needed.
set -eu

here="$(dirname "$(readlink -f "${BASH_SOURCE[0]}")")"
root="$(dirname "$here")"
scratch="$(mktemp -d)"
trap 'rm -rf "$scratch"' EXIT

if [ $# -gt 0 ]; then
    program="$(readlink -f "$1")"
else
    program="$root/crates/clockrun/out/clockrun"
    # Called without words the script builds the program where it is old, and the program ends with status 3.
    "$root/clockrun" 2>/dev/null || [ $? -eq 3 ]
fi
cc -O1 -shared -fPIC -o "$scratch/refuse.so" "$here/refuse.c" -ldl

# The controller of three rates, once more with blanks behind it; a counter of 20,001 rows, which takes many writes; one
# that overflows at the last of them; a sum that overflows; a model that is refused; and one of two counters.
cp "$root"/examples/{three_rates/loop.mo,three_rates/level.csv,overflow/integrator.mo} "$scratch/"
three_rates="$root/examples/three_rates/out"
overflow="$root/examples/overflow"
cd "$scratch"
{ cat loop.mo && head -c 50000 /dev/zero | tr '\0' ' '; } >long.mo
clause='equation when Clock(1) then x = previous(x) + 1; end when; end Rows;'
echo "model Rows Integer x; $clause" >rows.mo
echo "model Rows Integer x(start = 9223372036854755807); $clause" >faulty.mo
echo 'model Bad Integer x; equation x = z; end Bad;' >bad.mo
{
    echo 'model Two Integer p; Integer q; equation when Clock(1) then p = previous(p) + 1; end when;'
    echo 'when Clock(1) then q = previous(q) + 2; end when; end Two;'
} >two.mo
{ echo 'time,p,q' && seq 0 20 | awk '{ print $1 "," $1 + 1 "," 2 * $1 + 2 }'; } >two.out
{ echo 'time,x' && seq 0 20000 | awk '{ print $1 "," $1 + 1 }'; } >rows.out
{ echo 'time,x' && seq 0 19999 | awk '{ print $1 ",92233720368547" 55808 + $1 }'; } >faulty.out
echo 'fault too-large at 20000 in equation 1' >faulty.err
echo 'refused N3 at 1:35' >bad.err
echo 'usage: words' >usage.err
: >nothing
mkdir folder
exec 3< <(cat loop.mo)

passed=0
failed=0

# Counts a call, with what is wrong about it or nothing.
count() {
    if [ -z "$2" ]; then
        passed=$((passed + 1))
    else
        failed=$((failed + 1))
        printf 'FAILED %s: %s\n' "$1" "$2"
    fi
}

# The call that is looked at, and the status, out and err that it has where nothing is refused.
words=()
answer=(0 nothing nothing)

# Runs the call with such requests refused.
run() {
    status=0
    timeout 60 env REFUSE="$1" REFUSE_COUNT=requests LD_PRELOAD=./refuse.so "$program" "${words[@]}" >out 2>err </dev/null || status=$?
}

# What is wrong where the status, out and err are to be these.
differs() {
    if [ "$status" -ne "$1" ]; then
        echo "status $status and not $1"
    elif ! cmp -s out "$2"; then
        echo "out is not that of $2"
    elif ! cmp -s err "$3"; then
        echo "err is: $(cat err)"
    fi
}

# What is wrong where a write was to fail: out and err are prefixes of the right texts, and err is empty unless out is whole.
torn() {
    local size
    size="$(stat -c %s out)"
    if [ "$status" -ne 5 ]; then
        echo "status $status and not 5"
    elif ! cmp -s -n "$size" out "${answer[1]}" || [ "$size" -gt "$(stat -c %s "${answer[1]}")" ]; then
        echo "out is no prefix of ${answer[1]}"
    elif [ -s err ]; then
        echo "err is: $(cat err)"
    fi
}

# How many requests of a kind the call has.
total() {
    run "$1:0"
    count "${words[*]}" "$(differs "${answer[@]}")"
    number="$(cat requests)"
}

# Each of the call's writes fails in turn, alone and with all behind it.
each_write() {
    local it number
    total write
    for ((it = 1; it <= number; it++)); do
        for from in "$it" "$it.."; do
            run "write:$from"
            count "write $from of ${words[*]}" "$(torn)"
        done
    done
    echo "$number writes of ${words[*]}"
}

# Each of the call's requests of a kind that changes nothing is refused in turn, alone and with all behind it.
each_harmless() {
    local it number
    total "$1"
    for ((it = 1; it <= number; it++)); do
        for from in "$it" "$it.."; do
            run "$1:$from"
            count "$1 $from of ${words[*]}" "$(differs "${answer[@]}")"
        done
    done
    echo "$number requests of the kind $1 of ${words[*]}"
}

# Each of the call's reads fails in turn. The first so many are of the first file, and the others of the second.
each_read() {
    local it number name="$2"
    total read
    for ((it = 1; it <= number; it++)); do
        [ "$it" -le "$1" ] || name="$3"
        echo "read fault: $name" >wanted
        for from in "$it" "$it.."; do
            run "read:$from"
            count "read $from of ${words[*]}" "$(differs 4 nothing wanted)"
        done
    done
    echo "$number reads of ${words[*]}"
}

# A read asks for 16,384 bytes: two reads of a short file, of which the last finds its end, and five of one of 50,000 and more.
for workers in 1 4; do
    words=(loop.mo --table level.csv --stop 0.02 --workers "$workers")
    answer=(0 "$three_rates" nothing)
    each_read 2 loop.mo level.csv
    each_write
    each_harmless part
done
words=(long.mo --table level.csv --stop 0.02)
each_read 5 long.mo level.csv
words=(rows.mo --stop 20000)
answer=(0 rows.out nothing)
each_write
each_harmless part
words=(faulty.mo --stop 20000)
answer=(2 faulty.out faulty.err)
each_write
each_harmless part
words=(integrator.mo --stop 20000)
answer=(2 "$overflow/out" "$overflow/err")
each_write
each_harmless part
words=(bad.mo --stop 1)
answer=(1 nothing bad.err)
each_write
each_harmless part
words=(bad.mo)
answer=(3 nothing usage.err)
each_write
each_harmless part

# Two base partitions, which are stepped side by side.
words=(two.mo --stop 20 --workers 4)
answer=(0 two.out nothing)
each_harmless thread

# Names of which the machine gives no file, as MODEL and as FILE. The last is a pipe.
for name in missing folder /dev/fd/3; do
    echo "read fault: $name" >wanted
    for words in "$name" "loop.mo --table $name"; do
        read -r -a words <<<"$words --stop 1"
        run read:0
        count "${words[*]}" "$(differs 4 nothing wanted)"
    done
done

# Runs the program itself.
plainly() {
    status=0
    timeout 60 "$program" "$@" </dev/null || status=$?
}

# Outputs of the machine that take nothing. Where nothing is said there, the answer is as ever.
cp nothing out
for model in rows.mo faulty.mo integrator.mo; do
    plainly "$model" --stop 20000 >/dev/full 2>err
    count "$model with a full out" "$(differs 5 nothing nothing)"
    plainly "$model" --stop 20000 >&- 2>err
    count "$model with a closed out" "$(differs 5 nothing nothing)"
done
plainly bad.mo --stop 1 >&- 2>err
count 'a refusal with a closed out' "$(differs 1 nothing bad.err)"
cp nothing err
plainly faulty.mo --stop 20000 >out 2>/dev/full
count 'a fault with a full err' "$(differs 5 faulty.out nothing)"
plainly faulty.mo --stop 20000 >out 2>&-
count 'a fault with a closed err' "$(differs 5 faulty.out nothing)"
plainly bad.mo --stop 1 >out 2>&-
count 'a refusal with a closed err' "$(differs 5 nothing nothing)"
plainly bad.mo >out 2>/dev/full
count 'wrong words with a full err' "$(differs 5 nothing nothing)"
plainly rows.mo --stop 20000 >out 2>&-
count 'a run with a closed err' "$(differs 0 rows.out nothing)"

# A reader that ends early, of more rows than a pipe holds.
echo 'time,x' >wanted
for model in rows.mo faulty.mo; do
    set +e
    timeout 60 "$program" "$model" --stop 20000 2>err </dev/null | head -n 1 >out
    status="${PIPESTATUS[0]}"
    set -e
    count "$model with a reader that ends early" "$(differs 5 wanted nothing)"
done

echo "$passed passed, $failed failed"
[ "$failed" -eq 0 ]
