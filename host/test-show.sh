#!/bin/sh
# Tests host/show.c: what it prints of tables, and how it ends where it cannot
# read or write. Prints a line for each failed case and ends in "N passed, M
# failed".
#
#     host/test-show.sh
#
# SHOW  the program to test (build/show beside this script if not given)
#
# shown/NAME.txt is what shown/NAME.csv has to print. To add a case, add both.
# The prints were made with reference.c in place of the checker, which prints
# the same.
set -u

here=$(cd "$(dirname "$0")" && pwd)
shown=$here/shown
show=${SHOW:-$here/build/show}
passed=0 failed=0

# On another machine the program is x86-64 code too, see host/build.sh.
if [ "$(uname -m)" = x86_64 ]; then
    host_program() { "$@"; }
else
    . "$here/toolchain.sh"
fi

if [ ! -x "$show" ]; then
    echo "host/test-show.sh: no program $show: build it with host/build.sh" >&2
    exit 1
fi
scratch=$(mktemp -d)
trap 'rm -rf "$scratch"' EXIT

# run OUTPUT [ARGUMENT ..]: standard output goes to OUTPUT; keeps the messages
# and the status.
run() {
    output=$1
    shift
    status=0
    host_program "$show" "$@" >"$output" 2>"$scratch/errors" || status=$?
}

# judge CASE FAULT: the case has failed if a fault is named.
judge() {
    if [ -z "$2" ]; then
        passed=$((passed + 1))
    else
        failed=$((failed + 1))
        echo "failed: $1: $2"
    fi
}

# prints EXPECTED CASE [ARGUMENT ..]: prints what the file EXPECTED holds and
# no message. A refused table ends with status 1, any other with 0.
prints() {
    expected=$1 name=$2 fault=''
    shift 2
    run "$scratch/print" "$@"
    if grep -q '^refused: ' "$expected"; then wanted=1; else wanted=0; fi
    cmp -s "$expected" "$scratch/print" || fault="the print differs from ${expected##*/}"
    [ ! -s "$scratch/errors" ] || fault="there is a message: $(head -n 1 "$scratch/errors")"
    [ "$status" = "$wanted" ] || fault="status $status, not $wanted"
    judge "$name" "$fault"
}

# complains MESSAGE OUTPUT CASE [ARGUMENT ..]: ends with status 1, a message
# that holds MESSAGE, and an empty OUTPUT.
complains() {
    message=$1 output=$2 name=$3 fault=''
    shift 3
    run "$output" "$@"
    [ ! -s "$output" ] || fault="something is printed"
    grep -q -e "$message" "$scratch/errors" || fault="no message with: $message"
    [ "$status" = 1 ] || fault="status $status, not 1"
    judge "$name" "$fault"
}

for table in "$shown"/*.csv; do
    prints "${table%.csv}.txt" "$(basename "$table")" "$table"
done

prints "$shown/example.txt" "the example" "$here/example.csv"
prints "$shown/example.txt" "the example from standard input" - <"$here/example.csv"
prints "$shown/asked-again.txt" "undecided, then missed or accepted" \
    --allowance 2 "$shown/late-miss.csv"
prints "$shown/late-miss.txt" "an allowance that just suffices" \
    --allowance 3179 "$shown/late-miss.csv"

head -c 4097 /dev/zero >"$scratch/4097-bytes"
echo 'refused: the text is over 4,096 bytes' >"$scratch/too-long"
prints "$scratch/too-long" "4,097 bytes" "$scratch/4097-bytes"
head -c 4096 /dev/zero >"$scratch/4096-bytes"
echo 'refused: a line is ill-formed (line 1)' >"$scratch/ill-formed"
prints "$scratch/ill-formed" "4,096 bytes" "$scratch/4096-bytes"

print=$scratch/print
complains "$scratch: Is a directory" "$print" "a directory" "$scratch"
complains '-: Is a directory' "$print" "a directory as standard input" - <"$scratch"
complains 'missing.csv: No such file' "$print" "a missing file" "$scratch/missing.csv"
complains 'written' /dev/full "an accepted table to a full device" "$here/example.csv"
complains 'written' /dev/full "a refused table to a full device" "$shown/empty.csv"
complains 'usage: ' "$print" "no argument"
complains 'usage: ' "$print" "two tables" "$here/example.csv" "$here/example.csv"
complains 'usage: ' "$print" "an unknown option" --help
complains 'usage: ' "$print" "an allowance without a table" --allowance 10
for allowance in 0 -1 '' 10x 281474976710657 99999999999999999999; do
    complains 'usage: ' "$print" "allowance '$allowance'" --allowance "$allowance" "$here/example.csv"
done

echo "$passed passed, $failed failed"
[ "$failed" = 0 ]
