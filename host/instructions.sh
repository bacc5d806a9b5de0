#!/bin/sh
# How many instructions a verdict takes, the checker's beside the event-driven
# one in C: a number that no load of the machine changes. Needs valgrind, and
# an x86-64 machine.
#
#     host/instructions.sh
#
# BENCH  the program to count in (build/bench beside this script if not given)
set -eu

here=$(cd "$(dirname "$0")" && pwd)
bench=${BENCH:-$here/build/bench}

command -v valgrind >/dev/null || {
    echo "host/instructions.sh: valgrind is missing: install the Debian package valgrind" >&2
    exit 1
}

# instructions FUNCTION NUMBER: those of one call of the function, of the bench's table NUMBER.
instructions() {
    valgrind --tool=callgrind --callgrind-out-file=/dev/null --toggle-collect="$1" \
        "$bench" --once "$2" 2>&1 >/dev/null | sed -n 's/.*Collected : //p'
}

printf '%-31s %12s %12s %8s\n' table checker by-event ratio
number=1
while name=$("$bench" --once "$number"); do
    checker=$(instructions otter_verdict "$number")
    event=$(instructions event_verdict "$number")
    echo "$name" "$checker" "$event" |
        awk '{
            checker = $(NF - 1); event = $NF; NF -= 2
            printf "%-31s %12d %12d %8.2f\n", $0, checker, event, checker / event
        }'
    number=$((number + 1))
done
