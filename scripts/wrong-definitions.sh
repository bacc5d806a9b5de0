#!/bin/sh
# Wrong versions of the rules' own definitions, which the crates above must refuse.
#
#     scripts/wrong-definitions.sh [LABEL ..]
#
# rt must-fail tries an edit on its own crate, and rules has no law that could
# fail. So each edit of crates/rules/wrong-definitions is made here in a copy of
# rules, basics, reordering and theory, and one of these has to be refused: a
# law that leans on the definition, or the tables worked by hand, which are
# computed in any case. The first law that fails is printed, and whether the
# tables come out wrong. Ends in "N passed, M failed".
set -eu

top=$(cd "$(dirname "$0")/.." && pwd)
copy=$(mktemp -d)
trap 'rm -rf "$copy"' EXIT

git init -q "$copy"
mkdir "$copy/crates"
for crate in rules basics reordering theory; do
    (cd "$top" && tar -c --exclude=out "crates/$crate") | tar -x -C "$copy"
    grep "^$crate:" "$top/crates.txt"
done >"$copy/crates.txt"

# The text after "KEY: " in an edit.
part() {
    sed -n "s/^$1: //p" "$2"
}

# Makes the edit in the copy. The old text has to stand there once.
edit() {
    OLD=$(part old "$1") NEW=$(part new "$1") awk '
        { text = text $0 "\n" }
        END {
            old = ENVIRON["OLD"]
            at = index(text, old)
            rest = substr(text, at + length(old))
            if (!at || index(rest, old)) exit 1
            printf "%s%s%s", substr(text, 1, at - 1), ENVIRON["NEW"], rest
        }' "$top/crates/rules/$2" >"$copy/crates/rules/$2"
}

try() {
    label=$(basename "$1" .edit)
    file=$(part file "$1")
    log=$copy/$label.log
    if ! edit "$1" "$file"; then
        cp "$top/crates/rules/$file" "$copy/crates/rules/$file"
        echo "$label: BAD EDIT: its old text is not there once"
        return 1
    fi
    status=0
    (cd "$copy/crates/theory" && rt check) >"$log" 2>&1 || status=$?
    cp "$top/crates/rules/$file" "$copy/crates/rules/$file"
    first=$(grep -m 1 ': error: ' "$log" | sed "s|$copy/||" | cut -c 1-120)
    if [ "$status" -eq 1 ] && [ -n "$first" ]; then
        echo "$label: refused: $first"
        if grep 'WorkedTables.antt.*: error: .computed' "$log" | grep -qv 'not admitted'; then
            echo "    and tables worked by hand come out wrong"
        fi
        return 0
    fi
    echo "$label: NOT REFUSED (exit $status)"
    return 1
}

passed=0 failed=0
[ $# -gt 0 ] || set -- "$top"/crates/rules/wrong-definitions/*.edit
for name in "$@"; do
    edit=$top/crates/rules/wrong-definitions/$(basename "$name" .edit).edit
    if try "$edit"; then passed=$((passed + 1)); else failed=$((failed + 1)); fi
done
echo "$passed passed, $failed failed"
[ "$failed" -eq 0 ]
