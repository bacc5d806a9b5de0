#!/usr/bin/env bash
# Tries ./tablecheck as somebody does who calls it for the first time: where the table may come from, what is said when something
# fails, and what is shown while it proves. TABLECHECK names another script to try, which has to stand at a repository's top.
# Prints a line for each failed case, and "N passed, M failed".
#
# Commands are given as they would be typed, with $tablecheck for the script, and run in a directory of their own.
# shellcheck disable=SC2016
set -u
export LC_ALL=C # some messages are those of the utilities
tablecheck=$(readlink -f "${TABLECHECK:-$(dirname "$0")/../tablecheck}")
top=$(dirname "$tablecheck")
trial=$(mktemp -d)
trap 'rm -rf "$trial"' EXIT
cd "$trial" || exit 1
mine=$trial/mine.csv
export tablecheck trial mine

run() { # COMMAND
    timeout 60 bash -c "$1" >out 2>err </dev/null
    status=$?
}

passed=0 failed=0
holds() { # WHAT CONDITION: of the status, the output (out) and the messages (err) of the last command
    if eval "$2"; then
        passed=$((passed + 1))
    else
        failed=$((failed + 1))
        echo "failed: $1 (status $status, output '$(head -c 80 out | tr '\n\0' ';.')', messages '$(head -c 300 err | tr '\n' ';')')"
    fi
}

prints() { # FILE WHAT COMMAND
    run "$3"
    holds "$2" '[ $status = 0 ] && cmp -s out '"$1"' && [ ! -s err ]'
}

fails() { # WORDS WHAT COMMAND
    run "$3"
    holds "$2" '[ $status != 0 ] && [ $status != 124 ] && [ ! -s out ] && grep -q "'"$1"'" err' # 124: it did not end
}

at_terminal() { # WHAT COMMAND CONDITION
    if script -qec true /dev/null >/dev/null 2>&1 </dev/null; then
        run "script -qec '$2' /dev/null"
        holds "$1 at a terminal" "$3"
    else
        echo "skipped: $1 at a terminal (the command script is missing or fails)"
    fi
}

four_times() { # REPLY
    for policy in 1 2 3 4; do echo "$policy $1"; done
}

# not the example: one task is always on time, which is known after its offset and its period
printf '%s\r\n' id,offset,wcet,deadline,period,start,resume,priority 7,2,1,3,3,0,0,2 >mine.csv
four_times 'accepted 5 0' >on-time
four_times 'refused 4 1' >first-line
four_times 'refused 3 0' >too-long
cp "$top/crates/tablecheck/stdout" example

"$tablecheck" "$top/host/example.csv" >/dev/null || exit 1 # it is proved now, if it was not
prints example 'the example' '"$tablecheck" "$(dirname "$tablecheck")/host/example.csv"'

# where the table comes from
mkdir folder
cp mine.csv 'my table.csv'
cp mine.csv ./-x.csv
ln -s "$tablecheck" link
ln -s ../link folder/link
prints on-time 'standard input, redirected' '"$tablecheck" <mine.csv'
prints on-time 'standard input, a pipe' 'cat mine.csv | "$tablecheck"'
prints on-time 'standard input, a slow pipe' '{ head -c 70 mine.csv; sleep 1; tail -c +71 mine.csv; } | "$tablecheck"'
prints on-time 'standard input, named -' '"$tablecheck" - <mine.csv'
prints on-time 'a file of this directory' '"$tablecheck" mine.csv'
prints on-time 'a file of another directory' 'cd folder && "$tablecheck" ../mine.csv'
prints on-time 'an absolute path' '"$tablecheck" "$mine"'
prints on-time 'called by a relative path' 'cd "$(dirname "$tablecheck")/host" && ../"$(basename "$tablecheck")" "$mine"'
prints on-time 'called through a link' './link mine.csv'
prints on-time 'called through a link to a link' 'cd folder && ./link ../mine.csv'
prints on-time 'a name with a space' '"$tablecheck" "my table.csv"'
prints on-time 'a name that begins with -' '"$tablecheck" ./-x.csv'
prints on-time 'a file while standard input is closed' '"$tablecheck" "$mine" <&-'
at_terminal 'the example' '"$tablecheck" >printed 2>said' 'cmp -s printed example && grep -q host/example.csv said'

# what is refused, and no failure
prints first-line 'an empty text' '"$tablecheck" </dev/null'
prints first-line 'lines that end in LF' 'tr -d "\r" <mine.csv | "$tablecheck"'
prints too-long 'an endless file' '"$tablecheck" /dev/zero'
prints too-long 'an endless pipe' 'yes 2>/dev/null | "$tablecheck"'

# what fails
touch unreadable.csv
chmod 000 unreadable.csv
fails folder 'a directory' '"$tablecheck" folder'
fails nowhere.csv 'a missing file' '"$tablecheck" nowhere.csv'
if [ -r unreadable.csv ]; then
    echo 'skipped: an unreadable file (this user reads every file)'
else
    fails unreadable.csv 'an unreadable file' '"$tablecheck" unreadable.csv'
fi
fails 'standard input' 'closed input' '"$tablecheck" <&-'
fails 'standard input' 'a directory as input' '"$tablecheck" <folder'
fails 'standard output' 'closed output' '"$tablecheck" "$mine" >&-'
fails 'standard output' 'closed input and output' '"$tablecheck" <&- >&-'
fails 'standard output' 'a full output' '"$tablecheck" "$mine" >/dev/full'
fails usage 'two files' '"$tablecheck" "$mine" "$mine"'
holds 'two files: status 2' '[ $status = 2 ]'
for option in -h --help; do
    run "\"\$tablecheck\" $option"
    holds "$option" '[ $status = 0 ] && grep -q usage out && [ ! -s err ]'
done

# What is shown while it proves, and when it proves: in a repository of three crates, and one that the program does not rest on,
# with an rt that only pretends. Like the real one it proves the crate of the folder that it is in, those below it first, and builds
# the program before it is done.
mkdir -p bin small/host small/crates/{base,middle,tablecheck,beside}/src
touch small/crates/{base,middle,tablecheck,beside}/src/lib.rt
printf '%s\n' '# crates' base: 'middle: base io' 'tablecheck: middle' 'beside: base' >small/crates.txt
cp "$top/host/toolchain.sh" "$top/host/example.csv" small/host
cp "$tablecheck" small/tablecheck
cat >bin/rt <<'END'
#!/bin/sh
[ "$1" = run ] || exec "$real_rt" "$@"
echo "$@" >>"$trial/calls"
[ -d src ] && [ "$(basename "$PWD")" = tablecheck ] || exit 1
for crate in base middle tablecheck; do
    echo "rt: chose --jobs 2 for $crate"
    sleep "${seconds_each:-0}"
    yes "fn $crate::f: proved" | head -n 70
    mkdir -p "../$crate/out"
    echo 'logic=proved functions=70'
done
cp "$built" out/tablecheck
case ${ending:-} in
failure) echo 'main.rt:1:1: error: it pretends to fail' && exit 1 ;;
edit) touch ../base/src/lib.rt ;;
late) touch "$trial/nearly-done" && sleep 4 && touch "$trial/went-on" & wait ;;
esac
END
chmod +x bin/rt
real_rt=$(command -v rt) built=$top/crates/tablecheck/out/tablecheck
export real_rt built PATH="$trial/bin:$PATH"

proves() { # WHAT: the last command had rt prove, once, and replied
    holds "$1: it is proved" '[ "$(wc -l <calls)" = 1 ] && cmp -s out on-time'
    : >calls
}

proves_after() { # WHAT COMMAND
    run "$2"
    : >calls
    run 'small/tablecheck "$mine"'
    proves "$1"
}

: >calls
run 'small/tablecheck nowhere.csv || small/tablecheck "$mine" >&-'
holds 'a missing file and a closed output are found before anything is proved' '[ $status != 0 ] && [ ! -s calls ]'
run ': >calls; rm -rf small/target small/crates/*/out; seconds_each=3 small/tablecheck "$mine"'
holds 'nothing proved yet: some minutes' 'grep -q "some minutes" err'
holds 'which crate, and how many of how many' 'grep -q "1 of 3 .*middle" err'
holds 'about one line for a crate' '[ "$(wc -l <err)" -le 5 ]'
holds 'the log is kept' 'grep -qs "fn tablecheck::f: proved" small/target/tablecheck.log'
proves 'nothing proved yet'
prints on-time 'up to date: nothing is said' 'small/tablecheck "$mine"'
holds 'up to date: nothing is proved' '[ ! -s calls ]'
proves_after 'a source changed' 'touch small/crates/middle/src/lib.rt'
holds 'a source changed: that is said, and no minutes' 'grep -q "proved again" err && ! grep -q minutes err'
touch small/crates/middle/src/lib.rt
at_terminal 'one line that changes' 'seconds_each=3 small/tablecheck "$mine"' 'grep -q "^.\[A.* of 3 crates" out'
proves_after 'a source was removed' 'rm small/crates/beside/src/lib.rt'
change='touch small/crates/base/src/lib.rt; '
proves_after 'a source changed while it was proved' "$change"'ending=edit small/tablecheck "$mine"'
fails error 'a check that fails' "$change"'ending=failure small/tablecheck "$mine"'
holds 'a check that fails: the log is named' 'grep -q target/tablecheck.log err'
proves_after 'a check failed' "$change"'ending=failure small/tablecheck "$mine"'
proves_after 'a check was interrupted' \
    "$change"'ending=late small/tablecheck "$mine" & until [ -e nearly-done ]; do sleep 0.1; done; kill $!; wait'
sleep 4
holds 'an interrupted check does not go on' '[ ! -e went-on ]'
proves_after 'the program was removed' 'rm small/crates/tablecheck/out/tablecheck'
echo "program() { cat; }" >>small/host/toolchain.sh
fails 'four lines' 'a program that prints other lines' 'small/tablecheck "$mine"'

echo "$passed passed, $failed failed"
[ "$failed" = 0 ]
