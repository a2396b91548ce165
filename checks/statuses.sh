#!/bin/sh
# Runs the built program once for each exit status that can be brought about from outside, and compares the statuses.
#
#     checks/statuses.sh [PROGRAM]     PROGRAM is the one that ./parbegin has built if none is given
#
# It is run by hand; its own status is 0 if all of them are as wanted, and 1 if not.
set -u
top=$(CDPATH= cd -- "$(dirname -- "$0")/.." && pwd) || exit 1
program=${1:-$top/script/tools.sh}
failed=0

# expect WANTED OUTPUT WORD..: calls the program with the words and the standard input of this call
expect() {
    wanted=$1
    output=$2
    shift 2
    "$program" "$@" >"$output"
    status=$?
    if [ "$status" -eq "$wanted" ]; then
        echo "status $status: parbegin $*"
    else
        echo "status $status in place of $wanted: parbegin $*" >&2
        failed=1
    fi
}

# a program of a thousand statements, for whose tree a kilobyte is too little
long_program() {
    echo "process p begin"
    count=0
    while [ "$count" -lt 1000 ]; do
        echo "  print $count;"
        count=$((count + 1))
    done
    echo "  skip end"
}

expect 0 /dev/null run <"$top/examples/hello.pb"
expect 0 /dev/null replay <"$top/examples/lost.run"
expect 0 /dev/null debug <"$top/examples/lost.run"
expect 0 /dev/null debug --live <"$top/examples/lost.run"
echo "process p begin" | {
    expect 1 /dev/null run
    exit "$failed"
} || failed=1
expect 2 /dev/null fly </dev/null
expect 2 /dev/null --version </dev/null
expect 9 /dev/null replay --lend cash <"$top/examples/5-deadlock/circle.run"
expect 9 /dev/null draw --lend cash <"$top/examples/5-deadlock/circle.run"
expect 0 /dev/null debug --lend cash <"$top/examples/5-deadlock/circle.run"
expect 0 /dev/null outcomes --lend cash --deadlock 1 <"$top/examples/devices.pb"
expect 0 /dev/null plan <"$top/examples/devices.pb"
expect 9 /dev/null plan --lend cash <"$top/examples/devices.pb"
expect 0 /dev/null plan --lend cash <"$top/examples/9-plan/week.pb"
expect 1 /dev/null plan --lend cash <"$top/examples/4-claims/too_much.pb"
expect 1 /dev/null outcomes --run 2 <"$top/examples/devices.pb"
expect 0 /dev/null outcomes --graph --lend cash <"$top/examples/devices.pb"
expect 3 /dev/null outcomes --graph --states 5 <"$top/examples/devices.pb"
expect 9 /dev/null record --seed 3 --lend cash <"$top/examples/devices.pb"
expect 0 /dev/null record --seed 3 <"$top/examples/devices.pb"
expect 2 /dev/null record --lend cash <"$top/examples/devices.pb"
expect 9 /dev/null outcomes --lend cash <"$top/examples/devices.pb"
expect 3 /dev/null run --steps 1 <"$top/examples/hello.pb"
expect 4 /dev/null run <"$top/examples/edges.pb"
long_program | {
    expect 5 /dev/null check --heap 1024
    exit "$failed"
} || failed=1
expect 6 /dev/full run <"$top/examples/hello.pb"
# not even two stacks of threads fit into 24 MB of addresses, so it does not matter when the first of them ends
(
    ulimit -v 24000
    expect 7 /dev/null run --workers 16 <"$top/examples/hello.pb"
    exit "$failed"
) || failed=1
expect 6 /dev/null run <"$top"
expect 0 /dev/null outcomes <"$top/examples/devices.pb"
expect 9 /dev/null outcomes --lend cash <"$top/examples/devices.pb"
expect 9 /dev/null outcomes --lend cash --first-deadlock <"$top/examples/devices.pb"
printf 'process p begin print 1 end\n%%%%\np.0 print 1\n' | {
    expect 0 /dev/null outcomes --expect
    exit "$failed"
} || failed=1
printf 'process p begin print 1 end\n%%%%\np.0 print 2\n' | {
    expect 10 /dev/null outcomes --expect
    exit "$failed"
} || failed=1
exit "$failed"
