#!/usr/bin/env bash
# Kills a program at a random moment while it appends 1,000 records to a journal in a real file, opens the journal again,
# and looks whether every record is there whose append was acknowledged, in order and whole, and at most one more.
# It is no part of the gate. Where the program cannot be built or no process be killed, it says 'skipped'.
# usage: tests/kill_journal.sh [ROUNDS]
set -u
cd "$(dirname "$0")/.." || exit 1
program=$PWD/crates/measure/out/measure
rounds=${1:-10}
records=1000
body=50
work=$(mktemp -d) || exit 1
trap 'rm -rf "$work"' EXIT
failed=0

if [ ! -x "$program" ]; then
    (cd crates/measure && rt run >/dev/null 2>&1)
fi
"$program" journal append "$work/first.db" 1 $body >/dev/null 2>&1 || { echo "skipped: the program cannot be built or run"; exit 0; }
sleep 5 &
{ kill -9 $! && ! wait $!; } 2>/dev/null || { echo "skipped: no process can be killed"; exit 0; }

for round in $(seq "$rounds"); do
    rm -f "$work/a.db"
    : >"$work/lines"
    "$program" journal append "$work/a.db" $records $body >"$work/lines" &
    child=$!
    wanted=$((RANDOM % records))
    while [ "$(wc -l <"$work/lines")" -lt $wanted ] && kill -0 $child 2>/dev/null; do
        sleep "0.00$((RANDOM % 10))"
    done
    sleep "0.00$((RANDOM % 10))"
    kill -9 $child 2>/dev/null
    wait $child 2>/dev/null
    acknowledged=$(grep -c '^appended [0-9]*$' "$work/lines")
    found=$("$program" journal check "$work/a.db" | sed -n 's/^records \([0-9]*\) .*/\1/p')
    if [ -n "$found" ] && [ "$found" -ge "$acknowledged" ] && [ "$found" -le $((acknowledged + 1)) ]; then
        echo "round $round: $acknowledged acknowledged, $found found"
    else
        echo "round $round: FAILED: $acknowledged acknowledged, found '$found'"
        failed=$((failed + 1))
    fi
done
echo "$((rounds - failed)) passed, $failed failed"
[ "$failed" -eq 0 ]
