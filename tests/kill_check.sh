#!/usr/bin/env bash
# Kills `surveyor check --db` at random moments, one to three times over one database in a real file, lets it end, and compares
# the report with that of a run without a database, byte for byte, and the length of the database with that of one whose run was
# not killed. The command may also be `alone`. It is no part of the gate. Where no process can be killed, it says 'skipped'. What
# the system has not yet written when a process is killed is not lost, so no missing sync is seen.
# usage: tests/kill_check.sh [ROUNDS [FUNCTIONS [COMMAND]]]
set -u
cd "$(dirname "$0")/.." || exit 1
top=$PWD
rounds=${1:-10}
functions=${2:-200}
command=${3:-check}
work=$(mktemp -d) || exit 1
trap 'rm -rf "$work"' EXIT
failed=0
killed=0

sleep 5 &
{ kill -9 $! && ! wait $!; } 2>/dev/null || { echo "skipped: no process can be killed"; exit 0; }

# a source of so many functions, each with a loop over an array of its own
{
    for k in $(seq "$functions"); do
        printf 'static int b%d[%d];\nint f%d(int n){\n int i;\n for(i=0;i<%d;i++) b%d[i]=n+i;\n return b%d[%d];\n}\n' \
            "$k" $((k % 29 + 2)) "$k" $((k % 29 + 2)) "$k" "$k" $((k % 31))
    done
    printf 'int main(void){\n int r=0;\n'
    for k in $(seq "$functions"); do printf ' r=f%d(r&255);\n' "$k"; done
    printf ' return 0;\n}\n'
} >"$work/t.c"

cd "$work" || exit 1
"$top/surveyor" alone t.c >wanted.txt
wanted=$?
begun=$(date +%s%N)
"$top/surveyor" "$command" --db whole.db t.c >out.txt
whole=$(($(date +%s%N) - begun))
cmp -s out.txt wanted.txt || { echo "FAILED: a run that was not killed"; exit 1; }

for round in $(seq "$rounds"); do
    rm -f a.db
    sizes=
    for _ in $(seq $((RANDOM % 3 + 1))); do
        "$top/surveyor" "$command" --db a.db t.c >out.txt 2>err.txt &
        child=$!
        sleep "$(awk -v r=$RANDOM -v w="$whole" 'BEGIN { printf "%.4f", r / 32768 * w / 1e9 }')"
        if kill -9 $child 2>/dev/null; then killed=$((killed + 1)); fi
        wait $child 2>/dev/null
        sizes="$sizes $(wc -c <a.db 2>/dev/null || echo 0)"
    done
    "$top/surveyor" "$command" --db a.db t.c >out.txt 2>err.txt
    status=$?
    if [ $status -eq $wanted ] && cmp -s out.txt wanted.txt && [ "$(wc -c <a.db)" -eq "$(wc -c <whole.db)" ]; then
        echo "round $round: killed at$sizes bytes, and the report is whole"
    else
        echo "round $round: FAILED: killed at$sizes bytes, then status $status: $(cat err.txt)"
        failed=$((failed + 1))
    fi
done
echo "$((rounds - failed)) passed, $failed failed; $killed were killed before they ended"
[ "$failed" -eq 0 ]
