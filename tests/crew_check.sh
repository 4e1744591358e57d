#!/usr/bin/env bash
# Runs `surveyor check` with 1 to 64 workers, several runs side by side, and compares each report with that of one thread,
# byte for byte. It is no part of the gate.
# usage: tests/crew_check.sh [RUNS [FUNCTIONS [SIDE_BY_SIDE]]]
set -u
cd "$(dirname "$0")/.." || exit 1
top=$PWD
runs=${1:-500}
functions=${2:-60}
side=${3:-8}
work=$(mktemp -d) || exit 1
trap 'rm -rf "$work"' EXIT

# a source of so many functions, each with a loop over an array of its own, of which some call the first one
{
    printf 'int f1(int n);\n'
    for k in $(seq "$functions"); do
        printf 'static int b%d[%d];\n' "$k" $((k % 29 + 2))
        if [ $((k % 7)) -eq 0 ]; then call="if(n>0) f1(n-1);"; else call=""; fi
        printf 'int f%d(int n){\n int i;\n for(i=0;i<%d;i++) b%d[i]=n+i;\n %s\n return b%d[%d];\n}\n' \
            "$k" $((k % 29 + 2)) "$k" "$call" "$k" $((k % 31))
    done
    printf 'int main(void){\n int r=0;\n'
    for k in $(seq "$functions"); do printf ' r=f%d(r&255);\n' "$k"; done
    printf ' return 0;\n}\n'
} >"$work/t.c"

cd "$work" || exit 1
"$top/surveyor" alone t.c >wanted.txt
wanted=$?
[ "$wanted" -le 1 ] || { echo "FAILED: the run on one thread has status $wanted"; exit 1; }

# one NUMBER: a run with a number of workers that depends on it. It writes a line where the report or status differs.
one() {
    local workers=$(($1 % 64 + 1))
    "$top/surveyor" check --workers "$workers" t.c >"out.$1" 2>"err.$1"
    local status=$?
    if [ "$status" -ne "$wanted" ] || ! cmp -s "out.$1" wanted.txt; then
        echo "run $1 with $workers workers: FAILED: status $status: $(cat "err.$1")" >>failed.txt
    fi
    rm -f "out.$1" "err.$1"
}

: >failed.txt
for run in $(seq "$runs"); do
    while [ "$(jobs -rp | wc -l)" -ge "$side" ]; do wait -n; done
    one "$run" &
done
wait
cat failed.txt
failed=$(wc -l <failed.txt)
echo "$((runs - failed)) passed, $failed failed"
[ "$failed" -eq 0 ]
