#!/usr/bin/env bash
# compare.sh [COUNT [SEED]]: works the logs of examples/ on the program bench and on the plain model of reference/, and compares their
# replies with those that stand beside the logs; then COUNT random logs (1000), made by the seeds from SEED on (1), on both: the
# replies must be the same byte for byte. With a COUNT of 0 no Rust compiler is needed, and the examples are worked on bench alone.
# bench is the program that rt leaves in crates/bench/out.
set -euo pipefail
cd "$(dirname "$0")/.."

count=${1:-1000}
first=${2:-1}
bench=crates/bench/out/bench
if [ ! -x "$bench" ]; then
    echo "compare: $bench is not there: (cd crates/bench && rt run < stdin) builds it" >&2
    exit 1
fi

work=$(mktemp -d)
trap 'rm -rf "$work"' EXIT
workers=("$bench")
if [ "$count" -gt 0 ]; then
    rustc --edition 2021 -O -o "$work/reference" reference/src/main.rs
    workers+=("$work/reference reply")
fi

examples=0
for log in examples/*.log; do
    for worker in "${workers[@]}"; do
        $worker < "$log" > "$work/reply"
        if ! cmp -s "$work/reply" "${log%.log}.reply"; then
            echo "compare: the reply of $worker to $log is not ${log%.log}.reply" >&2
            exit 1
        fi
    done
    examples=$((examples + 1))
done

differ=0
for ((seed = first; seed < first + count; seed++)); do
    "$work/reference" generate "$seed" > "$work/log"
    "$work/reference" reply < "$work/log" > "$work/expected"
    "$bench" < "$work/log" > "$work/reply"
    if ! cmp -s "$work/expected" "$work/reply"; then
        echo "compare: bench and reference/ differ on the log of seed $seed" >&2
        differ=$((differ + 1))
    fi
done
echo "compare: $examples examples have their replies; $count random logs compared, $differ differ"
[ "$differ" -eq 0 ]
