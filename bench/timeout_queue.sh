#!/bin/sh
# Nanoseconds of put, first_due and drop_key in timeout_queue, beside Rust's own pair of BTreeMaps, and their ratio.
# Proves and builds crates/parts_bench first. It wants `rt` (or RT) and `rustc`.
set -eu
cd "$(dirname "$0")/.."
work=$(mktemp -d)
trap 'rm -rf "$work"' EXIT
(cd crates/parts_bench && ${RT:-rt} run > "$work/run.log" 2>&1) || { cat "$work/run.log"; exit 1; }
rustc -O --edition 2021 -C target-cpu=x86-64-v2 -o "$work/pair" bench/timeout_queue.rs
printf '%8s  %-6s %8s %10s %9s\n' keys who put first_due drop_key
for keys in 1000 65536; do
    ours=$(crates/parts_bench/out/parts_bench timeout_queue "$keys")
    pair=$("$work/pair" "$keys")
    echo "$ours $pair" | awk '{
        printf "%8d  %-6s %8.1f %10.1f %9.1f\n", $1, "ours", $2 / 10, $3 / 10, $4 / 10
        printf "%8d  %-6s %8.1f %10.1f %9.1f\n", $5, "Rust", $6 / 10, $7 / 10, $8 / 10
        printf "%8s  %-6s %8.2f %10.2f %9.2f\n", "", "ratio", $2 / $6, $3 / $7, $4 / $8
    }'
done

# In the pattern of a channel: instructions of a put, a first_due and a drop_key together, from the difference of two runs.
instructions() {
    valgrind --tool=callgrind --callgrind-out-file=/dev/null crates/parts_bench/out/parts_bench timeout_queue "$1" "$2" \
        2>&1 >/dev/null | awk '/Collected/ { print $4 }'
}
for keys in 100 10000; do
    few=$((keys * 6))
    many=$((few + 60000))
    echo "channel, $keys keys: $((($(instructions "$keys" "$many") - $(instructions "$keys" "$few")) / 60000)) instructions a step"
done
