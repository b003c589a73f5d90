#!/usr/bin/env bash
# Tries the wrong bodies that the gate leaves out: bench/wrong_bodies.sh [NAME ..]
# A trial proves its crate anew first, so a crate that takes more than some 70 processor seconds has its wrong bodies in crates/NAME/wrong-bodies/, which the gate doesn't read.
# Here they stand for must-fail/ as long as the trial lasts. No NAME: all of them. Each must be refused; the status is 0 where each is.
cd "$(dirname "$0")/.." || exit 1
names=("$@")
if [ ${#names[@]} -eq 0 ]; then
    for it in crates/*/wrong-bodies; do
        it=${it%/wrong-bodies}
        names+=("${it#crates/}")
    done
fi
status=0
for name in "${names[@]}"; do
    if [ ! -d "crates/$name/wrong-bodies" ] || [ -e "crates/$name/must-fail" ]; then
        echo "wrong_bodies: crates/$name has no wrong-bodies/, or has must-fail/ beside it" >&2
        exit 2
    fi
    trap 'rm -f "crates/$name/must-fail"' EXIT
    trap 'exit 1' INT TERM
    ln -s wrong-bodies "crates/$name/must-fail"
    rt must-fail "$name" || status=1
    rm -f "crates/$name/must-fail"
done
exit $status
