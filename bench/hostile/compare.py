#!/usr/bin/env python3
"""Compares what the program says of hostile bytes with what the model says, byte for byte.

    compare.py [PROGRAM [SEED TIMES]]     (crates/hostile_bench/out/hostile_bench, 1, 50000)

First the cases of the corpus; then so many of them spoiled by the seed's words, and as many of those that can be read. These the
program is given one by one, and then it spoils the same ones itself: the sums of all texts are compared.
"""
import os
import subprocess
import sys
import time

sys.dont_write_bytecode = True  # the repository keeps no __pycache__

import corpus
import model
import spoiling

HERE = os.path.dirname(os.path.abspath(__file__))


def lines_of(program, cases, *words):
    text = "".join(f"{kind} {data.hex()}\n" for kind, data in cases)
    ran = subprocess.run([program, *words], input=text, capture_output=True, text=True, timeout=600)
    if ran.returncode:
        sys.exit(f"the program ended with {ran.returncode}: {ran.stderr.strip()}")
    return ran.stdout.split("\n")[:-1]


def differing(program, cases):
    """The texts by the model, and the cases whose texts differ."""
    wanted = [model.told(kind, data) for kind, data in cases]
    found = lines_of(program, cases)
    if len(found) != len(wanted):
        sys.exit(f"{len(wanted)} cases and {len(found)} lines")
    return wanted, [(case, w, f) for case, w, f in zip(cases, wanted, found) if w != f]


def say(what, cases, wanted, differ, begin):
    read = sum(not text.startswith("!") for text in wanted)
    print(f"{what}: {len(cases)} cases, {read} read, {len(differ)} differ, {time.time() - begin:.0f} s")
    for (kind, data), w, f in differ[:5]:
        print(f"  {kind} {data.hex()}\n    model   {w}\n    program {f}")


def try_spoiled(program, what, cases, seed, times):
    """Spoils the cases, and answers how many texts and sums differ."""
    begin, made = time.time(), list(spoiling.spoiled(seed, times, cases))
    wanted, differ = differing(program, made)
    say(f"{what}, spoiled from {seed}", made, wanted, differ, begin)
    counts = lines_of(program, cases, str(seed), str(times))[0]
    print(f"  by the program itself: {counts}")
    return len(differ) + (f"sum {spoiling.summed(wanted):016x}," not in counts)


def main():
    words = sys.argv[1:]
    program = words[0] if words else f"{HERE}/../../crates/hostile_bench/out/hostile_bench"
    seed, times = (int(words[1]), int(words[2])) if len(words) == 3 else (1, 50_000)
    cases, begin = list(corpus.cases()), time.time()
    wanted, differ = differing(program, cases)
    say("the corpus", cases, wanted, differ, begin)
    readable = [case for case, text in zip(cases, wanted) if not text.startswith("!")]
    failed = len(differ) + try_spoiled(program, "the corpus", cases, seed, times)
    failed += try_spoiled(program, "what of it can be read", readable, seed, times)
    if failed:
        sys.exit("they differ")


if __name__ == "__main__":
    main()
