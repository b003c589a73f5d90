#!/usr/bin/env python3
"""Runs the gate, and writes what it cost by crate into docs/GATE.md: processor seconds of the prover and the compilers.

A process counts for the crate that its command line names. What it does is told by its command and its folder: it proves
the library, proves or builds the tests, proves or builds the program, or tries an edit that has to be refused. Times are
looked at five times a second, so that the last fifth of a second of each process is lost.

What is kept from an earlier run isn't proved again and costs nothing, so a page of the whole gate wants a machine where
nothing is kept. Where the gate was run in parts, --times FILE joins them, and --join joins this one with the page that
stands: what an earlier part took stays where this one did not do it again. On SIGTERM the gate is ended, and what was
measured is written all the same.

Usage: python3 bench/gate.py [--into FILE] [--times FILE] [--join] [COMMAND ..]     (without a command: rt ci)
"""
import json
import os
import re
import signal
import subprocess
import sys
import threading
import time

ROOT = os.path.join(os.path.dirname(os.path.abspath(__file__)), "..")
TICKS = os.sysconf("SC_CLK_TCK")
KINDS = ["library", "tests", "program", "edits"]
PROVERS = {"rattle", "rattle-link", "clang", "clang-14", "ld.lld", "lld"}


def read(path):
    try:
        with open(path, "rb") as file:
            return file.read().decode(errors="replace")
    except OSError:
        return ""


def stat_of(pid):
    """A process's name, its parent, when it began, and its processor seconds."""
    text = read(f"/proc/{pid}/stat")
    if ")" not in text:
        return None
    name, rest = text[text.index("(") + 1 : text.rindex(")")], text[text.rindex(")") + 2 :].split()
    return name, int(rest[1]), int(rest[19]), (int(rest[11]) + int(rest[12])) / TICKS


def work_of(pid):
    """What a process works on: a crate, and what it does there."""
    words = read(f"/proc/{pid}/cmdline").split("\0")
    try:
        folder = os.readlink(f"/proc/{pid}/cwd")
    except OSError:
        folder = ""
    if "--crate-name" in words:
        crate = words[words.index("--crate-name") + 1]
    else:
        found = re.search(r"/crates/(\w+)", folder)
        crate = found.group(1) if found else None
    if crate is None:
        return None
    if "rt-edit-" in folder or "rt-seed-" in folder:
        return crate, "edits"
    if "--test" in words or any(f"{crate}_tests" in word for word in words):
        return crate, "tests"
    program = os.path.isfile(os.path.join(ROOT, "crates", crate, "src", "main.rt"))
    return crate, "program" if program else "library"


class Meter(threading.Thread):
    """Adds up the processor seconds of a process's descendants."""

    def __init__(self, top):
        super().__init__(daemon=True)
        self.top, self.seen, self.works, self.is_over = top, {}, {}, False

    def look(self):
        stats = {int(pid): stat_of(pid) for pid in os.listdir("/proc") if pid.isdigit()}
        stats = {pid: stat for pid, stat in stats.items() if stat}
        for pid, (name, parent, begun, seconds) in stats.items():
            if name not in PROVERS:
                continue
            above, steps = parent, 0
            while above not in (self.top, 0, 1) and above in stats and steps < 50:
                above, steps = stats[above][1], steps + 1
            if above != self.top:
                continue
            if (pid, begun) not in self.works:
                work = work_of(pid)
                if work:
                    self.works[pid, begun] = work
            self.seen[pid, begun] = seconds

    def run(self):
        while not self.is_over:
            self.look()
            time.sleep(0.2)

    def sums(self):
        sums = {}
        for key, seconds in list(self.seen.items()):
            if key in self.works:
                crate, kind = self.works[key]
                of_crate = sums.setdefault(crate, {})
                of_crate[kind] = of_crate.get(kind, 0) + seconds
        return sums


def lines_of(crate):
    """How many lines of code a crate has, with its tests."""
    return sum(read(os.path.join(folder, file)).count("\n") for folder, _, files in os.walk(os.path.join(ROOT, "crates", crate, "src")) for file in files)


def edits_of(crate):
    folder = os.path.join(ROOT, "crates", crate, "must-fail")
    return len([it for it in os.listdir(folder) if it.endswith(".edit")]) if os.path.isdir(folder) else 0


def has(crate, kind):
    """Whether there is such work in a crate."""
    source = os.path.join(ROOT, "crates", crate, "src")
    if kind == "edits":
        return edits_of(crate) > 0
    if kind == "tests":
        return any("#[cfg(test)]" in read(os.path.join(source, file)) for file in ("lib.rt", "main.rt"))
    return os.path.isfile(os.path.join(source, "main.rt" if kind == "program" else "lib.rt"))


def cell(crate, row, kind):
    """The seconds of a kind of work; a dash where there is such work that was not measured."""
    if kind not in row and has(crate, kind):
        return "-"
    return f"{row.get(kind, 0):.0f}"


def times_of(text):
    """The times that a page tells, by crate and kind."""
    times = {}
    for found in re.finditer(r"^\| `(\w+)` \|(.*)\|$", text, re.M):
        seconds = [float(cell) if cell.strip() != "-" else None for cell in found[2].split("|")[: len(KINDS)]]
        times[found[1]] = {kind: it for kind, it in zip(KINDS, seconds) if it}
    return times


def page(times, verdict, minutes):
    """The page, dearest crate first."""
    rows = sorted(times.items(), key=lambda row: -sum(row[1].values()))
    whole = sum(sum(row.values()) for row in times.values())
    code = sum(lines_of(crate) for crate in times)
    text = [
        "# What the gate costs",
        "",
        "Written by `bench/gate.py`, which runs the gate and meters its processes; don't edit it by hand. Seconds are those of a processor, on the machine "
        "where it ran, and grow with what else runs there: compare rows with each other, and not with another machine's. A dash stands where there is such work "
        "that was not measured.",
        "",
        f"The gate's last words: {'; '.join(f'`{line}`' for line in verdict) or 'none, since it was ended'}. {minutes:.0f} minutes by the clock in the last run; "
        f"{whole / 60:.0f} processor minutes in all, {whole / 60 / max(code, 1) * 1000:.1f} for 1,000 of the {code:,} lines of code.",
        "",
        "| Crate | Library | Tests | Program | Edits | How many | In all | Lines of code |",
        "|---|---|---|---|---|---|---|---|",
    ]
    for crate, row in rows:
        text.append(f"| `{crate}` | " + " | ".join(cell(crate, row, kind) for kind in KINDS) + f" | {edits_of(crate)} | {sum(row.values()):.0f} | {lines_of(crate)} |")
    sums = [sum(row.get(kind, 0) for row in times.values()) for kind in KINDS]
    text.append("| all | " + " | ".join(f"{it:.0f}" for it in sums) + f" | {sum(edits_of(it) for it in times)} | {whole:.0f} | {code} |")
    return "\n".join(text) + "\n"


def main(words):
    into, kept, joins = os.path.join(ROOT, "docs", "GATE.md"), None, False
    while words[:1] in (["--into"], ["--times"], ["--join"]):
        if words[0] == "--join":
            joins, words = True, words[1:]
            continue
        if words[0] == "--into":
            into = words[1]
        else:
            kept = words[1]
        words = words[2:]
    times = times_of(read(into)) if joins else {}
    for crate, row in (json.loads(read(kept) or "{}") if kept else {}).items():
        times.setdefault(crate, {}).update(row)
    begun = time.time()
    gate = subprocess.Popen(words or ["rt", "ci"], cwd=ROOT, stdout=subprocess.PIPE, stderr=subprocess.STDOUT, text=True, errors="replace")
    signal.signal(signal.SIGTERM, lambda *_: gate.terminate())
    meter = Meter(gate.pid)
    meter.start()
    verdict = []
    for line in gate.stdout:
        print(line, end="", flush=True)
        if re.match(r"rt: ok;|rt: FAILED|\d+ passed, \d+ failed", line):
            verdict.append(line.strip())
    status = gate.wait()
    meter.is_over = True
    meter.join()
    for crate, row in meter.sums().items():
        for kind, seconds in row.items():
            times.setdefault(crate, {})[kind] = seconds
    crates = sorted(os.listdir(os.path.join(ROOT, "crates")))
    times = {crate: times.get(crate, {}) for crate in crates}
    if kept:
        with open(kept, "w") as file:
            json.dump(times, file, indent=1)
    with open(into, "w") as file:
        file.write(page(times, verdict[-2:], (time.time() - begun) / 60))
    return status


if __name__ == "__main__":
    sys.exit(main(sys.argv[1:]))
