"""Runs both models over runs that are made by chance and their spoiled partners, and says where they differ.

usage: python3 compare.py [share] [first]    share: of the cases, in percent (100); first: stop where a case differs
"""
import sys

sys.dont_write_bytecode = True  # the repository keeps no __pycache__

import random
from collections import Counter

import plain.answered
import plain.channel
import plain.commands
import plain.ending
import plain.promise
import plain.traffic
import plain.turns
from made import ends, exact, pairs, runs, spoils
from recorded import stored
from written.commands import Commands
from written.course import Course
from written.finishing import Finishing
from written.lawful import Model
from written.progress import Progress
from written.promise import Promise


class Differs(Exception):
    """A case is told otherwise by the models, and that was all that was asked."""


class Tally:
    """What came of the cases of one kind."""
    stops = False

    def __init__(self, name):
        self.name, self.counts, self.kept, self.differ = name, Counter(), Counter(), []

    def note(self, seed, kind, by_rules, as_written):
        """One case: what refuses it by the rules, and as it is written. Both lists are empty where it is lawful."""
        self.counts["lawful" if kind == "lawful" else "spoiled"] += 1
        if bool(by_rules) != bool(as_written):
            self.differ.append((seed, kind, by_rules, as_written))
        elif by_rules:
            self.counts["refused by both"] += 1
            if kind == "lawful":
                self.differ.append((seed, "lawful, and refused by both", by_rules, as_written))
        elif kind != "lawful":
            self.kept[kind] += 1
            self.counts["accepted by both"] += 1
        if self.stops and self.differ:
            raise Differs(self.differ)

    def tell(self):
        print(f"{self.name}: " + ", ".join(f"{count} {what}" for what, count in self.counts.items())
              + f", {len(self.differ)} differ")
        if self.kept:
            print("  spoiled and lawful still: " + ", ".join(f"{kind} {n}" for kind, n in sorted(self.kept.items())))
        for seed, kind, by_rules, as_written in self.differ[:12]:
            print(f"  seed {seed}, {kind}: by the rules {by_rules or 'lawful'}, as written {as_written or 'lawful'}")


# ---- what each model says of a case

def state_by_rules(run):
    position, channel = plain.channel.first_unlawful(run.setting, run.journal)
    fates = {number: channel.fate(number) for number in channel.requests}
    return position, fates, channel.ready, channel.pending(), channel.waiting(), channel.first_due()


def state_as_written(run):
    model = Model(run.setting)
    position = model.first_unlawful(run.journal)
    past = model.past_of(run.journal[:position])
    due = model.first_due(past)
    fates = {number: model.fate(number, past) for number in model.requests(past)}
    return (position, fates, model.ready(past), list(model.pending(past)), model.waiting(past),
            due and (due[0],) + due[1])


def journal_broken(run):
    """Both models' refusals of a journal alone; where they compute other fates or states, that they differ."""
    ours, theirs = state_by_rules(run), state_as_written(run)
    refusals = [[f"at {state[0]}"] if state[0] is not None else [] for state in (ours, theirs)]
    return refusals if ours == theirs else [[str(ours)], []]


def commands_broken(run):
    last = len(run.journal)
    ours = plain.commands.obeyed(run.setting, run.journal, run.seats, run.orders, last, strict=True)
    theirs = Commands(Model(run.setting), run.journal).obeys_orders(run.seats, run.orders, last)
    if ours != theirs:
        return [f"so many may be lost: {ours}"], []
    return [[] if ways else ["obeyed"] for ways in (ours, theirs)]


def shared_broken(run):
    """Of the seat that makes the turns: lawful journal, traffic and course."""
    model = Model(run.setting)
    if model.first_unlawful(run.journal) is not None:
        position = plain.channel.first_unlawful(run.setting, run.journal)[0]
        return [] if position is None else [f"at {position}"], [f"at {model.first_unlawful(run.journal)}"]
    course = Course(model, run.journal, 0, run.log, run.slice)
    replay, why = plain.turns.course(run.setting, run.journal, 0, run.log, run.slice)
    ours = plain.traffic.agrees(run.setting, run.journal, 0, run.log) + ([] if replay else [why])
    theirs = [] if course.turns.traffic.traffic_agrees() else ["agrees"]
    counts = course.is_course()
    if replay and counts and counts != {replay.turns}:
        ours.append(f"{replay.turns} turns")
    return ours, theirs + ([] if counts else ["course"])


def promise_broken(run, is_adig):
    promise = Promise(run)
    return plain.promise.broken(run, is_adig), promise.broken_of_adig() if is_adig else promise.broken()


# ---- the cases

def journals(count):
    tally, obeyed = Tally("journals"), Tally("commands")
    for seed in range(count):
        run = runs.several_seats(seed) if seed % 3 == 2 else runs.one_seat(seed, seed % 5 == 0)
        tally.note(seed, "lawful", *journal_broken(run))
        obeyed.note(seed, "lawful", *commands_broken(run))
        rng = random.Random(seed)
        for _ in range(5):
            made = spoils.change_journal(rng, run)
            if made is None or made[1] == run.journal:
                continue
            spoiled = spoils.replace(run, journal=made[1])
            verdicts = journal_broken(spoiled)
            tally.note(seed, made[0], *verdicts)
            if verdicts == [[], []]:
                obeyed.note(seed, made[0], *commands_broken(spoiled))
    return tally, obeyed


def answers(count):
    """Of runs of adig: their answers by the datagrams alone; and whether runs are given time, which then complete."""
    tally, given = Tally("answers by datagrams alone"), Tally("runs that are given time")
    for seed in range(count):
        run, rng = runs.one_seat(seed, True), random.Random(seed)
        tally.note(seed, "lawful", *answered_broken(run))
        for change in (spoils.change_calls, spoils.change_log, spoils.change_log):
            made = change(rng, run)
            if made:
                field = "calls" if change is spoils.change_calls else "log"
                tally.note(seed, made[0], *answered_broken(spoils.replace(run, **{field: made[1]})))
        empty = [spoils.replace(answer, status=1) for answer in run.calls]
        if empty != run.calls:
            tally.note(seed, "no data for another status", *answered_broken(spoils.replace(run, calls=empty)))
        run = runs.one_seat(seed, faults=0)
        given.note(seed, "unchanged", *time_broken(run))
        made = spoils.change_log(rng, run)
        if made:
            given.note(seed, made[0], *time_broken(spoils.replace(run, log=made[1])))
    return tally, given


def answered_broken(run):
    return ([] if plain.answered.are_answered(run) else ["answered"],
            [] if Promise(run).are_answered() else ["answered"])


def time_broken(run):
    """That a run isn't given time; and where it is and doesn't complete, more than that."""
    progress = Progress(Model(run.setting), run.journal, run.log)
    total, came = plain.answered.attempts(run)
    ours = 2 * total + came < run.limit and plain.answered.wakes(run.log)
    theirs = 2 * progress.attempts_allowed() + progress.received_in() < run.limit and progress.wakes_in_time()
    if ours and theirs and run.end == "stalled":
        return ["it doesn't complete"], []
    return [[] if is_so or run.end == "wait fault" else ["time"] for is_so in (ours, theirs)]


def whole_runs(count):
    tally = Tally("runs of adig and ahost")
    for seed in range(count):
        is_adig, rng = seed % 3 == 0, random.Random(seed)
        run = runs.one_seat(seed, is_adig)
        tally.note(seed, "lawful", *promise_broken(run, is_adig))
        for change in (spoils.spoiled, spoils.spoiled, pairs.paired, pairs.paired):
            made = change(rng, run)
            if made:
                tally.note(seed, made[0], *promise_broken(made[1], is_adig))
    return tally


def cut_runs(count):
    tally = Tally("runs that wanted memory")
    for seed in range(count):
        is_adig, rng = seed % 3 == 0, random.Random(seed)
        whole = runs.one_seat(seed, is_adig)
        for at in sorted(rng.sample(range(whole.memory), min(3, whole.memory))):
            run = runs.one_seat(seed, is_adig, calls=at, once=rng.random() < .2)
            tally.note((seed, at), "lawful", *promise_broken(run, is_adig))
            for change in (spoils.spoiled, pairs.paired):
                made = change(rng, run)
                if made:
                    tally.note((seed, at), made[0], *promise_broken(made[1], is_adig))
    return tally


def shared_runs(count):
    tally, ended = Tally("turns beside other seats"), Tally("ends of shared channels")
    for seed in range(count):
        run, rng = runs.several_seats(seed), random.Random(seed)
        tally.note(seed, "lawful", *shared_broken(run))
        ended.note(seed, "lawful", plain.ending.broken(run), Finishing(run).broken())
        for change in (spoils.spoiled, spoils.spoiled, pairs.paired, pairs.paired):
            made = change(rng, run)
            if made and not made[0].startswith(("calls", "end")):
                tally.note(seed, made[0], *shared_broken(made[1]))
        for _ in range(4):
            made = ends.ended_otherwise(rng, run)
            if made:
                ended.note(seed, made[0], plain.ending.broken(made[1]), Finishing(made[1]).broken())
    return tally, ended


def stored_runs():
    """Runs of the programs themselves, as they were recorded."""
    tally = Tally("recorded runs")
    for name, is_adig, status, run in stored():
        tally.note(name, "lawful", *promise_broken(run, is_adig))
        why = exact.difference(run)
        if status < 2 and (status == 0) != all(answer.status == 0 for answer in run.calls):
            why = f"exit status {status}"
        if why:
            tally.differ.append((name, f"not what the loop makes: {why}", [], []))
        rng = random.Random(name)
        for change in (spoils.spoiled, spoils.spoiled, pairs.paired, pairs.paired):
            made = change(rng, run)
            if made:
                tally.note(name, made[0], *promise_broken(made[1], is_adig))
    return tally


def main(share, stops):
    Tally.stops = stops
    tallies = [*journals(450 * share // 100), whole_runs(300 * share // 100), cut_runs(150 * share // 100),
               *shared_runs(150 * share // 100), *answers(200 * share // 100), stored_runs()]
    for tally in tallies:
        tally.tell()
    return 1 if any(tally.differ for tally in tallies) else 0


if __name__ == "__main__":
    sys.exit(main(int(sys.argv[1]) if len(sys.argv) > 1 else 100, sys.argv[2:] == ["first"]))
