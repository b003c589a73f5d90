"""Single changes that spoil the end of a shared channel: of its passes, its answers and its counts."""
from dataclasses import replace

from values import Answer
from .spoils import change_journal, other_number, with_items


def other_pass(rng, run, **change):
    at = rng.randrange(len(run.passes))
    made = {name: value(run.passes[at]) for name, value in change.items()}
    return replace(run, passes=run.passes[:at] + (replace(run.passes[at], **made),) + run.passes[at + 1:])


def less(rng, items):
    items = list(items)
    if items:
        items.pop(rng.randrange(len(items)))
    return items


def change_answers(rng, run):
    calls = list(run.calls)
    at = rng.randrange(len(calls)) if calls else 0
    unfilled = with_items(calls, at, [Answer(0, 0)], 0)
    if not calls:
        return "an unfilled answer", unfilled
    answer = calls[at]
    return rng.choice([
        ("an unfilled answer", unfilled), ("an answer less", with_items(calls, at, [])),
        ("an answer twice", with_items(calls, at, [answer, answer])),
        ("an unfilled answer for one", with_items(calls, at, [Answer(0, 0)])),
        ("another status", with_items(calls, at, [replace(answer, status=other_number(rng, answer.status))])),
        ("answers in another order", rng.sample(calls, len(calls)))])


def change_passes(rng, run):
    return rng.choice([
        lambda: ("a pass without an entry", other_pass(rng, run, own=lambda item: less(rng, item.own))),
        lambda: ("a pass that saw less", other_pass(rng, run, seen=lambda item: item.seen[:-1])),
        lambda: ("a pass that saw otherwise", other_pass(rng, run, seen=lambda item: less(rng, item.seen))),
        lambda: ("a pass that lost more", other_pass(rng, run, lost=lambda item: item.lost + 1)),
        lambda: ("a pass that told less", other_pass(rng, run, calls=lambda item: less(rng, item.calls))),
        lambda: ("a pass less", replace(run, passes=run.passes[:-1])),
        lambda: ("passes in another order", replace(run, passes=run.passes[::-1]))])()


def ended_otherwise(rng, run):
    """The kind of a change and the end that it makes, or None where it makes none."""
    what = rng.choice(("journal", "journal", "answers", "passes", "count"))
    if what == "count":
        if rng.random() < .5:
            return "one request more accepted", replace(run, accepted=run.accepted + 1)
        return "one more lost", replace(run, lost=run.lost + 1)
    if what == "passes":
        kind, made = change_passes(rng, run)
        return None if made == run else (kind, made)
    if what == "answers":
        kind, calls = change_answers(rng, run)
        return None if calls == list(run.calls) else (kind, replace(run, calls=calls))
    made = change_journal(rng, run)
    return None if made is None or made[1] == run.journal else ("journal: " + made[0], replace(run, journal=made[1]))
