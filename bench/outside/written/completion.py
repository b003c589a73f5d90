"""Requests: how they go through their candidates, when they complete and with which answer, and what waits.

From channel_model/specs.
"""
from dataclasses import replace

from values import Accept, Address, Arrive, Cancel, Destroy, Expire, Fault, Take, ANY, FOUR
from . import requests
from .past import Attempts
from .requests import bare, legs_of
from .std import memo


# ---- Search.antt

def goes_on(status):
    return status in (requests.NO_DATA, requests.SERV_FAIL, requests.NOT_FOUND)


def last_answer(empty, answer):
    return replace(answer, status=requests.NO_DATA) if goes_on(answer.status) and empty else answer


# ---- Completion.antt

def taken_by(what):
    return what.number if isinstance(what, Take) else None


def without(number, numbers):
    return [] if not numbers else numbers[1:] if number == numbers[0] else [numbers[0]] + without(number, numbers[1:])


def left_by(number, numbers):
    return numbers if number is None else without(number, numbers)


class Completion(Attempts):
    """What depends on a setting."""

    # ---- Search.antt

    def candidate_answer(self, request, spec, c, name, past):
        left = self.leg_end((request, requests.first_leg(c)), past)
        if not isinstance(spec, Address):
            return None if left is None else bare(request, left.status, left.reply)
        right = self.leg_end((request, requests.second_leg(c)), past)
        if spec.family == ANY:
            if left is None or right is None:
                return None
            return requests.merged(self.setting, request, spec.nosort, name, left, right)
        end, read = (left, requests.addresses_v4) if spec.family == FOUR else (right, requests.addresses_v6)
        return None if end is None else requests.merged_one(self.setting, request, spec.nosort, name, read, end)

    def stand_at(self, request, spec, past, c, names):
        """("asking", c), or ("over", answer)."""
        if not names:
            return "asking", c
        answer = self.candidate_answer(request, spec, c, names[0], past)
        if answer is None:
            return "asking", c
        if len(names) > 1 and goes_on(answer.status):
            return self.stand_at(request, spec, past, c + 1, names[1:])
        return "over", answer

    @memo
    def stand_of(self, request, spec, past):
        return self.stand_at(request, spec, past, 0, self.candidates_of(spec))

    def any_empty(self, request, spec, past):
        found = [self.candidate_answer(request, spec, c, name, past)
                 for c, name in enumerate(self.candidates_of(spec))]
        return any(answer is not None and answer.status == requests.NO_DATA for answer in found)

    @memo
    def search_answer(self, request, past):
        spec = self.spec_of(request, past)
        if spec is None:
            return None
        stand = self.stand_of(request, spec, past)
        return last_answer(self.any_empty(request, spec, past), stand[1]) if stand[0] == "over" else None

    # ---- Completion.antt

    def bare_if_accepted(self, request, status, past):
        return None if self.spec_of(request, past) is None else bare(request, status, b"")

    def requests(self, past):
        return [request.number for request in self.accepted(past)]

    @memo
    def taken(self, past):
        if past is None:
            return ()
        number = taken_by(past.what)
        return self.taken(past.past) + (() if number is None else (number,))

    @memo
    def completed_by(self, request, what, past):
        if isinstance(what, Accept):
            return requests.at_once(self.setting, request, what.spec) if what.number == request else None
        if isinstance(what, Cancel):
            return self.bare_if_accepted(request, requests.CANCELLED, past)
        if isinstance(what, Destroy):
            return self.bare_if_accepted(request, requests.DESTRUCTION, past)
        if isinstance(what, (Arrive, Expire, Fault)):
            return self.search_answer(request, self.behind(what, past))
        return None

    @memo
    def fate(self, request, past):
        if past is None:
            return None
        before = self.fate(request, past.past)
        return self.completed_by(request, past.what, past.past) if before is None else before

    @memo
    def pending(self, past):
        return tuple(request for request in self.requests(past) if self.fate(request, past) is None)

    def completed_at(self, what, past):
        requests_by_now = self.requests(self.behind(what, past))
        open_ones = [request for request in requests_by_now if self.fate(request, past) is None]
        return [request for request in open_ones if self.completed_by(request, what, past) is not None]

    @memo
    def ready(self, past):
        if past is None:
            return []
        return left_by(taken_by(past.what), self.ready(past.past)) + self.completed_at(past.what, past.past)

    def is_idle(self, past, leg):
        return self.flight(leg, past) is None and self.leg_end(leg, past) is None

    def current_legs(self, past, request):
        spec = self.spec_of(request, past)
        if spec is None:
            return []
        stand = self.stand_of(request, spec, past)
        return [(request, number) for number in legs_of(spec, stand[1])] if stand[0] == "asking" else []

    @memo
    def waiting(self, past):
        return [leg for request in self.pending(past) for leg in self.current_legs(past, request)
                if self.is_idle(past, leg)]
