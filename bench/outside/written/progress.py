"""Whether a run is given time: channel_progress/specs/Allowed.antt and Waking.antt."""
from values import Now, Nothing, Receive, Wait
from . import requests
from .past import servers_set_by


class Progress:
    def __init__(self, model, journal, log):
        self.model, self.past, self.log = model, model.past_of(journal), list(log)

    # ---- Allowed.antt

    def times_set(self):
        count, past = 0, self.past
        while past is not None:
            count, past = count + (servers_set_by(past.what) is not None), past.past
        return count

    def in_use_most(self, past):
        most = self.model.in_use(None)
        while past is not None:
            most, past = max(most, self.model.in_use(past)), past.past
        return most

    def attempts_of_leg(self):
        return self.in_use_most(self.past) * self.model.options.tries + self.times_set()

    def attempts_of_request(self, request):
        if requests.at_once(self.model.setting, request.number, request.spec) is not None:
            return 0
        legs = len(self.model.candidates_of(request.spec)) * len(requests.legs_of(request.spec, 0))
        return legs * self.attempts_of_leg()

    def attempts_allowed(self):
        return sum(self.attempts_of_request(request) for request in self.model.accepted(self.past))

    # ---- Turn.antt

    def received_in(self):
        return sum(1 for call in self.log if isinstance(call, Receive) and not isinstance(call.got, Nothing))

    # ---- Waking.antt

    def is_in_time(self, until, calls):
        gots = [call.got for call in calls if isinstance(call, Receive)]
        readings = [call.reading for call in calls if isinstance(call, Now)]
        return not gots or not isinstance(gots[0], Nothing) or not readings or until <= readings[0]

    def wakes_in_time(self):
        return all(self.is_in_time(call.until, self.log[at + 1:]) for at, call in enumerate(self.log)
                   if isinstance(call, Wait) and call.woken)
