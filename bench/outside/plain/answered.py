"""What a run's answers say of its datagrams alone, and whether a run is given time enough."""
from values import Address, Connect, Datagram, Now, Nothing, Receive, Search, Send, Servers, Wait
from . import messages, names, requests
from .channel import Channel


def is_answered(run, spec, answer):
    """The answer's message came from a server that was asked before, and says what the answer says."""
    message = messages.decode(answer.message)
    readable, opt = messages.edns(message) if message else (False, None)
    if not readable or len(message.questions) != 1:
        return False
    code = messages.full_rcode(message, opt)
    meant = 0 if not code and message.answers else 1 if not code else code + 1 if code <= 5 else requests.BADRESP
    told = {meant} | ({requests.NODATA} if isinstance(spec, Search) and meant in requests.GOING_ON else set())
    if not isinstance(spec, Address) and answer.status not in told:
        return False
    wanted = [requests.question(spec, leg, run.setting.options)
              for c in range(len(requests.candidates(spec, run.setting.options))) for leg in requests.legs(spec, c)]

    def same(left, right):
        return names.same(left.name, right.name) and (left.kind, left.klass) == (right.kind, right.klass)
    asked = set()
    for call in run.log:
        if isinstance(call, Send) and call.sent:
            query = messages.decode(call.bytes)
            if query and len(query.questions) == 1 and any(same(query.questions[0], item) for item in wanted):
                asked.add((call.server, query.id, query.questions[0]))
        came = isinstance(call, Receive) and isinstance(call.got, Datagram) and call.got.bytes == answer.message
        if came and any(server == call.got.server and ident == message.id and same(question, message.questions[0])
                        for server, ident, question in asked):
            return True
    return False


def are_answered(run):
    if any(isinstance(call, Connect) for call in run.log):
        return True
    return all(is_answered(run, run.askings[0][0], answer) for answer in run.calls if answer.message)


def attempts(run):
    """How many attempts the requests of a lawful journal may spend, and how many items were received."""
    channel, most, times = Channel(run.setting), 0, 0
    for entry in list(run.journal) + [None]:
        most = max(most, len(channel.used()))
        if entry:
            channel.add(entry.what)
            times += isinstance(entry.what, Servers)
    total = 0
    for number, request in channel.requests.items():
        if requests.at_once(number, request.spec, run.setting) is None:
            legs = len(request.names) * len(requests.legs(request.spec, 0))
            total += legs * (most * run.setting.options.tries + times)
    came = sum(isinstance(call, Receive) and not isinstance(call.got, Nothing) for call in run.log)
    return total, came


def wakes(log):
    """Behind each wait that was woken something is received next, or the clock has come to its moment."""
    for at, call in enumerate(log):
        if isinstance(call, Wait) and call.woken:
            got = next((item.got for item in log[at:] if isinstance(item, Receive)), None)
            reading = next((item.reading for item in log[at:] if isinstance(item, Now)), None)
            if isinstance(got, Nothing) and reading is not None and reading < call.until:
                return False
    return True
