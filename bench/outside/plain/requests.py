"""What a request asks, and what it is answered: candidates, answers at once, the merge of two families."""
from dataclasses import replace

from values import Address, Answer, Query, Reverse, V4, V6, ANY, FOUR, SIX, DNS, FILES
from . import addresses, messages, names

SUCCESS, NODATA, FORMERR, SERVFAIL, NOTFOUND, NOTIMP, REFUSED = range(7)
BADNAME, BADRESP, CONNREFUSED, TIMEDOUT, DESTRUCTION, CANCELLED = 8, 10, 11, 12, 16, 24
GOING_ON = (NODATA, SERVFAIL, NOTFOUND)


def candidates(spec, options):
    """The names that are asked, in order."""
    if isinstance(spec, Reverse):
        return [addresses.reverse_name(spec.address)]
    found = names.read(spec.host if isinstance(spec, Address) else spec.name)
    if found is None:
        return []
    name, absolute = found
    if isinstance(spec, Query):
        return [name]
    tried = [name + domain for domain in options.domains]
    if absolute or options.flags.nosearch:
        tried = [name]
    elif max(len(name) - 1, 0) >= options.ndots:
        tried = [name] + tried
    else:
        tried = tried + [name]
    out = []
    for item in tried:
        fits = names.wire_length(item) <= 255 and not names.last_is(item, b"onion")
        if fits and not any(names.same(item, other) for other in out):
            out.append(item)
    return out


def legs(spec, candidate):
    """The numbers of a candidate's legs."""
    family = spec.family if isinstance(spec, Address) else FOUR
    return [2 * candidate + f for f in (0, 1) if (FOUR, SIX)[f] == family or family == ANY]


def question(spec, leg, options):
    name = candidates(spec, options)[leg // 2]
    if isinstance(spec, Address):
        return messages.Question(name, messages.AAAA if leg % 2 else messages.A, messages.IN)
    if isinstance(spec, Reverse):
        return messages.Question(name, messages.PTR, messages.IN)
    return messages.Question(name, spec.kind, spec.klass)


def at_once(number, spec, setting):
    """The answer that a request gets at its Accept, or None."""
    if isinstance(spec, Reverse):
        return None
    if isinstance(spec, Address):
        literal = addresses.read(spec.host)
        if literal is not None:
            if addresses.allows(spec.family, literal):
                return Answer(number, SUCCESS, addresses=(literal,))
            return Answer(number, NODATA)
    found = names.read(spec.host if isinstance(spec, Address) else spec.name)
    if found is None:
        return Answer(number, BADNAME)
    name = found[0]
    if names.last_is(name, b"onion"):
        return Answer(number, NOTFOUND)
    if not isinstance(spec, Address):
        return None
    known, canonical = [], ()
    if setting.options.lookups != DNS:
        for line in setting.hosts:
            has = any(names.same(name, alias) for alias in (line.canonical,) + line.aliases)
            if has and addresses.allows(spec.family, line.address):
                canonical = canonical if known else line.canonical
                known.append(line.address)
    if not known and names.last_is(name, b"localhost"):
        known = [item for item in (V4(0x7f000001), V6(1)) if addresses.allows(spec.family, item)]
        canonical = name
    if known:
        return good(number, spec, known, canonical, setting)
    return Answer(number, NOTFOUND) if setting.options.lookups == FILES else None


def good(number, spec, found, canonical, setting):
    order = tuple(found) if spec.nosort else addresses.ordered(found, setting.options.sources)
    return Answer(number, SUCCESS, addresses=order, canonical=canonical)


def records_of(reply, kind):
    return [item for item in reply.answers if item.kind == kind and item.klass == messages.IN]


def follow(name, answers):
    """The name behind the aliases, in the order of the answers."""
    for item in answers:
        if item.kind == messages.CNAME and names.same(item.name, name):
            reader = messages.Reader(item.rdata)
            reader.at = 0
            name = reader.name()
    return name


def merged(number, spec, candidate, ends, setting):
    """The answer of an Address candidate whose legs ended so: pairs of status and reply, by family."""
    found, naming = [], None
    for f, (status, reply) in sorted(ends.items()):
        if status != SUCCESS:
            continue
        answers = messages.decode(reply)
        new = [V6(int.from_bytes(item.rdata, "big")) if f else V4(int.from_bytes(item.rdata, "big"))
               for item in records_of(answers, messages.AAAA if f else messages.A)]
        naming = naming if found or not new else answers.answers
        found += new
    statuses = [ends[f][0] for f in sorted(ends)]
    if len(ends) == 1 and statuses[0] != SUCCESS:
        return Answer(number, statuses[0])
    if found:
        return good(number, spec, found, follow(candidate, naming), setting)
    if NODATA in statuses:
        return Answer(number, NODATA)
    return Answer(number, statuses[0] if statuses[0] != NOTFOUND else statuses[-1])


def searched(answers):
    """The answer of a search that is over, by those of its candidates, in order."""
    last = answers[-1]
    empty = any(answer.status == NODATA for answer in answers)
    return replace(last, status=NODATA) if last.status in GOING_ON and empty else last
