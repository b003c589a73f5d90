"""What a request asks and is answered: its candidates and questions, answers at once, and the merge."""
from dataclasses import replace

from values import Address, Answer, Query, Reverse, Search, V4, V6, ANY, DNS, FILES, FOUR, SIX
from . import addresses, edns, message
from .names import Question, last_is, name_text, same_name, wire_length

# ---- chan_types/specs/Statuses.antt
SUCCESS, NO_DATA, FORM_ERR, SERV_FAIL, NOT_FOUND, NOT_IMP, REFUSED = 0, 1, 2, 3, 4, 5, 6
BAD_NAME, BAD_RESP, CONN_REFUSED, TIMED_OUT, DESTRUCTION, CANCELLED = 8, 10, 11, 12, 16, 24


# ---- resolv_options/specs/Search.antt

def may_be_asked(name):
    return wire_length(name) <= 255 and not last_is(b"onion", name)


def dots(name):
    return max(len(name) - 1, 0)


def with_domains(name, domains):
    return [name + domain for domain in domains]


def search_order(text, options):
    name, absolute = text
    if absolute or options.flags.nosearch:
        return [name]
    if options.ndots <= dots(name):
        return [name] + with_domains(name, options.domains)
    return with_domains(name, options.domains) + [name]


def without_repeats(earlier, names):
    if not names:
        return []
    if any(same_name(names[0], other) for other in earlier):
        return without_repeats(earlier, names[1:])
    return [names[0]] + without_repeats(earlier + [names[0]], names[1:])


def candidates(text, options):
    return without_repeats([], [name for name in search_order(text, options) if may_be_asked(name)])


# ---- channel_model/specs/Legs.antt

def first_leg(candidate):
    return 2 * candidate


def second_leg(candidate):
    return 2 * candidate + 1


def candidate_of(number):
    return number // 2


def is_second(number):
    return number % 2 == 1


def legs_of(spec, candidate):
    if not isinstance(spec, Address):
        return [first_leg(candidate)]
    return {ANY: [first_leg(candidate), second_leg(candidate)], FOUR: [first_leg(candidate)],
            SIX: [second_leg(candidate)]}[spec.family]


# ---- channel_model/specs/Questions.antt

def names_of(names, text):
    read = name_text(text)
    return [] if read is None else names(read)


def kind_of_leg(number):
    return message.KIND_AAAA if is_second(number) else message.KIND_A


def question_for(spec, number, name):
    if isinstance(spec, Address):
        return Question(name, kind_of_leg(number), message.CLASS_IN)
    if isinstance(spec, Reverse):
        return Question(name, message.KIND_PTR, message.CLASS_IN)
    return Question(name, spec.kind, spec.klass)


def wanted_kind(spec, number):
    return kind_of_leg(number) if isinstance(spec, Address) else None


def candidates_of(setting, spec):
    if isinstance(spec, Query):
        return names_of(lambda read: [read[0]], spec.name)
    if isinstance(spec, Search):
        return names_of(lambda read: candidates(read, setting.options), spec.name)
    if isinstance(spec, Address):
        return names_of(lambda read: candidates(read, setting.options), spec.host)
    return [addresses.reverse_labels(spec.address)]


# ---- channel_model/specs/Merge.antt

def bare(request, status, reply):
    return Answer(request, status, reply, (), ())


def is_of_kind(kind, rr):
    return rr.kind == kind and rr.klass == message.CLASS_IN


def addresses_v4(records):
    return [V4(addresses.number_of(2 ** 8, rr.rdata)) for rr in records if is_of_kind(message.KIND_A, rr)]


def addresses_v6(records):
    return [V6(addresses.number_of(2 ** 8, rr.rdata)) for rr in records if is_of_kind(message.KIND_AAAA, rr)]


def target_of(rr):
    read = message.name_of(rr.rdata, 0)
    return read[1][0] if read[0] == "ok" else ()


def is_alias(name, rr):
    return rr.kind == message.KIND_CNAME and same_name(rr.name, name)


def canonical_name(name, records):
    for rr in records:
        name = target_of(rr) if is_alias(name, rr) else name
    return name


def answers_of(data):
    reply = edns.read_reply(data)
    return reply.message.answers if reply else ()


def records_of(end):
    return answers_of(end.reply) if end.status == SUCCESS else ()


def status_of_both(left, right):
    if left == NO_DATA or right == NO_DATA:
        return NO_DATA
    return right if left == NOT_FOUND else left


def ordered(setting, nosort, found):
    return tuple(found) if nosort else addresses.sorted_by(setting.options.sources, tuple(found))


def found_answer(setting, request, nosort, found, canonical):
    return Answer(request, SUCCESS, b"", ordered(setting, nosort, found), canonical)


def merged_one(setting, request, nosort, candidate, addresses_in, end):
    records = answers_of(end.reply)
    if end.status == SUCCESS:
        return found_answer(setting, request, nosort, addresses_in(records), canonical_name(candidate, records))
    return bare(request, end.status, b"")


def merged(setting, request, nosort, candidate, left, right):
    four, six = records_of(left), records_of(right)
    found = addresses_v4(four) + addresses_v6(six)
    naming = four if addresses_v4(four) else six
    if found:
        return found_answer(setting, request, nosort, found, canonical_name(candidate, naming))
    return bare(request, status_of_both(left.status, right.status), b"")


# ---- hosts_file/specs/Hosts.antt

def lines_for(name, family, hosts):
    return [line for line in hosts if addresses.allows(family, line.address)
            and any(same_name(name, other) for other in (line.canonical,) + line.aliases)]


# ---- channel_model/specs/AtOnce.antt

def loopbacks(family):
    return [address for address in (V4(2130706433), V6(1)) if addresses.allows(family, address)]


def unless_asked(request, rules, text):
    if text is None:
        return bare(request, BAD_NAME, b"")
    return bare(request, NOT_FOUND, b"") if last_is(b"onion", text[0]) else rules(text)


def literal(request, family, address):
    if addresses.allows(family, address):
        return replace(bare(request, SUCCESS, b""), addresses=(address,))
    return bare(request, NO_DATA, b"")


def known_host(setting, request, family, nosort, text):
    lines = lines_for(text[0], family, setting.hosts) if setting.options.lookups != DNS else []
    if lines:
        return found_answer(setting, request, nosort, [line.address for line in lines], lines[0].canonical)
    if last_is(b"localhost", text[0]):
        return found_answer(setting, request, nosort, loopbacks(family), text[0])
    return bare(request, NOT_FOUND, b"") if setting.options.lookups == FILES else None


def at_once(setting, request, spec):
    if isinstance(spec, (Query, Search)):
        return unless_asked(request, lambda text: None, name_text(spec.name))
    if isinstance(spec, Reverse):
        return None
    address = addresses.address_of(spec.host)
    if address is not None:
        return literal(request, spec.family, address)
    return unless_asked(request, lambda text: known_host(setting, request, spec.family, spec.nosort, text),
                        name_text(spec.host))
