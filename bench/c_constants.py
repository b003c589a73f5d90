#!/usr/bin/env python3
"""Compares include/dachumvi.h with the sources and the definitions: the numbers of answers, statuses, families and kinds, the fields of the
structs with their types and order, and each call with its parameters. Prints what differs, and ends with 1 where something does."""
import re, sys
from pathlib import Path

top = Path(__file__).resolve().parent.parent
header = re.sub(r'/\*.*?\*/', '', (top / 'include/dachumvi.h').read_text(), flags=re.S)
boxed = top / 'crates/boxed_channel'
types_crate = top / 'crates/c_types'
differences = []


def differs(what, ours, theirs):
    if ours != theirs:
        differences.append(f'{what}: the header has {ours}, the sources have {theirs}')


def numbers(enum):
    body = re.search(r'enum dachumvi_%s \{(.*?)\};' % enum, header, re.S).group(1)
    return {name: int(number) for name, number in re.findall(r'DACHUMVI_(\w+) = (\d+)', body)}


# answers: the constants of the calls
answers = {}
for source in (boxed / 'src/state.rt', top / 'crates/channel_c/src/answers.rt'):
    for name, number in re.findall(r'^(?:pub )?const (\w+): u32 = (\d+);', source.read_text(), re.M):
        if answers.setdefault(name, int(number)) != int(number):
            differences.append(f'{name} has two numbers')
differs('answers', numbers('answer'), answers)

# what each number stands for in the definitions
told = (types_crate / 'specs/Told.antt').read_text()
state = (boxed / 'specs/State.antt').read_text()
texts_told = (top / 'crates/channel_c/specs/Texts.antt').read_text()
yes_or_no = (top / 'crates/channel_c/specs/Told.antt').read_text()
on_word = (top / 'crates/channel_word/specs/Calls.antt').read_text()
on_pointers = (top / 'crates/channel_c/specs/Pointers.antt').read_text()
making = (top / 'crates/channel_c/src/making.rt').read_text()
names = [('refusal.Closed', 'CLOSED'), ('Err wanted', 'NO_MEMORY'), ('Ok NoId', 'NO_ID'), ('Ok Idle', 'NOTHING'), ('Ok Stray', 'NOTHING'),
         ('Ok NotDue', 'NOTHING'), ('Some None', 'NOTHING'), ('Ok ', 'DONE'), ('Some at', 'DONE'), ('token = tt; call = taken', 'DONE')]
rows = [(next(name for word, name in names if word in what), number)
        for number, what in re.findall(r'answer == (\d+) then (Some .*?) else', told)]
rows += [('NO_MEMORY', number) for number in re.findall(r'AsksFor .* = MatchBool \(answer == (\d+)\) \(IsAsBefore', state)]
rows += [('BAD_FAMILY', number) for number in re.findall(r'^AsksAddress .* (\d+)$', state, re.M)]
rows += [('BAD_LENGTH', number) for number in re.findall(r'^AsksReverse .* (\d+)$', state, re.M)]
rows += [('NOT_KEPT', number) for number in re.findall(r'^TellsText None .* = answer ≡ (\d+)$', state, re.M)]
rows += [('NO_MEMORY', number) for number in re.findall(r'^TellsText \(Some .* MatchBool \(answer == (\d+)\) ⊤', state, re.M)]
rows += [('DONE', number) for number in re.findall(r'^TellsText \(Some .* \(\(answer ≡ (\d+)\)', state, re.M)]
rows += list(zip(('DONE', 'NO_MEMORY'), re.findall(r'answer == (\d+)\) \(AreReadable', texts_told)))
rows += [('LARGE_RESOLV', number) for number in re.findall(r'answer == (\d+)\) \(65536 < length resolv\)', texts_told)]
rows += [('LARGE_HOSTS', number) for number in re.findall(r'answer ≡ (\d+)\) × \(length resolv ≤ 65536\) × \(4194304 < length hosts\)', texts_told)]
rows += [(name, number) for of, names in (('busy', ('DONE', 'NOTHING')), ('first', ('DONE', 'CLOSED')))
         for name, number in zip(names, re.findall(r'answer == (\d+)', re.search(r'^%s_told answer = (.*)$' % of, yes_or_no, re.M).group(1)))]
rows += [('NULL', number) for number in re.findall(r'^Leaves .* true .* \(feq ℕ answer (\d+)\)', on_pointers, re.M)]
rows += [('NO_CHANNEL', number) for number in re.findall(r'^OnState None .* \(answer ≡ (\d+)\)', on_word, re.M)]
rows += [('HAS_CHANNEL', number) for number in re.findall(r'is_some channel\.old\.pointer\.state\) \(result ≡ (\d+)\)\n', making)]
rows += list(zip(('DONE', 'NO_CHANNEL'), re.search(r'told \{ .* \(result ≡ (\d+)\) \(result ≡ (\d+)\) \}', making).groups()))
differs('answers in the definitions', {name: {number} for name, number in numbers('answer').items()},
        {name: {int(number) for other, number in rows if other == name} for name in answers})

# statuses, by c-ares's names
spec = (top / 'crates/chan_types/specs/Statuses.antt').read_text()
texts = dict(re.findall(r'^text_of (\w+) = codes "(\w+)"', spec, re.M))
codes = {texts[name]: int(number) for name, number in re.findall(r'^code_of (\w+) = (\d+)', spec, re.M)}
differs('statuses', numbers('status'), codes)

# families
families = re.findall(r'number == (\d+) then Some family\.(\w+)', (types_crate / 'specs/Addresses.antt').read_text())
differs('families', numbers('family'), {name.upper(): int(number) for number, name in families})

# kinds and the class, where the header names them
defined = dict(re.findall(r'^(\w+) = (\d+)$', (top / 'crates/dns_message/specs/Numbers.antt').read_text(), re.M))
record_kinds = {name: ('class_in' if name == 'IN' else 'kind_' + name.lower()) for name in numbers('kind')}
differs('kinds', numbers('kind'), {name: int(defined.get(word, -1)) for name, word in record_kinds.items()})

# structs and calls, by their types in C
types = {'u8': 'uint8_t', 'u16': 'uint16_t', 'u32': 'uint32_t', 'u64': 'uint64_t', 'usize': 'size_t', 'bool': 'bool',
         'ChannelWord': 'dachumvi_channel', 'ToldAttempt': 'dachumvi_attempt', 'ToldLeg': 'dachumvi_leg',
         'ToldRequest': 'dachumvi_request', 'ToldCounts': 'dachumvi_counts', '': 'void'}
types |= {f'*mut {ours}': f'{theirs} *' for ours, theirs in types.items()} | {'*const u8': 'const uint8_t *'}
for name, body in re.findall(r'pub struct Told(\w+) \{(.*?)\n\}', (types_crate / 'src/told.rt').read_text(), re.S):
    theirs = [(types[kind], field) for field, kind in re.findall(r'^    pub (\w+): (\w+),', body, re.M)]
    ours = re.search(r'typedef struct \{([^}]*)\} dachumvi_%s;' % name.lower(), header).group(1)
    differs(f'struct {name}', re.findall(r'(\w+) (\w+);', ours), theirs)

calls = {}
for source in sorted((top / 'crates/channel_c/src').glob('**/*.rt')):
    for name, words, answer in re.findall(r'extern "C" fn (\w+)\((.*?)\)(?: -> (\w+))?\s*(?:ghost|requires|ensures|\{)', source.read_text(), re.S):
        kinds = [kind.strip() for kind in re.findall(r'\w+: ([^,]+)', words)]
        calls[name] = (types[answer], ', '.join(types[kind] for kind in kinds if kind != 'Global'))
declared = {}
for answer, name, words in re.findall(r'^(\w+) (dachumvi_\w+)\((.*?)\);', header, re.S | re.M):
    kinds = [re.sub(r'\s*\w+$', '', word.strip()) for word in words.split(',')]
    declared[name] = (answer, ', '.join(re.sub(r'\s*\*$', ' *', kind) for kind in kinds))
differs('calls', sorted(declared), sorted(calls))
for name in declared.keys() & calls.keys():
    differs(name, declared[name], calls[name])

print('\n'.join(differences) or f'{len(answers)} answers, {len(codes)} statuses, {len(families)} families, {len(record_kinds)} kinds and classes, {len(calls)} calls: the header agrees')
sys.exit(bool(differences))
