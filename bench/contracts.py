#!/usr/bin/env python3
"""Compares docs/CONTRACTS.md with the public calls of the library crates, and fails where the page doesn't say what they answer.

A public call is a free function that its crate's lib.rt exports, a method (not one of a foreign trait) of an exported type,
a method of an exported trait, or a function that C may call. Crates of tests, of measurements and of programs have none: those
whose name ends in _runs or _bench, those without a lib.rt, and those of NOT_LIBRARIES.

The page has a section for each crate, headed `## name`. Its tables have five columns: the call, the answer, when it comes,
what it leaves, and the clause. A row names calls, or an enum whose variants it tells. Beside the tables, a line that begins
with "One answer:" names the calls that have no answer but success; "No refusal:" the enums of results that tell none; and
"Success:" the variants of the others that tell a success. It fails where

- a public call stands in no row and in no line "One answer:";
- a call that can answer otherwise (by Option or Result, by an enum that tells a refusal, or by a bool where it changes its
  object) stands in such a line;
- a row of a call lacks an answer that its result allows: `None` or `Some` of an Option, `NoMemory` or `AllocError`, `false`
  or `true` of such a bool, or a variant of an enum in its result or in a field of its error; a row that names the enum
  answers for all of them, if the enum's own rows do, in whichever section;
- a row names what is no public call and no such enum, or a clause that its calls don't have; "types" stands for a clause
  where nothing is lent to be changed, and "no clause" where the call has none;
- a row of a call that is lent something doesn't say what the answer leaves, but for an answer that never comes;
- a section is of no library, or a library with public calls has none, or isn't among the layers;
- the libraries that the sentence "Each call returns" excepts aren't those to which crates.txt gives calls that may wait;
- the exit statuses of a program aren't the numbers of its definitions, or name a clause that its run doesn't have.

Usage: python3 bench/contracts.py [-l [CRATE]]       (-l lists the calls with their results and the labels of their clauses)
"""
import functools
import os
import re
import sys
from dataclasses import dataclass, field

os.chdir(os.path.join(os.path.dirname(os.path.abspath(__file__)), ".."))
PAGE = "docs/CONTRACTS.md"
# libraries that hold what tests say, or worked examples, and no call that a program makes
NOT_LIBRARIES = {"scenario", "stored_run", "channel_examples"}
ONE_ANSWER, NO_REFUSAL, SUCCESS = "One answer:", "No refusal:", "Success:"
# whose `run` answers the exit statuses of a program, and the definitions that have their numbers
PROGRAMS = {
    "adig": ("adig_tool", "tool_line/specs/Ending.antt"),
    "ahost": ("ahost_tool", "tool_line/specs/Ending.antt"),
    "tns": ("test_nameserver", "test_nameserver/specs/Statuses.antt"),
    "areplay": ("areplay_tool", "areplay_tool/specs/Ending.antt"),
}
LAYERS, STATUSES = "What the layers promise", "Exit statuses"
ANSWERS, RETURNS = "Answers, crate by crate", "- Each call returns"
# what stands in the error place, or in an Option's or a bool's, and the words of which a row has to name one
BARE = {"NoMemory": {"NoMemory"}, "AllocError": {"AllocError"}, "Option": {"None", "Some"}, "bool": {"false", "true"}}
TOKEN = re.compile(
    r"(?P<skip>\s+|//[^\n]*|/\*.*?\*/)"
    r"|(?P<text>b?r?\"(?:\\.|[^\"\\])*\"|b?'(?:\\.[^']*|[^'\\])')"
    r"|(?P<word>[^\W\d]\w*)|(?P<life>'\w+)|(?P<number>\d\w*)|(?P<mark>->|=>|::|.)",
    re.S,
)
OPEN, CLOSE = "([{", ")]}"
CODE = re.compile(r"`([^`]+)`")


@dataclass
class Call:
    """One public call: its crate and name, its result, whether it may change its object, whether anything is lent to it
    to be changed, the clauses that it ensures, and its file."""

    crate: str
    name: str
    result: list
    changes: bool
    lends: bool
    clauses: list
    file: str


@dataclass
class Crate:
    """What a crate's sources have: functions, methods by type, traits, enums, structs, and what lib.rt exports."""

    functions: list = field(default_factory=list)
    methods: list = field(default_factory=list)
    traits: dict = field(default_factory=dict)
    enums: dict = field(default_factory=dict)
    structs: dict = field(default_factory=dict)
    exported: dict = field(default_factory=dict)
    modules: set = field(default_factory=set)
    uses: dict = field(default_factory=dict)


def tokens_of(text):
    """The tokens of a source, each with its kind; comments and space are none."""
    return [(found.lastgroup, found.group()) for found in TOKEN.finditer(text) if found.lastgroup != "skip"]


def behind(tokens, at):
    """The position behind the bracket that opens at a position."""
    depth = 0
    while at < len(tokens):
        kind, word = tokens[at]
        if kind == "mark" and word in OPEN:
            depth += 1
        elif kind == "mark" and word in CLOSE:
            depth -= 1
            if depth == 0:
                return at + 1
        at += 1
    raise SystemExit("a bracket that isn't closed")


def words_of(tokens):
    return [word for kind, word in tokens]


def angle_end(tokens, at):
    """The position behind generics that open at a position, or the position itself."""
    if at >= len(tokens) or tokens[at][1] != "<":
        return at
    depth = 0
    while at < len(tokens):
        word = tokens[at][1]
        if word in OPEN and tokens[at][0] == "mark":
            at = behind(tokens, at)
            continue
        depth += (word == "<") - (word == ">")
        at += 1
        if depth == 0:
            return at
    return at


def split_parts(tokens):
    """What stands between the commas of the outermost level."""
    parts, part, depth = [], [], 0
    for kind, word in tokens:
        depth += (word in OPEN or word == "<") - (word in CLOSE or word == ">")
        if word == "," and depth == 0:
            parts.append(part)
            part = []
        else:
            part.append((kind, word))
    return [part for part in parts + [part] if part]


def function_at(tokens, at):
    """A function whose name stands at a position: name, parameters, result, clauses, and the position behind it."""
    name = tokens[at][1]
    at = angle_end(tokens, at + 1)
    end = behind(tokens, at)
    parameters, at = words_of(tokens[at + 1:end - 1]), end
    result = []
    if at < len(tokens) and tokens[at][1] == "->":
        at += 1
        while tokens[at][1] not in ("{", ";", "where", "ensures", "requires", "ghost", "decreases"):
            end = behind(tokens, at) if tokens[at][1] in OPEN else at + 1
            result += tokens[at:end]
            at = end
    clauses, bounds = [], False
    while True:
        word = tokens[at][1]
        if word == "where":
            bounds, at = True, at + 1
        elif word in ("ensures", "requires", "ghost", "decreases"):
            bounds = False
            start = at
            while tokens[at][1] != "{":
                at += 1
            end = behind(tokens, at)
            if word == "ensures":
                clauses.append((" ".join(words_of(tokens[start + 1:at])).lstrip("* "), words_of(tokens[at + 1:end - 1])))
            at = end
            if tokens[at][1] == ";" and word == "ghost":
                at += 1
        elif word == "{":
            at = behind(tokens, at)
            break
        elif word == ";":
            at += 1
            break
        elif bounds:
            at += 1
        else:
            raise SystemExit(f"{name}: what is '{word}' behind its parameters?")
    return name, parameters, result, clauses, at


def visibility(tokens, at):
    """Whether an item that begins at a position is public to other crates, and the position behind the word."""
    if tokens[at][1] != "pub":
        return False, at
    if tokens[at + 1][1] == "(":
        return False, behind(tokens, at + 1)
    return True, at + 1


def use_names(tokens):
    """The names that a `use` brings, as pairs of the path's words and the name."""
    found = []

    def walk(part, before):
        words = words_of(part)
        if "{" in words:
            brace = words.index("{")
            path = before + [word for word in words[:brace] if word != "::"]
            for inner in split_parts(part[brace + 1:-1]):
                walk(inner, path)
            return
        path = before + [word for word in words if word != "::"]
        name = path[-1]
        if "as" in path:
            path = path[:-2]
        found.append((path, name))

    walk(tokens, [])
    return found


def read_items(tokens, crate, module, file, owner=None, trait=False):
    """Reads the items of a file, or of an impl's or a trait's braces."""
    at, attributes = 0, []
    while at < len(tokens):
        word = tokens[at][1]
        if word == "#":
            start = at + 1 + (tokens[at + 1][1] == "!")
            end = behind(tokens, start)
            attributes.append(" ".join(words_of(tokens[start:end])))
            at = end
            continue
        tests = any(re.search(r"\bcfg \( test", text) for text in attributes)
        for_c = any("no_mangle" in text for text in attributes)
        attributes = []
        public, at = visibility(tokens, at)
        word = tokens[at][1]
        while word in ("unsafe", "async", "default") or (word == "const" and tokens[at + 1][1] in ("fn", "unsafe")):
            at += 1
            word = tokens[at][1]
        if word == "extern" and tokens[at + 2][1] == "fn":
            at += 2
            word = tokens[at][1]
        if word == "fn":
            name, parameters, result, clauses, at = function_at(tokens, at + 1)
            if for_c:
                crate.exported.setdefault((module, name), set()).add(name)
            text = " ".join(parameters)
            changes, lends = bool(re.match(r"& ('\w+ )?mut self\b", text)), bool(re.search(r"& ('\w+ )?mut\b", text))
            if not tests and (trait or public):
                found = crate.functions if owner is None else crate.methods
                found.append((module, owner, name, (result, changes, lends, clauses, file)))
            continue
        if word in ("enum", "struct", "union"):
            name = tokens[at + 1][1]
            at = angle_end(tokens, at + 2)
            while tokens[at][1] not in ("{", "(", ";"):
                at += 1
            body = []
            if tokens[at][1] in "{(":
                end = behind(tokens, at)
                body, at = tokens[at + 1:end - 1], end
            while tokens[at - 1][1] not in ("}", ";"):
                at += 1
            if tests:
                continue
            if word == "enum":
                crate.enums[name] = variants_of(body)
            else:
                crate.structs[name] = (split_parts(body), file)
            continue
        if word == "trait":
            name = tokens[at + 1][1]
            while tokens[at][1] != "{":
                at += 1
            end = behind(tokens, at)
            if not tests:
                crate.traits[name] = public
                read_items(tokens[at + 1:end - 1], crate, module, file, name, True)
            at = end
            continue
        if word == "impl":
            at = angle_end(tokens, at + 1)
            head = []
            while tokens[at][1] != "{":
                head.append(tokens[at])
                at += 1
            end = behind(tokens, at)
            words = words_of(head)
            if "where" in words:
                words = words[:words.index("where")]
            if "for" not in words and not tests:
                name = [word for word in words[:(words + ["<"]).index("<")] if word != "::"][-1]
                read_items(tokens[at + 1:end - 1], crate, module, file, name)
            at = end
            continue
        if word == "use":
            end = at
            while tokens[end][1] != ";":
                end += 1
            for path, name in use_names(tokens[at + 1:end]):
                crate.uses[file, name] = path[0]
                if public and file.endswith("/lib.rt"):
                    first = path[1] if path[0] in ("crate", "self") else path[0]
                    crate.exported.setdefault((first, path[-1]), set()).add(name)
            at = end + 1
            continue
        if word == "mod" and public:
            crate.modules.add(tokens[at + 1][1])
        # whatever else: to its semicolon, or behind its braces where no semicolon belongs to them
        while at < len(tokens) and tokens[at][1] != ";":
            if tokens[at][1] in OPEN and tokens[at][0] == "mark":
                brace = tokens[at][1] == "{"
                at = behind(tokens, at)
                if brace and (at >= len(tokens) or tokens[at][1] != ";") and word == "mod":
                    at -= 1
                    break
            else:
                at += 1
        at += 1


def variants_of(tokens):
    """The names of an enum's variants."""
    names = []
    for part in split_parts(tokens):
        at = 0
        while part[at][1] == "#":
            at = behind(part, at + 1)
        names.append(part[at][1])
    return names


def libraries():
    """The library crates of crates.txt, lowest first."""
    names = []
    with open("crates.txt") as file:
        for line in file:
            name = re.match(r"(\w+)[^:#]*:", line)
            if name:
                names.append(name.group(1))
    return [name for name in names if os.path.exists(f"crates/{name}/src/lib.rt")
            and not name.endswith(("_runs", "_bench")) and name not in NOT_LIBRARIES]


def waiting():
    """The crates with functions that may wait, which crates.txt counts and a verdict of each crate compares."""
    with open("crates.txt") as file:
        return {line.split()[0] for line in file if re.match(r"\w+ [^:#]*\bmay_wait=", line)}


def read_crate(name):
    """Reads a crate's sources."""
    crate = Crate()
    root = f"crates/{name}/src"
    for folder, folders, files in os.walk(root):
        folders[:] = sorted(found for found in folders if found != "tests")
        for file in sorted(files):
            if not file.endswith(".rt") or file == "tests.rt":
                continue
            path = os.path.join(folder, file)
            with open(path) as source:
                tokens = tokens_of(source.read())
            module = os.path.relpath(path, root)[:-3].split("/")[0]
            try:
                read_items(tokens, crate, module, path)
            except (IndexError, SystemExit) as fault:
                raise SystemExit(f"contracts.py can't read {path}: {fault}")
    return crate


def public_names(crate, module, word):
    """The names under which a crate exports what a module of it has under this one: mostly none, or that one."""
    if module in crate.modules or module == "lib":
        return {word}
    return crate.exported.get((module, word), set())


def public_calls(name, crate):
    """The public calls of a crate."""
    calls = []
    types = {}
    for (module, word), found in crate.exported.items():
        types.setdefault(word, set()).update(found)
    for module, owner, called, rest in crate.functions:
        for public in sorted(public_names(crate, module, called)):
            calls.append(Call(name, public, *rest))
    for module, owner, called, rest in crate.methods:
        for public in sorted(types.get(owner, set()) | public_names(crate, module, owner)):
            calls.append(Call(name, f"{public}::{called}", *rest))
    return calls


@functools.cache
def spec_words(name):
    """The words of a crate's definitions."""
    words = set()
    for folder, folders, files in os.walk(f"crates/{name}/specs"):
        for file in files:
            if file.endswith(".antt"):
                with open(os.path.join(folder, file)) as source:
                    words |= set(re.findall(r"[^\W\d][\w-]*", source.read()))
    return words


def result_parts(tokens):
    """The types of a result: a list of (words, stands in the error place)."""
    found = []

    def walk(part, error):
        at = 0
        while at < len(part):
            kind, word = part[at]
            if word == "Result" and at + 1 < len(part) and part[at + 1][1] == "<":
                end = angle_end(part, at + 1)
                inner = split_parts(part[at + 2:end - 1])
                walk(inner[0], error)
                for later in inner[1:]:
                    walk(later, True)
                found.append(("Result", error))
                at = end
                continue
            if kind == "word":
                found.append((word, error))
            at += 1

    walk(tokens, False)
    return found


def main():
    names = libraries()
    crates = {name: read_crate(name) for name in names}
    calls = [call for name in names for call in public_calls(name, crates[name])]
    enums = {}
    for name in names:
        out = {word for module, word in crates[name].exported}
        enums |= {(name, enum): variants for enum, variants in crates[name].enums.items() if enum in out}

    def home(crate, file, word):
        """The library that declares a type which a file of a crate names, or none."""
        while True:
            own = crates[crate]
            if word in own.enums or word in own.structs:
                return crate
            above = own.uses.get((file, word))
            if above not in crates:
                return None
            crate, file = above, f"crates/{above}/src/lib.rt"

    def told_by(call):
        """The exported enums of a call's result, and whether each is the error itself; those of an error's fields too."""
        told = {}
        for word, error in result_parts(call.result):
            crate = home(call.crate, call.file, word)
            if (crate, word) in enums:
                told[crate, word] = told.get((crate, word), False) or error
            elif error and crate is not None and word in crates[crate].structs:
                fields, file = crates[crate].structs[word]
                for kind, inner in [token for part in fields for token in part]:
                    if (home(crate, file, inner), inner) in enums:
                        told.setdefault((home(crate, file, inner), inner), False)
        return told

    def may_refuse(call, no_refusal):
        words = [word for word, error in result_parts(call.result)]
        if "Option" in words or "Result" in words:
            return True
        if call.changes and "bool" in words:
            return True
        return any(enum not in no_refusal for enum in told_by(call))

    if sys.argv[1:2] == ["-l"]:
        listing(calls, sys.argv[2:], told_by, enums)
        return
    faults = compare(names, calls, enums, told_by, may_refuse)
    for fault in faults:
        print(fault)
    if faults:
        print(f"{PAGE}: {len(faults)} faults")
        sys.exit(1)
    print(f"{PAGE}: {len(calls)} public calls of {len(names)} crates, {len(enums)} enums")


def listing(calls, only, told_by, enums):
    """Prints the calls with their results and labels."""
    for call in calls:
        if only and call.crate not in only:
            continue
        labels = [label or "(unnamed)" for label, text in call.clauses]
        result = "".join(word if word in "<>()&,[]" else f" {word}" for kind, word in call.result).strip()
        print(f"{call.crate} {call.name}{' (mut)' if call.changes else ''} -> {result or '()'}: {' '.join(labels)}")
        for enum, error in told_by(call).items():
            print(f"    {'error ' if error else ''}{enum[1]} of {enum[0]}: {' '.join(enums[enum])}")


def page_sections():
    """The page's sections: a list of (heading, lines with their numbers)."""
    sections = []
    with open(PAGE) as file:
        for number, line in enumerate(file, 1):
            head = re.match(r"## +(.+?)\s*$", line)
            if head:
                sections.append((head.group(1), []))
            elif sections:
                sections[-1][1].append((number, line.rstrip("\n")))
    return sections


def compare(names, calls, enums, told_by, may_refuse):
    """The faults of the page."""
    faults = []
    by_crate = {name: {} for name in names}
    for call in calls:
        by_crate[call.crate].setdefault(call.name, []).append(call)
    rows, one_answer, no_refusal, success, seen = {}, {}, set(), set(), set()
    for name, lines in page_sections():
        if name == STATUSES:
            faults += exit_faults(lines, by_crate)
        elif name == LAYERS:
            layers = {word for number, line in lines if line.startswith("|") for word in CODE.findall(line.split("|")[1])}
            lacking = [word for word in names if by_crate[word] and word not in layers]
            faults += [f"{PAGE}: {word} isn't among the layers" for word in lacking]
            faults += [f"{PAGE}: {word} is among the layers, and no library" for word in sorted(layers - set(names))]
        elif name == ANSWERS:
            excepted = {word for number, line in lines if line.startswith(RETURNS) for word in CODE.findall(line)} & set(names)
            may_wait = waiting() & set(names)
            faults += [f"{PAGE}: {word} may wait, and isn't excepted" for word in sorted(may_wait - excepted)]
            faults += [f"{PAGE}: {word} is excepted, and doesn't wait" for word in sorted(excepted - may_wait)]
        if " " in name:
            continue
        if name not in by_crate:
            faults.append(f"{PAGE}: a section of {name}, which is no library")
            continue
        seen.add(name)
        for number, line in lines:
            named = CODE.findall(line)
            if line.startswith(ONE_ANSWER):
                for called in named:
                    if called not in by_crate[name]:
                        faults.append(f"{PAGE}:{number}: {name} has no public call {called}")
                    one_answer[name, called] = number
            elif line.startswith(NO_REFUSAL):
                for enum in named:
                    if (name, enum) not in enums:
                        faults.append(f"{PAGE}:{number}: {name} exports no enum {enum}")
                    no_refusal.add((name, enum))
            elif line.startswith(SUCCESS):
                for word in named:
                    enum, variant = (word.split("::") + [""])[:2]
                    if variant not in enums.get((name, enum), ()):
                        faults.append(f"{PAGE}:{number}: {name} exports no {word}")
                    success.add((name, enum, variant))
            elif line.startswith("|") and not re.match(r"\|[-| ]+\|$|\| Call \|", line):
                cells = [cell.strip() for cell in line.strip("|").split("|")]
                if len(cells) != 5:
                    faults.append(f"{PAGE}:{number}: {len(cells)} columns, not five")
                    continue
                own = []
                for subject in CODE.findall(cells[0]):
                    own += by_crate[name].get(subject, [])
                    if subject not in by_crate[name] and (name, subject) not in enums:
                        faults.append(f"{PAGE}:{number}: {name} has no public call or enum {subject}")
                    rows.setdefault((name, subject), []).append((number, cells))
                if not CODE.findall(cells[0]):
                    faults.append(f"{PAGE}:{number}: names no call")
                elif own:
                    faults += clause_faults(number, cells[4], own)
                    faults += leaving_faults(number, cells[2], cells[3], own)
                elif (name, CODE.findall(cells[0])[0]) in enums:
                    faults += definition_faults(number, name, cells[4])
    faults += [f"{PAGE}: no section of {name}" for name in names if name not in seen and by_crate[name]]
    told_of = {}
    for key, found in rows.items():
        if key in enums:
            told_of[key] = {word for number, cells in found for word in CODE.findall(cells[1])}
            wrong = sorted(told_of[key] - set(enums[key]))
            faults += [f"{PAGE}:{found[0][0]}: {key[1]} has no variant {word}" for word in wrong]
    for call in [call for call in calls if call.crate in seen]:
        key, what = (call.crate, call.name), f"{call.crate}'s {call.name}"
        for enum, is_error in told_by(call).items():
            if is_error and enum in no_refusal:
                faults.append(f"{PAGE}: {enum[1]} is an error of {what}, so it tells a refusal")
        if key in one_answer:
            if may_refuse(call, no_refusal):
                faults.append(f"{PAGE}:{one_answer[key]}: {what} can answer otherwise")
            if key in rows:
                faults.append(f"{PAGE}:{one_answer[key]}: {what} has a row too")
            continue
        if key not in rows:
            faults.append(f"{PAGE}: {call.crate} lacks {call.name}")
            continue
        answers = {word for number, cells in rows[key] for word in CODE.findall(cells[1])}
        for word in wanted_of(call):
            if not BARE[word] & answers:
                faults.append(f"{PAGE}:{rows[key][0][0]}: {what} lacks {' or '.join(sorted(BARE[word]))}")
        for enum in told_by(call):
            for variant in enums[enum] if enum not in no_refusal else []:
                told = variant in answers or (enum[1] in answers and variant in told_of.get(enum, ()))
                if not told and (*enum, variant) not in success:
                    faults.append(f"{PAGE}:{rows[key][0][0]}: {what} lacks {enum[1]}::{variant}")
    return list(dict.fromkeys(faults))


def wanted_of(call):
    """The words of BARE that a call's result has where they tell something."""
    found = set()
    for word, error in result_parts(call.result):
        if word == "Option" or (word in ("NoMemory", "AllocError") and error):
            found.add(word)
        elif word == "bool" and call.changes:
            found.add("bool")
    return sorted(found)


def definition_faults(number, name, cell):
    """The definitions that a row names for an enum, and its crate doesn't have."""
    named = set(CODE.findall(cell))
    wrong = [f"{PAGE}:{number}: {name} has no definition {word}" for word in sorted(named - spec_words(name))]
    return wrong or ([] if named else [f"{PAGE}:{number}: names no definition"])


def clause_faults(number, cell, calls):
    """The clauses that a row names and none of its calls has; the calls of which it names none; those to which something is
    lent that only a clause can say is as before; and those that have clauses where the row says that there is none."""
    named = set(CODE.findall(cell))
    faults = []
    for label in sorted(named):
        if not any(label in {own for own, text in call.clauses} for call in calls):
            faults.append(f"{PAGE}:{number}: no clause {label} on {', '.join(call.name for call in calls)}")
    for call in calls:
        labels = {label for label, text in call.clauses}
        if "no clause" in cell:
            if labels:
                faults.append(f"{PAGE}:{number}: {call.name} has clauses")
        elif cell == "types":
            if call.lends:
                faults.append(f"{PAGE}:{number}: {call.name} may change what it is lent, of which the types don't tell")
        elif not named & labels and not ("its clause" in cell and "" in labels):
            faults.append(f"{PAGE}:{number}: names no clause of {call.name}")
    return faults


def leaving_faults(number, comes, leaves, calls):
    """The calls of a row that are lent something of which the row doesn't say how the answer leaves it."""
    if leaves not in ("", "—") or re.match(r"never\b", comes):
        return []
    return [f"{PAGE}:{number}: doesn't say what {call.name} leaves" for call in calls if call.lends]


def exit_faults(lines, by_crate):
    """What is amiss with the exit statuses: other numbers than the program's, and clauses or parts that its run lacks."""
    faults, told = [], {program: set() for program in PROGRAMS}
    for number, line in lines:
        cells = [cell.strip() for cell in line.strip("|").split("|")]
        program = "".join(CODE.findall(cells[0]))
        if len(cells) != 5 or program not in PROGRAMS:
            continue
        told[program] |= set(re.findall(r"\d+", cells[1]))
        name = PROGRAMS[program][0]
        labels = {label for call in by_crate[name].get("run", []) for label, text in call.clauses}
        named = set(CODE.findall(cells[4]))
        wrong = sorted(named - labels - spec_words(name))
        faults += [f"{PAGE}:{number}: {name}'s run has no clause or part {word}" for word in wrong]
        if not labels & named:
            faults.append(f"{PAGE}:{number}: names no clause of {name}'s run")
    for program, (name, path) in PROGRAMS.items():
        with open(f"crates/{path}") as file:
            numbers = set(re.findall(r"^(?:number_of|status_)\w* ?\w* = (\d+)$", file.read(), re.M))
        if numbers != told[program]:
            own, page = " ".join(sorted(numbers)), " ".join(sorted(told[program]))
            faults.append(f"{PAGE}: {program}'s exit statuses are {own}, and the page has {page}")
    return faults


if __name__ == "__main__":
    main()
