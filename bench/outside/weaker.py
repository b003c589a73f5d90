"""Changes one line of the written definitions at a time, and says whether the comparison sees it.

usage: python3 weaker.py [share]    share: of the cases, in percent (15)
"""
import shutil
import subprocess
import sys
import tempfile
from pathlib import Path

CHANGES = [
    ("past.py", "return went_over(a, what.server, what.link) and self",
     "return a.server == what.server and self"),
    ("past.py", "        return a.leg == (what.number, what.leg)", "        return a.leg[0] == what.number"),
    ("past.py", "names = question.name == asked.name if exact else same", "names = same"),
    ("past.py", "is_response(reply) and is_standard(reply)", "is_response(reply)"),
    ("past.py", "if message.header_rcode(reply.message) == 1 and reply.opt is None and had_opt", "if False"),
    ("past.py", "not over_tcp and not flags.igntc", "not flags.igntc"),
    ("past.py", "return outcome[1] if most <= count else None", "return outcome[1] if most < count else None"),
    ("past.py", "return if_left(past.what, self.forced_server(leg, past.past))",
     "return self.forced_server(leg, past.past)"),
    ("completion.py", "if goes_on(answer.status) and empty else answer", "if empty else answer"),
    ("completion.py", "self.flight(leg, past) is None and self.leg_end(leg, past) is None",
     "self.flight(leg, past) is None"),
    ("lawful.py", 'return count + 1 if outcome[0] == "Failed" else 0',
     'return count + 1 if outcome[0] == "Failed" else count'),
    ("lawful.py", "        if self.enters(server, what, before):\n            return 0\n", ""),
    ("lawful.py", "min(9, count // used)", "min(9, count)"),
    ("lawful.py", "and not self.is_used(ident, past)\n", "\n"),
    ("lawful.py", "return due is not None and due[1] == leg and due[0] <= moment",
     "return due is not None and due[0] <= moment"),
    ("requests.py", "    if any(same_name(names[0], other) for other in earlier):", "    if False:"),
    ("requests.py", "    naming = four if addresses_v4(four) else six", "    naming = four"),
    ("requests.py", "    if left == NO_DATA or right == NO_DATA:\n        return NO_DATA\n", ""),
    ("addresses.py", "scope(t) < scope(s) and scope(t) < scope(dest)", "scope(t) < scope(s)"),
    ("commands.py", "elif isinstance(command, AskCommand):\n                yield",
     "else:\n                yield"),
    ("commands.py", "position <= last and is_behind_take", "is_behind_take"),
    ("traffic.py", "                and self.unwritten(k, l) is not None\n                and self.falls",
     "                and self.falls"),
    ("traffic.py", '("messages", self.noted("arrived", i, k), j, l)',
     '("messages", self.noted("arrived", i, k)[:-1], j, l)'),
    ("turn.py", "return (is_whole_receive(MOST_RECEIVES, self.receives(j, l))\n                and",
     "return ("),
    ("turn.py", "lambda left: left == look", "lambda left: left >= look"),
    ("turn.py", "lambda left: left <= look", "lambda left: True"),
    ("turn.py", "return len(rest) == 0 or bool(writes) and took_nothing(writes[-1])", "return True"),
    ("turn.py", "closes == self.closes_held(j, l))\n\n    def has_made", "True)\n\n    def has_made"),
    ("turn.py", "self.served_by(i, k) == self.serves(j, l)", "True"),
    ("course.py", "return not self.skips(self.pasts[i]) and self.soon(", "return self.soon("),
    ("course.py", "return self.skips(self.pasts[i]) and soon_test(i)", "return soon_test(i)"),
    ("course.py", "if on for end in", "for end in"),
    ("course.py", "                if self.model.pending(self.pasts[i]) != () and self.model.ready(self.pasts[i]) == []}",
     "                }"),
    ("promise.py", "self.memory_wanting and course.begins_cut()", "self.memory_wanting"),
    ("finishing.py", "and all(entry.seat in numbers for entry in self.journal)\n", "\n"),
    ("finishing.py", "(sorted(answer.number for answer in calls) == list(range(1, count + 1))", "(True"),
    ("promise.py", "all(model.fate(answer.number, self.past) == answer for answer in run.calls)", "True"),
    ("promise.py", "return isinstance(spec, Search) and status == requests.NO_DATA and goes_on(meant)",
     "return isinstance(spec, Search) and status == requests.NO_DATA"),
]


def seen(folder, share, name, old, new):
    """Whether the comparison fails with this change; None where the change fits at no one place."""
    path = folder / "written" / name
    text = path.read_text()
    if text.count(old) != 1:
        return None
    path.write_text(text.replace(old, new))
    done = subprocess.run([sys.executable, "compare.py", share, "first"], cwd=folder, capture_output=True)
    path.write_text(text)
    return done.returncode != 0


def main(share):
    here = Path(__file__).parent
    count = 0
    with tempfile.TemporaryDirectory() as kept:
        folder = Path(kept) / "outside"
        shutil.copytree(here, folder, ignore=shutil.ignore_patterns("__pycache__"))
        for name, old, new in CHANGES:
            found = seen(folder, share, name, old, new)
            count += found is True
            if not found:
                print("fits at no one place:" if found is None else "not seen:", name, repr(old))
    print(f"{count} of {len(CHANGES)} changes are seen")


if __name__ == "__main__":
    main(sys.argv[1] if len(sys.argv) > 1 else "15")
