#!/usr/bin/env python3
"""Refuses memory once in each of many runs: at the run's first allocation, at its second, and so on.

In channel_runs a call of the channel that is refused has to leave its counts as they were, and to succeed when it is made once more
(crates/channel_runs/src/tests/making.rt), so that the test passes with the same answers and the same journal. In adig_faults,
ahost_faults and ahost_workers_runs the tests of `wanting` are whole runs of the tools: a refused run has to end with status 5 and an
empty page, and to have called each request that it had accepted once, which it tells by an error of its own name. What is refused to a
test itself ends it with an error of that name, which says nothing.

The tools themselves are run against tns on loopback, in a network of its own: each run ends with status 5 and puts nothing, or it is
whole, with its page and its status. Of a whole run with --journal areplay has to tell what it tells of the run to which nothing was
refused, and each request that was accepted was taken once. Anything else is a finding, as is a run that doesn't end within a minute,
and the status is then 1. With workers two runs needn't make the same allocations: as many are tried as the longest of five runs made.

Left out are `queries_are_spelled`, which calls the channel itself and makes nothing once more, and tests of very many allocations.

Build first, by `rt test` in crates/channel_runs, adig_faults, ahost_faults and ahost_workers_runs, and `rt run` in crates/adig, ahost,
areplay and tns; or name a folder that has the eight programs. What isn't there is passed over, and said. It wants a C compiler and
unshare. Usage: bench/refusals.py [FOLDER]
"""
import os, re, subprocess, sys, tempfile, time

HERE = os.path.dirname(os.path.abspath(__file__))
MOST = 5000  # allocations of a run that is tried
PORT = "5398"
BY_ITSELF = ("tests::asking::queries_are_spelled",)
OWN_WANT = ("error: NoMemory", "error: AllocError", "error: AllocFailed", "error: Error")
RUN_WANT = "error: RunWantedMemory"
# the crates with tests that are tried, and how the names of these tests begin
TESTS = (
    ("channel_runs", "tests::"),
    ("adig_faults", "tests::wanting::"),
    ("ahost_faults", "tests::wanting::"),
    ("ahost_workers_runs", "tests::wanting::"),
)
TOOLS = ("adig", "ahost", "areplay", "tns")
ZONE = "www.example. 300 A 192.0.2.1\nwww.example. 300 AAAA 2001:db8::1\nalias.example. 300 CNAME www.example.\n"


def program_of(name):
    crate = name.removesuffix("_tests")
    return f"{sys.argv[1]}/{name}" if len(sys.argv) > 1 else f"{HERE}/../crates/{crate}/out/{name}"


def is_there(name):
    there = os.access(program_of(name), os.X_OK)
    if not there:
        print(f"{name} isn't built, and is passed over")
    return there


def run(words, folder, number):
    """A run to which the allocation of this number is refused, or none for 0."""
    env = dict(os.environ, LD_PRELOAD=f"{folder}/refuse.so", REFUSE=str(number))
    try:
        return subprocess.run(words, env=env, stdin=subprocess.DEVNULL, capture_output=True, timeout=60)
    except subprocess.TimeoutExpired:
        return subprocess.CompletedProcess(words, "no end", b"", b"")


def allocations(words, folder, runs=1):
    """How many allocations a run makes to which nothing is refused, at most."""
    env = dict(os.environ, LD_PRELOAD=f"{folder}/refuse.so", REFUSE_TELLS="1")
    words = ["sh", "-c", 'exec "$0" "$@" 3>&1 >/dev/null 2>/dev/null', *words]
    made = [subprocess.run(words, env=env, stdin=subprocess.DEVNULL, capture_output=True, text=True) for _ in range(runs)]
    return max(int(one.stdout) for one in made)


def try_tests(crate, front, folder):
    """How many findings there are in the tests of a crate, and how many runs that say something."""
    program = program_of(f"{crate}_tests")
    listed = subprocess.run([program, "--list"], capture_output=True, text=True).stdout
    tests = [line.split(": ")[0] for line in listed.splitlines() if line.endswith(": test")]
    tests = [test for test in tests if test.startswith(front) and test not in BY_ITSELF]
    passed = ended = own = found = 0
    for test in tests:
        wants = allocations([program, test], folder, runs_of(crate))
        if wants > MOST:
            print(f"{crate} {test}: {wants} allocations, left out")
            continue
        for number in range(1, wants + 1):
            tried = run([program, test], folder, number)
            said = tried.stderr.decode(errors="replace")
            if tried.returncode == 0:
                passed += 1
            elif RUN_WANT in said:
                ended += 1
            elif any(want in said for want in OWN_WANT):
                own += 1
            else:
                found += 1
                print(f"{crate} {test}, allocation {number}: {tried.returncode} {said.strip()}")
    print(f"{crate}: {len(tests)} tests, {passed + ended + own + found} runs: in {passed} the test passed, in {ended} the run ended "
          f"with 5 as it has to, in {own} the test itself was refused, {found} findings", flush=True)
    return found, passed + ended


def runs_of(what):
    """How often the allocations of what has threads are counted."""
    return 5 if "workers" in what else 1


def told(page):
    """A page without its identifier, which is drawn by chance."""
    return re.sub(rb"^;; id \d+ ", b";; id ", page, flags=re.M)


def replayed(journal, folder):
    """What areplay tells of a journal's requests, and whether each that was accepted was taken once. Its first line has how many entries
    there are, which is by chance."""
    with open(f"{folder}/journal", "wb") as file:
        file.write(journal)
    ran = subprocess.run([program_of("areplay"), f"{folder}/journal"], stdin=subprocess.DEVNULL, capture_output=True)
    entries = [line.split() for line in journal.splitlines()]
    numbers = [sorted(entry[3] for entry in entries if entry[2:3] == [word]) for word in (b"accept", b"take")]
    return ran.returncode, ran.stdout.split(b"\n", 1)[1:], numbers[0] == numbers[1], len(numbers[0])


def try_tool(words, folder):
    """How many findings there are in the runs of a tool, and how many runs there were."""
    line = " ".join([os.path.basename(words[0]), *words[1:]])
    reads = (lambda put: replayed(put, folder)) if "--journal" in words else told
    plain = run(words, folder, 0)
    page = reads(plain.stdout)
    if plain.returncode not in (0, 1, 2) or ("--journal" in words and (page[0] != 0 or not page[2] or not page[3])):
        print(f"{line}: {plain.returncode} {page} with nothing refused")
        return 1, 0
    wants = allocations(words, folder, runs_of(line))
    whole = short = found = 0
    if wants > MOST:
        print(f"{line}: {wants} allocations, of which the first {MOST} are tried")
    for number in range(1, min(wants, MOST) + 1):
        tried = run(words, folder, number)
        if tried.returncode == 5 and tried.stdout == b"":
            short += 1
        elif tried.returncode == plain.returncode and reads(tried.stdout) == page:
            whole += 1
        else:
            found += 1
            print(f"{line}, allocation {number}: {tried.returncode} {tried.stdout[:200]!r} {tried.stderr[:200]!r}", flush=True)
    print(f"{line}: {wants} allocations; {short} runs ended with 5, {whole} were whole with {plain.returncode}, {found} findings", flush=True)
    return found, whole + short


def await_answer(words):
    """Waits until the server answers, which may take a while on a machine that is busy."""
    for _ in range(100):
        if subprocess.run(words, stdin=subprocess.DEVNULL, stdout=subprocess.DEVNULL, stderr=subprocess.DEVNULL).returncode == 0:
            return
        time.sleep(0.1)


def try_tools(folder):
    """The same of the tools."""
    with open(f"{folder}/zone", "w") as zone:
        zone.write(ZONE)
    words = [program_of("tns"), "--port", PORT, "--zone", f"{folder}/zone", "--count", "65535"]
    server = subprocess.Popen(words, stdout=subprocess.DEVNULL, stderr=subprocess.DEVNULL)
    asked = ["--resolv", "/dev/null", "--server", "127.0.0.1", "--port", PORT]
    hosts = ["--hosts", "/dev/null"]
    adig, ahost = program_of("adig"), program_of("ahost")
    tried = [
        [adig, *asked, "www.example"],
        [adig, *asked, "--tcp", "alias.example"],
        [adig, "--no-such-option"],
        [ahost, *asked, *hosts, "www.example", "192.0.2.9"],
        [ahost, *asked, *hosts, "--journal", "--follow", "www.example", "192.0.2.9"],
        [ahost, "--load", "12"],
        [ahost, *asked, *hosts, "--workers", "2", "www.example", "192.0.2.9"],
        [ahost, *asked, *hosts, "--workers", "2", "--journal", "--follow", "www.example", "192.0.2.9"],
        [ahost, "--load", "12", "--workers", "2"],
        [ahost, "--load", "12", "--workers", "4"],
        [program_of("areplay"), f"{folder}/run"],
    ]
    try:
        await_answer(tried[0])
        with open(f"{folder}/run", "wb") as file:
            file.write(run(tried[4], folder, 0).stdout)
        return [try_tool(words, folder) for words in tried]
    finally:
        server.kill()


def main():
    if os.environ.get("IN_ITS_OWN_NETWORK") != "1":
        os.environ["IN_ITS_OWN_NETWORK"] = "1"
        os.execvp("unshare", ["unshare", "-rn", sys.executable, os.path.abspath(__file__), *map(os.path.abspath, sys.argv[1:2])])
    subprocess.run(["ip", "link", "set", "lo", "up"], check=True)
    all_tried = []
    with tempfile.TemporaryDirectory() as folder:
        subprocess.run(["cc", "-O1", "-shared", "-fPIC", "-o", f"{folder}/refuse.so", f"{HERE}/refuse.c"], check=True)
        for crate, front in TESTS:
            if is_there(f"{crate}_tests"):
                all_tried.append(try_tests(crate, front, folder))
        if all([is_there(name) for name in TOOLS]):
            all_tried += try_tools(folder)
    found = sum(found for found, _ in all_tried)
    print(f"{found} findings")
    return 1 if found or not all_tried or not all(runs for _, runs in all_tried) else 0


sys.exit(main())
