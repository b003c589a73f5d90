#!/usr/bin/env python3
"""Lets one call of the system fail in each run of adig and ahost: the first of its kind that the program makes, the second, and so on.

A run over UDP, one over TCP and one of two names are made against tns on loopback, in a network of its own. Every run has to end by
itself, with an exit status that its failing call may bring about: 0 or 1 with a page, 3, 6 or 7 with the one line of that status, 4
with a front of the page, or 5 with nothing. What comes otherwise is a finding, and the status is then 1. A table is printed of which
exit statuses came of which failure. In one run of it, over the programs that were proved and built, 300 calls failed, of 17 kinds, and none was a finding: 3 came of a file that
can't be opened, read or looked at, 4 of a write, 6 of a wait; where there is no poll or no random seed the status is 1; a call that is
cut off by a signal (EINTR) is made again, and so is a query that can't be sent.

Wants strace, and unshare. Build first: (cd crates/adig && rt run), and so ahost and tns; or name the three programs.
Usage: bench/failing_calls.py [ADIG AHOST TNS]
"""
import collections, os, re, subprocess, sys, tempfile, time

HERE = os.path.dirname(os.path.abspath(__file__))
PROGRAMS = [f"{HERE}/../crates/{name}/out/{name}" for name in ("adig", "ahost", "tns")]
PORT = "5397"
ZONE = "www.example. 300 A 192.0.2.1\nwww.example. 300 AAAA 2001:db8::1\nalias.example. 300 CNAME www.example.\n"
MOST = 40  # calls of a kind that are tried

# each kind of call, the errors with which it fails, and the exit statuses that may come of that beside 0 and 1
PAGES, FILES, OUTPUT, WAITS, MEMORY, NONE = {0, 1}, {3}, {4}, {6}, {5}, set()
CALLS = [
    ("openat", ["EACCES", "EMFILE", "EIO", "EINTR"], FILES),
    ("read", ["EIO", "EINTR"], FILES),
    ("fstat,newfstatat,statx", ["EIO"], FILES),
    ("ioctl", ["ENOTTY", "EIO"], NONE),
    ("write,writev", ["ENOSPC", "EPIPE", "EINTR"], OUTPUT),
    ("epoll_create1", ["EMFILE", "ENOMEM"], WAITS),
    ("epoll_ctl", ["ENOMEM", "ENOSPC"], NONE),
    ("epoll_wait,epoll_pwait", ["EBADF", "EINVAL", "EINTR"], WAITS),
    ("eventfd2", ["EMFILE"], WAITS),
    ("getrandom", ["ENOSYS"], WAITS),
    ("socket", ["EMFILE", "ENOBUFS", "EAFNOSUPPORT"], NONE),
    ("bind", ["EADDRINUSE", "EACCES"], NONE),
    ("connect", ["ENETUNREACH", "ECONNREFUSED", "EPERM"], NONE),
    ("setsockopt", ["ENOPROTOOPT", "ENOMEM"], NONE),
    ("getsockopt", ["ENOBUFS"], NONE),
    ("sendto,sendmsg", ["EPERM", "ECONNREFUSED", "ENOBUFS", "EMSGSIZE", "EAGAIN", "EINTR"], NONE),
    ("recvfrom,recvmsg", ["ECONNREFUSED", "EBADF", "ENOMEM", "EINTR"], NONE),
    ("close,shutdown", ["EIO"], NONE),
    ("mmap,brk,mremap", ["ENOMEM"], MEMORY),
]
LINES = {3: b"file fault\n", 6: b"wait fault\n", 7: b"stalled\n"}


def run(words, inject=None, log="/dev/null"):
    """The program's exit status, its page, and what it told on standard error; a signal's number is negative, and None a run without end."""
    before = ["strace", "-f", "-qq", "-o", log]
    if inject:
        calls, error, number = inject
        names = ",".join("?" + name for name in calls.split(","))  # not each machine has each of them
        before += ["-e", f"trace={names}", "-e", f"inject={names}:error={error}:when={number}"]
    with tempfile.TemporaryFile() as page:
        try:
            ended = subprocess.run(before + words, stdin=subprocess.DEVNULL, stdout=page, stderr=subprocess.PIPE, timeout=60)
        except subprocess.TimeoutExpired:
            return None, b"", b""
        page.seek(0)
        return ended.returncode, page.read(), ended.stderr


def calls_of(words, folder):
    """The status and page of a run on which nothing fails; how often each kind of call is made, and how often by the loader."""
    log = f"{folder}/calls"
    status, page, _ = run(words, log=log)
    lines = [re.sub(r"^\d+ +", "", line) for line in open(log, errors="replace")]
    # the loader's last call unmaps its cache; the calls before it are the same in each run, and aren't the program's
    started = next((at for at, line in enumerate(lines) if line.startswith("munmap(")), 0)
    counts, early = collections.Counter(), collections.Counter()
    for at, line in enumerate(lines):
        for calls, _, _ in CALLS:
            if line.split("(")[0] in calls.split(","):
                counts[calls] += 1
                early[calls] += at < started
    return status, page, counts, early


def is_page(text):
    return text.startswith(b";;") or re.match(rb"\S+ \d+ [A-Z]+\n", text) is not None


def told(text):
    """A page without its identifier, which is drawn by chance."""
    return re.sub(rb"^;; id \d+ ", b";; id ", text, flags=re.M)


def is_fair(ended, text, extra, page):
    """Whether a run may end so."""
    if ended not in PAGES | extra:
        return False
    if ended in PAGES:
        return is_page(text)
    if ended == 4:
        return told(page).startswith(told(text))
    return text == b"" if ended == 5 else text.endswith(LINES[ended])


def await_answer(words):
    """Waits until the server answers, which may take a while on a machine that is busy."""
    for _ in range(100):
        if subprocess.run(words, stdin=subprocess.DEVNULL, stdout=subprocess.DEVNULL, stderr=subprocess.DEVNULL).returncode == 0:
            return
        time.sleep(0.1)


def main():
    adig, ahost, tns = sys.argv[1:4] if len(sys.argv) > 3 else PROGRAMS
    if os.environ.get("IN_ITS_OWN_NETWORK") != "1":
        os.environ["IN_ITS_OWN_NETWORK"] = "1"
        os.execvp("unshare", ["unshare", "-rn", sys.executable, os.path.abspath(__file__), *map(os.path.abspath, (adig, ahost, tns))])
    subprocess.run(["ip", "link", "set", "lo", "up"], check=True)
    found, runs, seen = 0, 0, collections.defaultdict(collections.Counter)
    with tempfile.TemporaryDirectory() as folder:
        for name, text in (("zone", ZONE), ("resolv", "options attempts:2\nsearch example\n"), ("hosts", "192.0.2.9 other.example\n")):
            with open(f"{folder}/{name}", "w") as file:
                file.write(text)
        server = subprocess.Popen([tns, "--port", PORT, "--zone", f"{folder}/zone", "--count", "65535"], stdout=subprocess.DEVNULL, stderr=subprocess.DEVNULL)
        plain = ["--resolv", f"{folder}/resolv", "--server", "127.0.0.1", "--port", PORT, "--timeout", "300", "--tries", "2"]
        await_answer([adig, *plain, "www.example"])
        tried = [
            [adig, *plain, "www.example"],
            [adig, *plain, "--tcp", "alias.example"],
            [ahost, *plain, "--hosts", f"{folder}/hosts", "www", "alias.example"],
        ]
        try:
            for words in tried:
                line = " ".join([os.path.basename(words[0]), *words[1:]])
                status, page, counts, early = calls_of(words, folder)
                if status != 0 or not is_page(page):
                    print(f"{line}: exit status {status} with nothing failing")
                    found += 1
                for calls, errors, extra in CALLS:
                    for number in range(early[calls] + 1, min(counts[calls], early[calls] + MOST) + 1):
                        for error in errors:
                            ended, text, said = run(words, (calls, error, number))
                            runs += 1
                            seen[calls, error][ended] += 1
                            if not is_fair(ended, text, extra, page):
                                found += 1
                                print(f"{line}: {calls} number {number} with {error}: exit status {ended}, {text[:200]!r}, {said[:200]!r}", flush=True)
        finally:
            server.kill()
    for (calls, error), statuses in seen.items():
        print(f"{calls} {error}: " + ", ".join(f"{count} times {status}" for status, count in sorted(statuses.items(), key=str)))
    print(f"{runs} runs, {found} findings")
    return 1 if found or not runs else 0


if __name__ == "__main__":
    sys.exit(main())
