#!/usr/bin/env python3
"""Tries what `board serve CONF` of the built program tells the operator of its callers and packs, and the filter for fail2ban in examples/.

usage: log.py PROGRAM

The lines are written out here, with the port that a caller has.
"""
import os
import re
import shutil
import subprocess
import time

from caller import GUARD, PLAIN
from harness import AREAS, IN_DOUBT, LOGGED, NAMES, SYSOP, TOP, Served, goes_through, has_version_6, lifts, password_of, resets, settings, users, with_limit
from jam import journal_of, write_files

# what is typed as a name, and how it is shown
TYPED = ((b"Nobody", b"Nobody"), (b"J\xc3\xb6rg \xff", b"J??rg ?"), (b"a\x07b\x1b[2Jc", b"ab[2Jc"), (b"x" * 60, b"x" * 36), (b"", b""),
         (b"node 7: 9.9.9.9:9 refused a log-in as x", b"node 7: 9.9.9.9:9 refused a log-in a"))
# the lines that the filter catches, and what it takes from those of fail2ban itself
CAUGHT = re.compile(r"node \d+: \S+ (refused a log-in as |ended after \d+ s: (hung up|silent|the line broke|sent too much)$)")
COMMON = "/etc/fail2ban/filter.d/common.conf"


def begins(trial, *words, **run):
    trial.has_bases()
    trial.begins(*words, **run)


def waits(is_so):
    """Whether this becomes so in time."""
    end = time.monotonic() + GUARD
    while not is_so() and time.monotonic() < end:
        time.sleep(0.01)
    return is_so()


def at(caller, host=b"127.0.0.1"):
    """How the lines of this caller begin behind the node."""
    return b"%s:%d " % (host, caller.line.getsockname()[1])


def lines_of(trial, side):
    """What is told of who is at this side, whose line has been shut; a time as S."""
    waits(lambda: any(side + b"ended after " in line for line in trial.told))
    return [re.sub(rb"ended after \d+ s", b"ended after S s", line[:-1].split(side, 1)[1]) for line in trial.told if LOGGED.match(line) and side in line]


def try_ends(trial):
    """Callers who log in and leave, hang up, and are cut off."""
    begins(trial)
    for host, shown in (("127.0.0.1", b"127.0.0.1"), *([("::1", b"[::1]")] if has_version_6() else [])):
        caller = trial.caller("Ada", PLAIN, host)
        side = at(caller, shown)
        caller.logs_in(b"Ada", password_of(b"Ada"))
        caller.quits()
        trial.is_so("who leaves", lines_of(trial, side), [b"connected", b"logged in as Ada", b"ended after S s: left, Ada"])
    caller = trial.user(1)
    side = at(caller)
    caller.line.close()
    trial.is_so("who hangs up", lines_of(trial, side), [b"connected", b"logged in as Barbara", b"ended after S s: hung up, Barbara"])
    caller = trial.caller("who is cut off")
    side = at(caller)
    caller.types(b"Ad")
    resets(caller.line)
    trial.holds("who is cut off", lines_of(trial, side) in ([b"connected", b"ended after S s: " + end] for end in (b"hung up", b"the line broke")))
    trial.is_ended("callers who end")


def try_refusals(trial):
    """Names of all kinds, three at a time, in one piece and key by key; and one who logs in at the third try."""
    begins(trial)
    for is_slow in (False, True):
        for names in (TYPED[:3], TYPED[3:]):
            caller = trial.caller("who guesses")
            side = at(caller)
            typed = b"".join(b"%s\rsecret\r\n" % name for name, _ in names)
            for key in ([typed[n:n + 1] for n in range(len(typed))] if is_slow else [typed]):
                caller.types(key)
            caller.reads_to(b"Goodbye.\r\n")
            caller.line.close()
            trial.is_so("who guesses", lines_of(trial, side),
                        [b"connected", *(b"refused a log-in as " + shown for _, shown in names), b"ended after S s: three log-ins refused"])
    caller = trial.caller("who hangs up without a log-in")
    side = at(caller)
    caller.line.close()
    trial.is_so("who hangs up without a log-in", lines_of(trial, side), [b"connected", b"ended after S s: hung up"])
    caller = trial.caller("who tries again")
    side = at(caller)
    caller.types(b"Ada\nx\nAda\ny\nAda\n%s\nq\n" % password_of(b"Ada"))
    caller.reads_to(b"Goodbye.\r\n")
    caller.line.close()
    trial.is_so("who tries again", lines_of(trial, side), [b"connected", *[b"refused a log-in as Ada"] * 2, b"logged in as Ada", b"ended after S s: left, Ada"])
    told = b"".join(trial.told)
    trial.holds("a password in it", b"secret" not in told and password_of(b"Ada") not in told)
    trial.holds("a byte in it that is not printed", re.fullmatch(rb"[ -~\n]*", told))
    try_filter(trial)
    trial.is_ended("callers who guess")


def try_filter(trial):
    """The expressions of the filter find each refusal, and each end of a call without a log-in that was not left by itself, with its address, and no other
    line; so does fail2ban, where it is installed."""
    with open(f"{TOP}/examples/fail2ban_filter.conf", encoding="ascii") as file:
        said = re.search(r"(?ms)^failregex = (.*?)^journalmatch", file.read())[1].split("\n")
    wanted = [it.strip().replace("%(__prefix_line)s", "").replace("<ADDR>", r"(?P<address>[0-9a-f:.]+?)") for it in said if it.strip()]
    told = b"".join(trial.told).decode().splitlines()
    for line in told:
        found = [it["address"] for it in (re.search(expression, line) for expression in wanted) if it]
        trial.is_so(f"the filter, {line}", found, ["127.0.0.1"] if CAUGHT.match(line) else [])
    if shutil.which("fail2ban-regex") is None or not os.path.exists(COMMON):
        print("the filter was not tried by fail2ban, which is not installed")
        return
    shutil.copy(COMMON, trial.folder)
    shutil.copy(f"{TOP}/examples/fail2ban_filter.conf", f"{trial.folder}/board.conf")
    with open(f"{trial.folder}/journal", "w", encoding="ascii") as file:
        file.writelines(f"{time.strftime('%b %d %H:%M:%S')} host board[12]: {line}\n" for line in told)
    found = subprocess.run(["fail2ban-regex", f"{trial.folder}/journal", f"{trial.folder}/board.conf"], capture_output=True, encoding="utf-8", check=False)
    matched = re.search(r"(?m)^Lines: .* (\d+) matched, (\d+) missed", found.stdout)
    caught = sum(CAUGHT.match(line) is not None for line in told)
    trial.is_so(f"the filter, by fail2ban: {found.stdout[-300:]}", matched and (int(matched[1]), int(matched[2])), (caught, len(told) - caught))


def try_packs(trial):
    """Packs by the bell and by a sysop."""
    begins(trial, "--calls", "1")
    last = b"bell: area %d: packed, live 0 dropped 0\n" % len(AREAS)
    trial.holds("the last pack by the bell", waits(lambda: last in trial.told))
    caller = trial.guest(SYSOP)
    side = at(caller)
    number = caller.posts(b"All", b"of a secret", [b"a secret text"])
    caller.answers(b"k %d" % number, b"Killed %d.\r\n" % number, b"[general] ")
    caller.enters(b"x", b"[general] ")
    caller.quits()
    name = NAMES[SYSOP]
    trial.is_so("a pack by a sysop", lines_of(trial, side),
                [b"connected", b"logged in as " + name, b"area 1: pack begins", b"area 1: packed, live 0 dropped 1", b"ended after S s: left, " + name])
    for _ in range(len(NAMES) - 1):
        trial.caller("who leaves").line.close()
    trial.ends("packs", 0)
    trial.is_so("packs by the bell", [line for line in trial.told if line.startswith(b"bell: ")],
                [b"bell: area %d: %s\n" % (k + 1, what) for k in range(len(AREAS)) for what in (b"pack begins", b"packed, live 0 dropped 0")])
    trial.holds("a text in it", b"secret" not in b"".join(trial.told))


def try_doubt(trial):
    """A disk that fails."""
    trial.has_bases()
    trial.has_settings(settings(AREAS, users(), port=trial.port, nodes=2, pack_minutes=0))
    trial.begins(nodes=2, preexec_fn=with_limit(40, is_lasting=False))
    caller = trial.guest(0, "letters")
    side = at(caller)
    for _ in range(2):
        trial.is_so("a post into it", caller.writes(b"All", b"it fails", [b"a line"], prompt=b"[letters] "), IN_DOUBT)
    lifts(trial.process)
    caller.posts(b"All", b"it is well again", [b"a line"], prompt=b"[letters] ")
    caller.quits()
    trial.is_so("a disk that fails", lines_of(trial, side),
                [b"connected", b"logged in as Ada", *[b"area 2: the device failed, in doubt"] * 2, b"area 2: settled", b"ended after S s: left, Ada"])
    trial.is_ended("a disk that fails")


def try_opening(trial):
    """A change that waits in the journal of one area."""
    trial.has_bases()
    write_files(trial.areas, AREAS[1], {"jnl": journal_of([(0, 8, b"\7\0\0\0")])}, spelled=str.upper)
    trial.begins()
    told = b"board: areas/%s: a change that waited in its journal is done\n" % AREAS[1].encode()
    trial.user(0).quits()
    trial.is_ended("a change that waits")
    trial.is_so("how often it is told", trial.told.count(told), 1)
    trial.is_so("what it has written", trial.files(AREAS[1])["jhr"][8:12], b"\7\0\0\0")
    trial.begins()
    trial.user(0).quits()
    trial.is_ended("none that waits")
    trial.holds("nothing is told of one", not any(b"journal" in line for line in trial.told))


if __name__ == "__main__":
    goes_through(Served, "lines of the log", (try_ends, try_refusals, try_packs, try_doubt, try_opening), in_memory=False)
