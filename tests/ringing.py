#!/usr/bin/env python3
"""Tries when the bell of `board serve CONF` of the built program rings, and that each ring packs what was killed in its area.

usage: ringing.py PROGRAM

Where the calls are counted it has to ring for each area at once, however long the minutes are. Where they are not, it is tried on a clock that runs
faster: a library in C that is loaded before the program divides what is waited for, and multiplies what a clock shows. Where there is no compiler for
it, a line says so, and the rest is tried.
"""
import shutil
import subprocess
import time

from caller import GUARD, Otherwise
from harness import AREAS, SYSOP, Served, goes_through, settings, users
from jam import DELETED

# the most minutes that may be set, and those that are set on the clock that runs faster; how many seconds one takes there
MOST_MINUTES, MINUTES, SECONDS = 10_080, 2, 0.5
FASTER = r"""
#include <sys/syscall.h>
#include <time.h>
#include <unistd.h>
enum { CLOCKS = 16 };
static long long first[CLOCKS];
static long long shown(clockid_t clock) {
    struct timespec now;
    syscall(SYS_clock_gettime, clock, &now);
    return now.tv_sec * 1000000000LL + now.tv_nsec;
}
static struct timespec time_of(long long count) { return (struct timespec){ count / 1000000000LL, count % 1000000000LL }; }
__attribute__((constructor)) static void begin(void) { for (int n = 0; n < CLOCKS; n++) first[n] = shown(n); }
int clock_gettime(clockid_t clock, struct timespec *now) {
    if (clock < 0 || clock >= CLOCKS) return syscall(SYS_clock_gettime, clock, now);
    *now = time_of(first[clock] + (shown(clock) - first[clock]) * TIMES);
    return 0;
}
int nanosleep(const struct timespec *whole, struct timespec *left) {
    struct timespec part = time_of((whole->tv_sec * 1000000000LL + whole->tv_nsec) / TIMES);
    return syscall(SYS_nanosleep, &part, left);
}
"""


def begins(trial, areas, minutes, *words, **run):
    """Begins to serve these areas, in each of which a message was killed, with so many minutes between two packs."""
    trial.has_letters(*areas, attribute=DELETED)
    trial.has_settings(settings(areas, users(), port=trial.port, nodes=2, pack_minutes=minutes))
    trial.begins(*words, areas=areas, nodes=2, **run)


def rings(trial):
    """What is told of each ring: the area, and what its pack has dropped."""
    return [line.removeprefix(b"bell: area ") for line in trial.told if line.startswith(b"bell: ")]


def rung(*areas):
    """The same of rings for these areas, in each of which the one message that is there is dropped."""
    return [b"%d: %s\n" % (area, what) for area in areas for what in (b"pack begins", b"packed, live 0 dropped 1")]


def comes(trial, *areas):
    """Waits until the bell has rung so often, looks whether it was for these areas first, and gives the moment."""
    end, wanted = time.monotonic() + GUARD, rung(*areas)
    while len(rings(trial)) < len(wanted) and time.monotonic() < end:
        time.sleep(0.01)
    moment = time.monotonic()
    if not trial.is_so(f"ring {len(areas)}: what the bell has packed", rings(trial)[:len(wanted)], wanted):
        raise Otherwise("the bell has to ring otherwise")
    return moment


def kills_one(trial, caller):
    """A post in the first area, where none is left, that is killed at once."""
    number = caller.posts(b"All", b"soon killed", [b"a line"])
    caller.answers(b"k %d" % number, b"Killed %d.\r\n" % number, b"[general] ")
    trial.is_so("the message that is killed", number, 2)


def left(trial, *areas):
    """What is left in each of these areas: its base number, and how many messages are there, killed or not."""
    return [(base.number, len(base.slots)) for base in map(trial.base, areas)]


def try_calls(trial):
    """Over a number of calls it rings for each area once, at once, before anybody calls, and is then shut."""
    areas = AREAS[:2]
    begins(trial, areas, MOST_MINUTES, "--calls", "1")
    comes(trial, 1, 2)
    trial.is_so("what is packed before anybody calls", left(trial, *areas), [(2, 0), (2, 0)])
    caller = trial.guest(SYSOP)
    kills_one(trial, caller)
    caller.quits()
    trial.caller("who leaves").line.close()
    trial.ends("a number of calls", 0)
    trial.is_so("how often it has rung", rings(trial), rung(1, 2))
    trial.is_so("what was killed behind its ring is there", left(trial, *areas), [(2, 1), (2, 0)])


def try_none(trial):
    """With no minutes it does not ring."""
    begins(trial, AREAS[:1], 0, "--calls", "1")
    for _ in range(2):
        trial.caller("who leaves").line.close()
    trial.ends("no minutes", 0)
    trial.is_so("with no minutes", (rings(trial), left(trial, *AREAS[:1])), ([], [(1, 1)]))


def try_minutes(trial):
    """Without a number of calls it rings for one area after another, and for the first again behind the last, each time after so many minutes."""
    library, areas, between = f"{trial.folder}/faster.so", AREAS[:2], MINUTES * SECONDS
    with open(f"{trial.folder}/faster.c", "w") as file:
        file.write(FASTER)
    subprocess.run(["cc", "-O2", "-shared", "-fPIC", f"-DTIMES={int(60 / SECONDS)}", "-o", library, f"{trial.folder}/faster.c"], check=True)
    since = time.monotonic()
    begins(trial, areas, MINUTES, env={"LD_PRELOAD": library})
    caller = trial.guest(SYSOP)
    served = time.monotonic()
    moments = [comes(trial, 1)]
    trial.is_so("what is packed by the first ring", left(trial, areas[0]), [(2, 0)])
    kills_one(trial, caller)
    moments += [comes(trial, 1, 2), comes(trial, 1, 2, 1)]
    trial.is_so("what is packed by three rings", left(trial, *areas), [(3, 0), (2, 0)])
    for n, moment in enumerate(moments, 1):
        trial.holds(f"ring {n} came {moment - since:.3f} s behind the start, where {n * between} are the least", moment - since >= n * between)
    # two more are left for what else the machine has to do, and it would be six of twice as long
    trial.holds(f"three rings came in {moments[-1] - served:.3f} s, where {5 * between} are the most", moments[-1] - served < 5 * between)
    caller.quits()
    trial.is_ended("a bell that goes on")


if __name__ == "__main__":
    tries = [try_calls, try_none]
    if shutil.which("cc") is not None:
        tries.append(try_minutes)
    else:
        print("the minutes between two packs were not tried: there is no C compiler for a clock that runs faster")
    goes_through(Served, "rings of the bell", tries)
