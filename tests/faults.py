#!/usr/bin/env python3
"""Tries an area that is shared by nodes, over a disk that fails: each call of the disk that a change makes, one after another.

usage: faults.py PROGRAM [--all]

PROGRAM is that of crates/trial, whose README tells the rows that it reads; one process answers all of them. On five messages a node
posts, replies, reads, kills, edits, marks, relinks or packs while the first call of the disk fails, or the second, and so on until none does.
The node has to be told of a store fault. Until another node's call ends the doubt looks show the area as it was, and from then on all that is
answered, and what the closed area holds when it is opened anew, is as if the node had asked nothing, or as if that had been done: the one up to
some call of the disk, behind which the gate was open, and the other from there on. The same where the area is closed in doubt. What has to be
answered is told by the model of an area (area.py). With --all a call of the disk fails besides in what comes next.
"""
import copy
import re
import subprocess
import sys

from area import Area, Message, User
from harness import LIMIT, Trial, goes_through

# more than the calls of the disk that any change here makes, and that a reopening makes with a change behind it
MOST_CALLS, MOST_CALLS_BEHIND = 40, 40
FAULT = "StoreFault"
FIVE = ["call 1 Test 20 post 0"] * 5
THREAD = [f"call 1 Test 20 post {n}" for n in (0, 1, 1, 3, 3)] + ["call 1 Test 20 mark 3"] + [f"call 1 Test 20 kill {n}" for n in (1, 2, 4)]
ACTS = {
    "a post": (FIVE, "call 1 Test 20 post 0"),
    "a first reply": (FIVE, "call 1 Hello 20 post 3"),
    "another reply": (THREAD, "call 1 Test 20 private 3"),
    "a reading": (FIVE, "call 1 Hello 20 read 2"),
    "a kill": (FIVE, "call 1 Test 20 kill 3"),
    "an edit": (FIVE, "call 1 Test 20 edit 3"),
    "an edit by the sysop": (THREAD, "call 1 Sysop 200 edit 3"),
    "a first mark": (FIVE, "call 1 Test 20 mark 3"),
    "another mark": (THREAD, "call 1 Test 20 mark 1"),
    "a relink": (THREAD, "call 1 Sysop 200 relink 0"),
    "a pack": (THREAD, "call 1 Sysop 200 pack 0"),
}
LOOKS = ["list {} Sysop 200", "unread {} Test 20", "to {} Hello 20", "figures {} Test 20", "figures {} Hello 20", "count {} Test 20"]
PEEKS = ["call {} Sysop 200 peek %d" % number for number in range(9)]


def letter(area, number):
    """A message in the words of the program: a post is about `abc`, an edit makes it about `abcd`, the text is the name of who asked, and all
    are of one moment."""
    message = area.messages[number]
    msgid, reply_id = (area.msgid(it).decode().replace(" ", "%20") if it else "-" for it in (number, message.answers))
    return (f"Text {number} {message.sender} {message.receiver} {message.subject} {message.text[0]} {msgid} {reply_id} 1000000000 {message.attribute():x} "
            f"{'/'.join(map(str, message.links))}")


def reply(found):
    """A reply of the model in the words of the program."""
    return f"{type(found).__name__} {{ {', '.join(f'{name}: {value}' for name, value in found._asdict().items())} }}"


def called(area, user, word, number):
    """What is answered to a call. A private post is to Sysop, any other to Hello."""
    if word in ("post", "private"):
        message = Message(user.name, "Sysop" if word == "private" else "Hello", "abc", [user.name], word == "private", number)
        return reply(area.post(user, message))
    if word in ("relink", "pack"):
        return reply(getattr(area, word)(user))
    if word == "edit":
        return reply(area.edit(user, number, "abcd", [user.name]))
    if word in ("kill", "mark"):
        return reply(getattr(area, word)(user, number))
    # a peek is a look at a copy, which is not counted
    found = (area if word == "read" else copy.deepcopy(area)).read(user, number)
    return letter(area, number) if isinstance(found, Message) else reply(found)


def answer(area, row):
    """What the program has to write for a row, and what that does to the area; those ask who may."""
    word, *words = row.split()
    if word in ("base", "share"):
        return {"base": "base", "share": "shared"}[word]
    if word == "close":
        return f"at rest, {len(area.live())} live"
    user = User(words[1], int(words[2]))
    if word == "call":
        return called(area, user, words[3], int(words[4]))
    if word == "figures":
        return reply(area.figures(user))
    if word == "count":
        return f"{len(area.unread(user))} unread"
    numbers = {"list": area.seen, "unread": area.unread, "to": area.addressed}[word](user)
    return " ".join(["numbers", *map(str, numbers)])


def after(area, rows):
    """The area behind these rows."""
    area = copy.deepcopy(area)
    for row in rows:
        answer(area, row)
    return area


def told(area, rows):
    """What is answered to these rows, by a copy of the area."""
    area = copy.deepcopy(area)
    return [answer(area, row) for row in rows]


def looks(nodes):
    """Each look, and what each message is, from these nodes in turn."""
    return [row.format(nodes[n % len(nodes)]) for n, row in enumerate(LOOKS)], [row.format(nodes[n % len(nodes)]) for n, row in enumerate(PEEKS)]


class Case:
    """A change by node 1, and what node 2 does next: a call, or nothing, where the area is closed in doubt."""

    def __init__(self, what, setup, act, behind):
        self.what, self.act, self.behind = f"{what}, then {behind or 'closed'}", act, behind
        self.setup = ["base", "share 1", *setup, "close"]
        self.before = after(Area(), self.setup)
        self.done = after(self.before, [act])
        shown, peeks = looks((2, 3, 1))
        self.doubt = shown
        self.rest = ["close"] if not behind else [*shown, *peeks, "close"]
        shown, peeks = looks((1,))
        self.anew = ["share 1", *shown, *peeks, "close"]

    def rows(self, *failing):
        """The rows of a run in which these calls of the disk fail."""
        share = " ".join(map(str, ("share 3", *failing)))
        behind = [self.behind, *(self.doubt + [self.behind.replace("call 2", "call 3")] if len(failing) == 2 else [])] if self.behind else []
        return [*self.setup, share, self.act, *self.doubt, *behind, *self.rest, *self.anew]

    def told_before(self):
        return [*told(Area(), self.setup), "shared"]

    def told_rest(self, area):
        """What is told of an area at rest, and when it is opened anew."""
        return told(area, [*self.rest, *self.anew])

    def without_fault(self):
        behind = [self.behind] if self.behind else []
        return [*self.told_before(), *told(self.before, [self.act]), *told(self.done, [*self.doubt, *behind]), *self.told_rest(after(self.done, behind))]

    def with_fault(self, settled):
        """What is told where the change is stopped, and is found to have left this area."""
        begin = [*self.told_before(), FAULT, *told(self.before, self.doubt)]
        if not self.behind:
            return [*begin, f"in doubt, {len(self.before.live())} live", *told(settled, self.anew)]
        return [*begin, *told(settled, [self.behind]), *self.told_rest(after(settled, [self.behind]))]

    def with_two_faults(self, settled, shown, is_done):
        """What is told where what comes next is stopped too, when this is shown, and has then been done, or not."""
        left = after(settled, [self.behind] * is_done)
        again = self.behind.replace("call 2", "call 3")
        return [*self.told_before(), FAULT, *told(self.before, self.doubt), FAULT, *told(shown, self.doubt), *told(left, [again]),
                *self.told_rest(after(left, [again]))]

    def place(self):
        """The place of the change among the rows."""
        return len(self.setup) + 1


def cases():
    for what, (setup, act) in ACTS.items():
        for behind in ("call 2 Sysop 200 peek 3", "call 2 Hello 20 post 5", act.replace("call 1", "call 2"), None):
            yield Case(what, setup, act, behind)


def run(program, runs):
    """What the program writes for the rows of each run."""
    rows = [row for one in runs for row in one]
    done = subprocess.run([program], input="\n".join(rows) + "\n", stdout=subprocess.PIPE, text=True, timeout=LIMIT, check=False)
    lines, at = done.stdout.split("\n"), 0
    if done.returncode != 0 or len(lines) != len(rows) + 1:
        sys.exit(f"{program}: status {done.returncode}, and {len(lines) - 1} lines for {len(rows)} rows")
    found = []
    for one in runs:
        found.append(lines[at:at + len(one)])
        at += len(one)
    return found


def first_other(rows, found, wanted):
    """The first row that is answered otherwise, with both answers, or none."""
    return next((f"{row!r} is answered {it!r}, where {that!r} is wanted" for row, it, that in zip(rows, found, wanted) if it != that), None)


def try_case(trial, case, found):
    """Looks at the runs of a case, first the one without a fault, and tells the fate of the change by the call of the disk that failed: it falls
    (f), it stands (s), or what is told is the same (?)."""
    falls, stands, whole, at = case.with_fault(case.before), case.with_fault(case.done), case.without_fault(), case.place()
    fate = ""
    other = first_other(case.rows(), found[0], whole)
    trial.holds(f"{case.what}, without a fault: {other}", other is None)
    for call, lines in enumerate(found[1:], 1):
        what = f"{case.what}, call {call} of the disk fails"
        if lines[at] != FAULT:
            # what fails then, if anything does, comes behind the change
            end = lines.index(FAULT, at) if FAULT in lines[at:] else len(lines)
            other, letter = first_other(case.rows(call)[:end], lines, whole), "."
        else:
            others = [first_other(case.rows(call), lines, it) for it in (falls, stands)]
            other, letter = None, "?" if others == [None, None] else "f" if others[0] is None else "s"
            if None not in others:
                other, letter = f"{others[0]} where it falls, and {others[1]} where it stands", "x"
        fate += letter
        trial.holds(f"{what}: {other}", other is None)
    return fate


def try_faults(trial):
    """Each change with each call of the disk failing, and where that is asked for with a second one behind it."""
    fates, all_cases = {}, list(cases())
    runs = [[case.rows()] + [case.rows(call) for call in range(1, MOST_CALLS + 1)] for case in all_cases]
    found = run(trial.program, [rows for one in runs for rows in one])
    for n, case in enumerate(all_cases):
        fate = try_case(trial, case, found[n * (MOST_CALLS + 1):(n + 1) * (MOST_CALLS + 1)])
        trial.holds(f"{case.what}: first it falls and then it stands, and there is an end: {fate}", re.fullmatch(r"f+s+\.+|\?+\.+", fate) is not None)
        fates.setdefault((tuple(case.setup), case.act), []).append((case, fate))
    for told_of in fates.values():
        kinds = {fate for _, fate in told_of if "?" not in fate}
        trial.is_so(f"{told_of[0][0].what}: whatever comes next, one fate", len(kinds), 1)
        trial.is_so(f"{told_of[0][0].what}: how many calls fail", len({fate.count(".") for _, fate in told_of}), 1)
        for case, fate in told_of if trial.option else ():
            if case.behind:
                try_two_faults(trial, case, fate)


def try_two_faults(trial, case, fate):
    """The change is stopped at each call of the disk, and so is what comes next, at each of its own: it is not begun, or falls, or stands; and the
    change has the fate that it had."""
    if "x" in fate:
        return
    calls = len(fate.rstrip("."))
    runs = [(call, case.rows(call, call + more)) for call in range(1, calls + 1) for more in range(1, MOST_CALLS_BEHIND + 1)]
    found = run(trial.program, [rows for _, rows in runs])
    place, ranks, told_of = case.place() + 1 + len(case.doubt), {}, {}
    for fated, areas in (("f", [case.before]), ("s", [case.done]), ("?", [case.before, case.done])):
        told_of[fated] = [(rank, case.with_two_faults(area, shown, rank == 2)) for area in areas
                          for rank, shown in enumerate((case.before, area, area))]
    for (call, rows), lines in zip(runs, found):
        if lines[place] != FAULT:
            continue
        wanted = told_of[fate[call - 1]]
        fits = [rank for rank, it in wanted if it == lines]
        others = [] if fits else [first_other(rows, lines, it) for _, it in wanted]
        if trial.holds(f"{case.what}, {rows[len(case.setup)]}: {others}", bool(fits)):
            ranks.setdefault(call, []).append(min(fits))
    for call in range(1, calls + 1):
        found = ranks.get(call, [])
        trial.holds(f"{case.what}, call {call} of the disk fails: what comes next is not begun, then falls, then stands, and there is an end: {found}",
                    found == sorted(found) and 0 < len(found) < MOST_CALLS_BEHIND)


if __name__ == "__main__":
    goes_through(Trial, "faults of a shared area's disk", [try_faults], option="--all")
