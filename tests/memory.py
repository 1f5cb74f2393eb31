#!/usr/bin/env python3
"""Tries sessions of the built program in which memory is refused for good from some moment on: one has to end, with what it sent a beginning of
what is to be sent, and what it has done goes as far. In the one a letter is answered, in another it is edited, and in a third pages are sent and read.

usage: memory.py PROGRAM

The moment is each allocation of the session in turn: that one is refused, and all behind it. In refused.py a single one is. The allocator that
refuses is written in C; where there is no compiler for it, a line says so, and nothing is tried.
"""
import shutil

from harness import LOCAL, Runs, goes_through, one_by_one, settings
from visits import ANSWERED, EDIT, EDITED, FIRST, PAGED, PAGES, edit_goes_as_far, goes_as_far, pages_go_as_far

# seconds in which a session has to end that waits for nobody
MOST_SECONDS = 30


def try_moments(trial, words, sent, goes):
    """A session with memory, and then with each moment, up to one at which nothing was refused."""
    trial.has_settings(settings())
    trial.has_allocator()
    run, number, is_come = {"typed": one_by_one(words), "limit": MOST_SECONDS}, 0, True
    trial.has_letters("general")
    trial.is_so("a session with memory", trial.done(*LOCAL, **run), (sent, 0, b""))
    while is_come:
        number += 1
        trial.has_letters("general")
        found, status, is_come = trial.refused(number, *LOCAL, lasts=True, **run)
        what = f"no memory from allocation {number} on"
        has_ended = trial.holds(f"{what}: no end in {MOST_SECONDS} seconds", status is not None)
        is_come = is_come and has_ended
        if is_come:
            goes(trial, what, found, status)
    print(f"{number - 1} sessions lost their memory")


def try_answer(trial):
    try_moments(trial, ANSWERED, FIRST, goes_as_far)


def try_edit(trial):
    try_moments(trial, EDITED, EDIT, edit_goes_as_far)


def try_pages(trial):
    try_moments(trial, PAGED, PAGES, pages_go_as_far)


if __name__ == "__main__":
    if shutil.which("cc") is not None:
        goes_through(Runs, "want of memory that lasts", (try_answer, try_edit, try_pages))
    print("want of memory that lasts was not tried: there is no C compiler for an allocator that refuses")
