#!/bin/sh
# Times the tools of `board` over real files against `cat` and `cp` of the same files, in one run, five times each: `list`,
# `check`, `relink` and `pack` of a base of 60,000 messages of which every third answers another, none is linked, and every tenth is killed. What
# writes is used on a fresh copy each time.
top=$(cd "$(dirname "$0")/.." && pwd)
work=$(mktemp -d "${1:-${TMPDIR:-/tmp}}/tools.XXXXXX") && trap 'rm -rf "$work"' EXIT
python3 "$top/bench/make_base.py" "$work" big 60000 used || exit 1
"$top/board" list "$work" big >"$work/out" || exit 1
python3 - "$top" "$work" <<'PY'
import os
import shutil
import subprocess
import sys
import time

top, work = sys.argv[1:]
with open(f"{top}/crates/board/out/board.serves") as file:
    program = f"{top}/{file.read().strip()}"
files = [f"{work}/big.{extension}" for extension in ("JHR", "JDT", "JDX", "JLR")]


def copy():
    """A fresh copy of the base in a folder of its own, written through to the disk."""
    shutil.rmtree(f"{work}/copy", ignore_errors=True)
    os.mkdir(f"{work}/copy")
    for path in files:
        shutil.copy(path, f"{work}/copy")
    os.sync()


def least(words, before=lambda: None):
    """The least time of five runs, in seconds, each after what comes before it."""
    times = []
    for _ in range(5):
        before()
        begun = time.perf_counter()
        subprocess.run(words, stdout=subprocess.DEVNULL, check=True)
        times.append(time.perf_counter() - begun)
    return min(times)


def fresh():
    shutil.rmtree(f"{work}/to", ignore_errors=True)
    os.mkdir(f"{work}/to")
    os.sync()


read = least(["cat", *files])
copied = least(["sh", "-c", f"cp {' '.join(files)} {work}/to && sync {work}/to/*"], fresh)
print(f"cat of the four files {read * 1000:.0f} ms, cp and sync of them {copied * 1000:.0f} ms")
for word in ("list", "check", "relink", "pack"):
    took = least([program, word, f"{work}/copy", "big"], copy)
    print(f"{word} {took * 1000:.0f} ms: {took / read:.1f} times cat, {took / copied:.1f} times cp and sync")
PY
