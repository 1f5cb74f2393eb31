#!/bin/sh
# Times `board list` and `board check` against `cat` of the same header file and index, in one run, for bases of 1,000, 10,000
# and 60,000 messages: the least processor time of 15 runs each, and that time a message. The runs take turns, so that what else
# the machine does falls on all alike. With `count` behind it the instructions are counted too, where valgrind is there.
top=$(cd "$(dirname "$0")/.." && pwd)
work=$(mktemp -d) && trap 'rm -rf "$work"' EXIT
for count in 1000 10000 60000; do
    python3 "$top/bench/make_base.py" "$work" "base$count" "$count" used || exit 1
done
"$top/board" list "$work" base1000 >"$work/out" || exit 1
python3 - "$top" "$work" "$@" <<'PY'
import os
import re
import subprocess
import sys

top, work = sys.argv[1:3]
SIZES = (1000, 10_000, 60_000)
with open(f"{top}/crates/board/out/board.serves") as file:
    program = f"{top}/{file.read().strip()}"


def spent(words):
    """The processor time of one run, in seconds."""
    with open(os.devnull, "wb") as nowhere:
        child = subprocess.Popen(words, stdout=nowhere)
    _, status, usage = os.wait4(child.pid, 0)
    if status:
        sys.exit(f"{words} ended with {status}")
    return usage.ru_utime + usage.ru_stime


def counted(words):
    """The instructions of one run, by callgrind."""
    run = subprocess.run(["valgrind", "--tool=callgrind", f"--callgrind-out-file={work}/counted", *words],
                         stdout=subprocess.DEVNULL, stderr=subprocess.PIPE, text=True, check=True)
    return int(re.search(r"Collected : (\d+)", run.stderr)[1])


least = {}
for size in SIZES:
    runs = {"list": [program, "list", work, f"base{size}"], "check": [program, "check", work, f"base{size}"],
            "cat": ["cat", f"{work}/base{size}.JHR", f"{work}/base{size}.JDX"]}
    times = {name: [] for name in runs}
    for _ in range(15):
        for name, words in runs.items():
            times[name].append(spent(words))
    least[size] = {name: min(found) for name, found in times.items()}
    for name in ("list", "check"):
        took = least[size][name]
        line = f"{size:6} messages: {name} {took * 1000:.1f} ms, {took / least[size]['cat']:.1f} times cat, {took / size * 1e9:.0f} ns a message"
        if "count" in sys.argv:
            line += f", {counted(runs[name]) / size:.0f} instructions a message"
        print(line)
for name in ("list", "check"):
    # between two sizes, so that the start of the program is left out
    slopes = [(least[b][name] - least[a][name]) / (b - a) * 1e9 for a, b in zip(SIZES, SIZES[1:])]
    print(f"{name}: {slopes[0]:.0f} ns a message more up to {SIZES[1]}, {slopes[1]:.0f} up to {SIZES[2]}")
PY
