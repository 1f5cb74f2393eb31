"""What strace tells of a run: the calls that write, sync or rename, as words on the files of a base; and the order in which a change makes them, that of
docs/ARCHITECTURE.md, "The way of a key press".
"""
import os
import re

# the bytes that are told of each call are enough to know it by
TRACED = ("-s", "64", "-e", "trace=write,writev,pwrite64,pwritev,pwritev2,ftruncate,truncate,fallocate,fsync,fdatasync,"
          "sync_file_range,syncfs,sync,msync,rename,renameat,renameat2,unlink,unlinkat,link,linkat,copy_file_range,sendfile,splice")
# what is written as the first byte of the journal, also by a program whose journal is of the first version
GATES = {r'"\2"': "gate opened", r'"\1"': "first gate opened", r'"\0"': "gate closed"}
CALL = re.compile(r"(?:\d+ +)?(\w+)\((?:\d+<([^>]*)>)?(?:, )?(.*)\) += (-?\d+)")
OPENING = "jhr sync, folder sync, jdt sync, jdx sync, jlr sync, jnl sync, "
# a journal of the first version, or of none, becomes one of the second
CONVERSION = "jnl len, jnl sync, jnl write, jnl sync, "
CHANGE = r"((?:\w+ (?:len|write), )+)((?:\w+ sync, )+)gate closed, jnl sync, "
COMMIT = r"jnl len, (?:jnl write, )+jnl sync, gate opened, jnl sync, " + CHANGE


def told(line):
    """A line of strace as a word on a file and what was done to it; none where no call was done."""
    found = CALL.match(line)
    if not found:
        return None
    call, path, rest, answer = found.groups()
    if call == "write":
        return "printed"
    extension = os.path.splitext(path or "")[1][1:].lower()
    if answer == "-1":
        return f"{extension} {call} failed"
    if call == "fsync":
        return f"{extension or 'folder'} sync"
    if call == "ftruncate":
        return f"{extension} len"
    if call == "pwrite64" and extension == "jnl" and rest.endswith(", 1, 0"):
        return GATES.get(rest[:4], "gate otherwise")
    return f"{extension} write" if call == "pwrite64" and rest.split(", ")[-2] == answer else f"{extension} {call}"


def words_of(trace):
    """The calls of a trace, each with a comma behind it."""
    return "".join(f"{call}, " for call in map(told, trace) if call)
