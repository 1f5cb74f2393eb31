#!/usr/bin/env python3
"""Tries what the operator is told on the error output: whether words.txt has the words of each fault line, as the sources have them; the ranges of the
settings, as docs/FORMATS.md has them; settings that are refused or read (settings.txt); where settings are no document; keys that are not known; who logs
in, by the example too; and digests of the example.

usage: words.py PROGRAM

That each refusal is told in the words of words.txt, all scripts look that end with one.
"""
import re

from harness import LOCAL, TOP, WORDS, Runs, free_port, goes_through, is_told, lines, settings
from visits import ANSWERED, FIRST

CONF = "crates/jb_conf/src/error.rt"
MEANINGS = ("crates/jb_run/src/meanings.rt", "crates/jb_board/src/meaning.rt")
# what the three tables of a settings file have, and values that are out of the range of a field
HEAD, AREA, USER = {"name": '"b"', "address": '"a"'}, {"name": '"a"', "dir": '"d"', "base": '"b"'}, {"name": '"u"', "id": "1", "level": "1", "digest": '"00"'}
# a user whose password is `password`
USER_WITH_SALT = """[[user]]
name = "Salted"
id = 10
level = 0
salt = "SALT"
digest = "f0f0d1020694a9a2d2937e16a589e25e368180633ddcb73a885e29c36b25b61c"
"""
OTHER = {"kind": '"Echo"', "salt": f'"{"s" * 65}"', "area": "[]", "user": "[]"}


def text_of(path):
    with open(f"{TOP}/{path}", encoding="utf-8") as file:
        return file.read()


def try_table(trial):
    """The table has each name of a fault line, and its words are those of the sources."""
    trial.is_so("the names of the table", sorted(WORDS), sorted(set(re.findall(r'"fault ([\d.]+ \w+)"', text_of("crates/jb_board/src/fault.rt")))))
    words = {name.split(" ")[1]: said for name, said in WORDS.items()}
    told = [(name, said) for path in MEANINGS for name, said in re.findall(r'\w+::(\w+)(?: \{[^}]*\})? => \{?\s*"([^"]+)"', text_of(path))]
    told += [(name, said) for said, name in re.findall(r'#\[error\("([^"]+)"\)\]\s*(\w+)', text_of(CONF)) if name != "OutOfMemory"]
    trial.holds(f"{len(told)} words in the sources, {len(words)} names", len(told) > len(words))
    for name, said in told:
        if name not in ("HostFault", "Settings"):
            trial.holds(f"{name}: {said!r} is told, where the table has {words.get(name)!r}", words.get(name, "").startswith(said))


def written(**changed):
    """A settings file with other fields in some of its tables; one without an array has no such table."""
    tables = {"head": HEAD, "area": AREA, "user": USER}
    texts = {it: "".join(f"{key} = {value}\n" for key, value in (fields | changed.get(it, {})).items()) for it, fields in tables.items()}
    left_out = changed.get("head", {})
    return texts["head"] + "".join(f"[[{it}]]\n{texts[it]}" for it in ("area", "user") if it not in left_out)


def try_ranges(trial):
    """A value out of its range is told with the range that the document has."""
    rows = re.findall(r"^\| (`.*?) \| (.*?) \| (.*?) \|", text_of("docs/FORMATS.md").split("## Settings")[1].split("**Order of the tests.**")[0], re.M)
    fields = [(name, kind, bounds) for names, kind, bounds in rows for name in re.findall(r"`([\w.]+)`", names) if not name.endswith("digest")]
    trial.is_so("how many fields there are", len(fields), 22)
    for name, kind, bounds in fields:
        table, _, key = name.replace(".K.", ".").rpartition(".")
        value = OTHER.get(key, '""' if kind == "text" else "99999999")
        trial.has_settings(written(**{table or "head": {key: value}}))
        bounds = re.split(r"; no |; `dir`", bounds)[0].replace("`", "")
        shown = name.replace("K", "1")
        found = trial.done(*LOCAL)
        wanted = f"fault 2.4 OutOfRange {shown}\n", 2, f"board: board.toml: {shown} is out of its range, which is {bounds}\n"
        trial.is_so(f"{shown} = {value[:20]}", found, tuple(it.encode() if isinstance(it, str) else it for it in wanted))


def rows_of_settings():
    """The file of settings.txt, by its lines, and each of its rows: what is answered, the lines that go, and the text in their place."""
    told = [line for line in text_of("tests/settings.txt").split("\n") if line and line[0] != "#"]
    rows = [line.split(" | ", 2) for line in told if " | " in line]
    return [line for line in told if " | " not in line], [(wanted, *map(int, lines.split()), text) for wanted, lines, text in rows]


def text_in(text):
    """The bytes of a text of a row."""
    text = re.sub(r"\{(.)\*(\d+)\}", lambda many: many[1] * int(many[2]), text)
    return re.sub(rb"\\x(..)", lambda byte: bytes.fromhex(byte[1].decode()), text.encode().replace(b"\\n", b"\n"))


def try_settings(trial):
    """Each row of settings.txt is answered as it says, and told in words."""
    trial.has_letters("general")
    file, rows = rows_of_settings()
    trial.holds(f"{len(rows)} rows over {len(file)} lines", len(rows) > 90 and len(file) == 15)
    for wanted, at, count, text in rows:
        changed = [line.encode() for line in file]
        changed[at - 1:at - 1 + count] = [text_in(text)]
        with open(f"{trial.folder}/board.toml", "wb") as settings_file:
            settings_file.write(b"\n".join(changed) + b"\n")
        printed, status, told = trial.done(*LOCAL, typed=b"")
        what = f"lines {at} to {at + count - 1} are {text[:60]!r}"
        if wanted == "read":
            is_read = printed.startswith((b"fault 3.1 ", b"fault 4 ")) if status else printed.endswith(b"Name: ")
            trial.holds(f"{what}: {printed[:60]}, {status}, {told[:60]}", is_read)
        else:
            trial.is_so(what, (printed, status), (f"fault {wanted}\n".encode(), 2))
            trial.holds(f"{what}: the error output: {told}", is_told(told, printed))


def try_log_ins(trial):
    """The right password logs in, whatever the case of the name and whoever has a salt; by the example too, where nobody is the sysop yet."""
    salted = settings() + USER_WITH_SALT
    example = text_of("examples/board.toml")
    for text, name, password, user in (
            (salted, "Test", "abc", "Test"), (salted, "tEST", "abc", "Test"), (salted, "Hello", "test", "Hello"), (salted, "sysop", "hello", "Sysop"),
            (salted, "Salted", "password", "Salted"), (salted, "Salted", "SALTpassword", None), (salted, "Test", "abcd", None),
            (salted, "Test", "test", None), (salted, "Nobody", "abc", None), (example, "ada", "good morning", "Ada"), (example, "guest", "guest", "Guest"),
            (example, "ada", "guest", None), *((example, "sysop", it, None) for it in ("change me", "sysop", "password", "good morning", "guest"))):
        trial.has_letters("general")
        trial.has_settings(text)
        printed, status, told = trial.done(*LOCAL, typed=lines([name, password, "Q"]))
        said = b"Password: " + (f"Welcome, {user}.".encode() if user else b"Login incorrect.")
        trial.holds(f"{name} with {password!r}: {printed}, {status}, {told}", said in printed and (b"Welcome" in printed) == (user is not None))


def try_places(trial):
    """Where a file is no document, and that it says why."""
    for text, line, column in ((settings() + "port = = 1\n", settings().count("\n") + 1, 8), ("name = 'a\n", 1, None), ('\n\nname = "b" "c"\n', 3, 12)):
        trial.has_settings(text)
        printed, status, told = trial.done(*LOCAL)
        place = b"line %d, column %s: [a-z]" % (line, b"%d" % column if column else rb"\d+")
        trial.holds(f"{text[-20:]!r}: {printed} {status} {told}", (printed, status) == (b"fault 2.1 NotToml\n", 2) and re.search(place, told))


def try_unknown(trial):
    """Each key that is not known is told, and the run goes on."""
    trial.has_letters("general")
    for said, text in ((("colour", "prot", "area.1.raed", '"user.3.a\\tb"', "user.3.slat"),
                        settings(prot=7, colour=1).replace("read = 10", "raed = 200\nread = 10") + 'slat = "x"\n"a\\tb" = 1\n'),
                       (("area.1.x",), settings().replace("read = 10", "x.read = 1\nread = 10")), ((), settings())):
        trial.has_letters("general")
        trial.has_settings(text)
        wanted = FIRST, 0, "".join(f"board: board.toml: {name} is not known\n" for name in said).encode()
        trial.is_so(f"keys that are not known, {said}", trial.done(*LOCAL, typed=lines(ANSWERED)), wanted)


def try_example(trial):
    """Each user whose digest is one of the example is told once callers may come."""
    trial.has_letters("general")
    text = text_of("examples/board.toml").replace("port = 2323", f"port = {free_port()}")
    trial.has_settings(text)
    count = text.count("\ndigest = ")
    with trial.starts("serve", "board.toml") as child:
        told = [child.stderr.readline() for _ in range(2 + count)]
        child.kill()
    trial.is_so("the digests of the example", told[2:], [b"user.%d.digest is one of the example\n" % n for n in range(1, count + 1)])


if __name__ == "__main__":
    goes_through(Runs, "what the operator is told", (try_table, try_ranges, try_settings, try_log_ins, try_places, try_unknown, try_example))
