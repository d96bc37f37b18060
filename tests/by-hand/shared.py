"""What the scripts of this folder share that spoil files and stop programs: commands, IDs, and readers of
files that know the formats alone."""
import os
import pathlib
import re
import subprocess
import sys

TOP = pathlib.Path(__file__).resolve().parent.parent.parent
RELAY = str(TOP / "relay")
# The program that is tried: the proved one, or the one that the environment names.
GIVEN = os.environ.get("RELAY_PROGRAM")
PROGRAM = GIVEN or str(TOP / "crates" / "relay_main" / "out" / "relay_main")
LETTER = b"Softcairn joins no wrong pages."
REFUSED_ON_ERRORS = {"draw", "print", "deliver", "export", "copy"}
NAME_NO_FILE = {"words", "draw", "read", "plan", "ticket", "audit", "world", "explain", "version"}


def fail(what):
    sys.exit(f"{pathlib.Path(sys.argv[0]).name}: {what}")


def build():
    """Proves and builds the program, by a call that does nothing else, if none is given."""
    if not GIVEN:
        subprocess.run([RELAY, "--help"], check=True, stdout=subprocess.DEVNULL)


def relay(*words, program=PROGRAM, by=(), **options):
    return subprocess.run([*by, program, *words], capture_output=True, check=False, **options)


def check_all_commands(tried, left_out=()):
    """A script tries each command of the program, but for those that it names itself: so a new one is not forgotten."""
    listed = relay("--help").stdout.decode().split("Commands:\n", 1)[1].split("\n\n", 1)[0]
    commands = set(re.findall(r"^  ([a-z]+) ", listed, re.MULTILINE))
    if missing := commands - set(tried) - set(left_out):
        fail(f"no row tries {', '.join(sorted(missing))}: add one, or name it among those that are left out")
    if unknown := (set(tried) | set(left_out)) - commands:
        fail(f"no command of the program is called {', '.join(sorted(unknown))}")


def start(*words, output, **options):
    return subprocess.Popen([PROGRAM, *words], stdout=output, stderr=subprocess.DEVNULL, **options)


def names_of_refusals():
    """The names of refusals that the tables of docs/REFUSALS.md have."""
    tables = (TOP / "docs" / "REFUSALS.md").read_text()
    rows = [line.split("|")[1] for line in tables.splitlines() if line.startswith("|`")]
    return {name for row in rows for name in re.findall(r"`(\w+)`", row)}


def refusal(answer):
    """The name of the refusal that is the last line of an answer, or None where it is none. The commands that write
    images, documents or pages refuse on standard error, the others on standard output, and all say `Write` there."""
    on_errors = bool(REFUSED_ON_ERRORS & {str(word) for word in answer.args})
    for text, is_its_place in ((answer.stdout, not on_errors), (answer.stderr, on_errors)):
        # Beside a refusal a line on standard error may name a file at fault.
        lines = [line for line in text.splitlines() if not line.startswith(b"relay: ")]
        if lines and lines[-1].startswith(b"refused "):
            name = lines[-1].split()[1].decode()
            if not is_its_place and (text is answer.stdout or name != "Write"):
                fail(f"refused on the other stream: {seen(answer)}")
            return name
    return None


def seen(answer):
    """The status and the beginning of each output of an answer."""
    return f"status {answer.returncode}, {answer.stdout[:80]!r} {answer.stderr[:80]!r}"


def check_done(what, answer, line=None):
    """The command was done, and wrote this line where one is given."""
    if answer.returncode != 0 or line is not None and answer.stdout.decode() != f"{line}\n":
        fail(f"{what}: {seen(answer)}, and not {line or 'done'}")


def check_refused(what, answer, name, why=""):
    """What was refused has this name, and a note says why, if that is given."""
    if answer.returncode != 1 or refusal(answer) != name:
        fail(f"{what}: {seen(answer)}, and not refused {name}")
    if why and not answer.stderr.decode().endswith(f": {why}\n"):
        fail(f"{what}: {answer.stderr}, which doesn't end with {why}")


def make_ledger(path, number, first, last):
    answer = relay("ledger", "--file", path, "--number", str(number), "--first", str(first), "--last", str(last))
    check_done("ledger", answer, f"left {last - first + 1}")


def print_letter(path, number, document=LETTER):
    words = ["print", "--file", path, "--number", str(number), "--side", "18", "--scheme", "base256"]
    return relay(*words, input=document)


def id_printed(answer):
    """The ID that a print has printed, or None."""
    lines = answer.stderr.decode().splitlines()
    return lines[0].split()[1] if lines and lines[0].startswith("printed ") else None


def print_all(path, number):
    """The IDs of prints until none is free."""
    found = []
    while True:
        answer = print_letter(path, number)
        if refusal(answer) == "Exhausted":
            return found
        check_done("print", answer)
        found.append(id_printed(answer))


def id_text(number):
    """The two codewords of an ID, in hexadecimal."""
    return f"{number // 254 + 1:02x}{number % 254 + 1:02x}"


def labels(answer):
    """The images of the labels that a print has written."""
    size = len(answer.stdout) // int(answer.stderr.split()[2])
    return [answer.stdout[at : at + size] for at in range(0, len(answer.stdout), size)]


def pages_in(file):
    """The ID, the number of pages and the pages of a file of version 2, or None where there is none."""
    if file[:5] != b"DMPG\x02" or len(file) < 10:
        return None
    entry = entry_at(file, 5)
    return entry[:3] if entry and entry[3] == len(file) else None


def entry_at(file, at):
    """The document that stands in a file from a place on, as (ID, n, pages, the place after it)."""
    head = file[at : at + 5]
    if len(head) < 5 or not is_id(head[0], head[1]) or not 2 <= head[2] <= 16:
        return None
    name, n, mask, at, pages = head[:2].hex(), head[2], int.from_bytes(head[3:5], "big"), at + 5, {}
    if mask == 0 or mask >> n:
        return None
    for m in range(1, n + 1):
        if mask >> (m - 1) & 1:
            length = int.from_bytes(file[at : at + 2], "big")
            if len(file) < at + 2 + length or length > 2600:
                return None
            pages[m] = file[at + 2 : at + 2 + length]
            at += 2 + length
    return name, n, pages, at


def is_id(first, second):
    return 1 <= first <= 254 and 1 <= second <= 254


def joint_file(files):
    """The file of version 1 in which the documents of these files of version 2, by rising ID, stand."""
    return b"DMPG\x01" + len(files).to_bytes(2, "big") + b"".join(file[5:] for file in files)


def documents_in(joint):
    """The documents of a file of version 1, each as (ID, n, pages), or None where the bytes are none."""
    if joint[:5] != b"DMPG\x01" or len(joint) < 7:
        return None
    found, at = [], 7
    for _ in range(int.from_bytes(joint[5:7], "big")):
        entry = entry_at(joint, at)
        if entry is None:
            return None
        found.append(entry[:3])
        at = entry[3]
    return found if at == len(joint) else None


def free_in(ledger):
    """The numbers that a ledger of version 2 has as free, or None where the bytes are no ledger."""
    if ledger[:5] != b"DMLG\x02" or len(ledger) < 13 or len(ledger) < 13 + 4 * ledger[9]:
        return None
    pairs = [ledger[at : at + 4] for at in range(10, 10 + 4 * ledger[9], 4)]
    ranges = [(int.from_bytes(pair[:2], "big"), int.from_bytes(pair[2:], "big")) for pair in pairs]
    return {number for first, last in ranges for number in range(first, last + 1)}


def is_saved(path):
    """Whether a file is one of saved bytes: not one that a save has written beside and not renamed, nor an empty lock."""
    return path.is_file() and path.suffix != ".new" and (path.suffix != ".lock" or path.stat().st_size > 0)


def snapshot(folder):
    """The bytes of each file of saved bytes below a folder."""
    paths = sorted(path for path in pathlib.Path(folder).rglob("*") if is_saved(path))
    return {str(path.relative_to(folder)): path.read_bytes() for path in paths}
