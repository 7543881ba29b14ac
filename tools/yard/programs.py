"""The proved programs that commands of yard run, crates/NAME/out/NAME or NAME in the folder that --programs names, and the sheets that they write."""
import os
import re
import subprocess

from yard import Wrong, in_file, read_file, text_of

COLUMNS = ["slot", "code word", "rounds", "holder", "strays", "faults", "free", "met"]
TRAINS = [3, 7]  # which columns hold trains
BUILT = os.path.join(os.path.dirname(os.path.dirname(os.path.dirname(os.path.abspath(__file__)))), "crates")


def output(name, given, folder):
    """What a program writes where it reads these bytes."""
    path = os.path.join(folder, name) if folder else os.path.join(BUILT, name, "out", name)
    if not os.path.exists(path):
        raise Wrong(0, f"it is not built: 'rt run' in crates/{name} builds it, and --programs names another folder that has it", path)
    try:
        ran = subprocess.run([path], input=given, stdout=subprocess.PIPE, stderr=subprocess.PIPE)
    except OSError as e:
        raise Wrong(0, e.strerror, path)
    if ran.returncode:
        raise Wrong(0, f"it ended with status {ran.returncode}", path)
    return ran.stdout


def read_sheet(words, slots):
    """The lines of a sheet, as lists of words: the first, and that of each slot."""
    lines = [line.split() for line in words.rstrip("\n").split("\n")]
    first = " ".join(lines[0])
    if re.fullmatch(r"refused [0-9]{1,10}", first) and len(lines) == 1:
        return lines
    if not re.fullmatch(r"yard [0-9]{1,10} (deadlock (yes|no) next [0-9]{1,10}|erred [0-9]{1,10})", first):
        raise Wrong(1, "this is no first line of a sheet")
    if len(lines) != slots + 1 or int(lines[0][1]) != slots:
        raise Wrong(1, f"the sheet is not one of {slots} slots")
    for number, line in enumerate(lines[1:], 1):
        if len(line) != len(COLUMNS) or line[0] != str(number) or not all(re.fullmatch("[0-9]{1,10}", x) for x in line[2:]):
            raise Wrong(number + 1, f"this is no line of slot {number}")
    return lines


def sheet(yard, folder):
    """The sheet of a yard, by the program."""
    with in_file("the sheet that the program wrote"):
        return read_sheet(output("sheet", yard.bundle(), folder).decode("utf-8", "replace"), len(yard.trains))


def sheet_in(name, yard):
    """The sheet of a yard, in a file."""
    with in_file(name):
        return read_sheet(text_of(read_file(name)), len(yard.trains))
