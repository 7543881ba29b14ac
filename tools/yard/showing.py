"""yard show: the sheet of a yard, and what the check did to each train, in words."""
import struct

import faults
import programs
from yard import ROW, Wrong, bundle_of, drawn, in_file, options, parts_of, train_text, write_out

# What a refusal means, by its number; docs/REFUSALS.md has the whole.
REFUSALS = {
    1: "the link table is not as laid out",
    2: "the occupancy has fewer than 2 or more than 4,000 entries",
    3: "there is no such link to mark or release",
    4: "there are more than 4,000 blocking links, or one is not below the number of links",
    5: "the moved train is 0, or the round limit is 0",
    6: "the image is not laid out as one",
    7: "a value is out of range",
    8: "next and alt lead round in a cycle",
    9: "the path or the diverge nodes are out of order",
    10: "the train is finished",
    11: "there is no room: more diverge nodes than Q, more than 2,048 blocking trains, or an offset beyond 1e12 metres",
    12: "another round is due, and the round limit is reached",
    13: "an assert, an index, an unwrap or a difference of the Rust fails",
    14: "the yard's header does not fit, or slot t does not hold train t",
    15: "the moved train is none of the slots, or begin is outside them",
    16: "the report has not 20 bytes for each slot, 24 in a check over trains of 32 bits where an image is wide",
    17: "the bundle is too long, its size or its parts do not fit, or local is neither 0 nor 1",
    18: "the page has fewer than 40 bytes for each node of the path",
    19: "the recording is malformed, or the list has not one entry for each step",
    20: "the undo record has fewer than 16 bytes plus twice the yard",
    21: "the undo record is malformed, or the yard is not the one that it says was written",
    22: "a train is above 999,999, or above 65,535 beside a narrow image",
    23: "a train of the image is above 65,535 and does not go narrow",
    24: "the count of carried slots is not below the slots, or the second yard is not the one that so many steps leave",
    25: "the index has not one entry for each link, or fewer than 2 or more than 4,000",
    26: "the candidate's slot has no image that is accepted",
    27: "the node is beyond the candidate's path, or the path does not arrive at the link",
    28: "a game has a link twice, link 0 or one that there is not, more than 8 links or more than 6 turns",
    29: "a value outside the training track profile",
}
WORDS = {
    0: "unvisited: the check began behind it, and it stays as it is",
    1: "finished: no part of its path is free, and it stays as it is",
    2: "moved: it is the train that moved, and it stays as it is",
    3: "success: the train has a way",
    4: "blocked: the train has no way",
    5: "faulty: the path that the update leaves has errors",
}


def refusal(number):
    return f"{REFUSALS.get(number, 'a number that this tool does not know')} (docs/REFUSALS.md, {number})"


def image(part):
    return faults.Image(part) if train_text(part) is not None else None


def counted(n, what):
    return f"{n} {what}" if n == 1 else f"{n} {what}s"


def row_words(row, after, links, occupancy):
    """The lines that say what a slot's record of the report means."""
    code, place, rounds, holder, strays, errors, met = row
    if code < 16:
        out = [WORDS.get(code, f"code {code}, which this tool does not know")]
    else:
        out = [f"refused-{code - 16} at place {place}: {refusal(code - 16)}"]
        why = faults.refused(code - 16, place, after, links) if 22 <= code <= 25 and after else None
        why = "it is a wide image, which no sheet takes" if code == 22 and after and after.wide else why
        out += [why] if why else []
    out += [f"held by train {holder}"] if holder else []
    out += [f"it met train {met} first"] if met else []
    out += [f"{counted(rounds, 'round')}"] if rounds else []
    out += [f"{counted(strays, 'stray')}: free nodes that arrive at an occupied link outside the blocking links of the path"] if strays else []
    if code == 5 and after and faults.within(after, links):
        out += [f"{counted(errors, 'error')}:", *(f"  {why}" for why in faults.errors(after, occupancy))]
    return out


def merged(before, after):
    """Pairs of places in two paths, by est record: those on both, those that left, those that came."""
    old, new = ([n["est"] for n in p] for p in (before, after))
    i = j = 0
    while i < len(old) or j < len(new):
        if i < len(old) and j < len(new) and old[i] == new[j]:
            yield i, j
            i, j = i + 1, j + 1
        elif i < len(old) and (j == len(new) or old[i] not in new or new[j] in old):
            yield i, None
            i += 1
        else:
            yield None, j
            j += 1


def path_lines(before, after, occupancy, blocking):
    """The path before and after the check as one list, what changed marked."""
    yield "    before  after    est  kind    link           offset"
    for i, j in merged(before.nodes, after.nodes):
        node = before.nodes[i] if j is None else after.nodes[j]
        mark = "+" if i is None else "-" if j is None else " " if before.nodes[i] == node else "~"
        link = node["link"] if node["link"] < len(occupancy) else 0
        remarks = [f"train {occupancy[link]} on it"] if node["type"] == 0 and occupancy[link] else []
        remarks += ["blocking"] if node["type"] == 0 and node["link"] in blocking else []
        remarks += ["free from here"] if j == after.free else []
        remarks += [f"was at {faults.metres(before.nodes[i]['offset'])}"] if mark == "~" else []
        was, now = ("" if k is None else k for k in (i, j))
        line = f"{mark} {was:>8} {now:>6} {node['est']:>6}  {faults.kind(node):<6} {node['link']:>5} {faults.metres(node['offset']):>16}"
        yield f"{line}   {', '.join(remarks)}".rstrip()


def changed(what, before, after):
    return f"{what} {before}" if before == after else f"{what} {before}, now {after}"


def slot_lines(parts, row, occupancy, blocking):
    """What the check did to one slot."""
    before = image(parts[0])
    after = before if parts[0] == parts[1] else image(parts[1])
    out = row_words(row, after, len(occupancy), occupancy)
    if before is None or after is None:
        return out + ["its counts do not fit, so its path cannot be shown"]
    out.append("the path is as it was:" if before.nodes == after.nodes else "the path, - for a node that left it, + for one that came, ~ for one that was moved:")
    out += [f"  {line}" for line in path_lines(before, after, occupancy, blocking)]
    out.append("  " + "; ".join(changed(k, getattr(before, k), getattr(after, k)) for k in ("fixed", "free", "front", "back")))
    diverges = [", ".join(f"{t} at {n}" for t, n in x.diverges) for x in (before, after)]
    return out + ["  " + changed("diverge nodes (train at node):", *diverges)]


def first_words(words):
    """The first line of a sheet in words."""
    if words[2] == "erred":
        return f"{words[3]} of {words[1]} slots faulty or refused"
    deadlock = "a slot is blocked, so there is a deadlock" if words[3] == "yes" else "no slot is blocked, so there is no deadlock"
    return f"{deadlock}; the next check begins with slot {words[5]}"


def shown(data, sheet, after):
    """The lines on a bundle, its sheet and what the program after wrote."""
    out = [" ".join(line) for line in sheet]
    if sheet[0][0] == "refused":
        return [*out, "", refusal(int(sheet[0][1]))]
    at_occ, links, at_block, blocks, at_yard = struct.unpack_from("<5I", data, 4)
    before = parts_of(data, at_yard)
    whole = len(data) + ROW * len(before)
    if len(after) != whole:
        raise Wrong(0, f"it wrote {len(after)} bytes; a bundle of {len(data)} and a report of {len(before)} slots are {whole}", "after")
    occupancy = struct.unpack_from(f"<{links}H", data, at_occ)
    blocking = set(struct.unpack_from(f"<{blocks}I", data, at_block))
    rows = struct.iter_unpack("<4H3I", after[len(data):])
    out += ["", first_words(sheet[0])]
    for t, (parts, row) in enumerate(zip(zip(before, parts_of(after[:len(data)], at_yard)), rows), 1):
        out += ["", f"slot {t}", *(f"  {line}" for line in slot_lines(parts, row, occupancy, blocking))]
    return out


def show(args):
    (name,), given = options(args, 1, ["--programs"])
    with in_file(name):
        yard = drawn(name)
        data = bundle_of(yard, name)
        folder = given.get("--programs")
        lines = shown(data, programs.sheet(yard, folder), programs.output("after", data, folder))
    return write_out("".join(f"{line}\n" for line in lines).encode())
