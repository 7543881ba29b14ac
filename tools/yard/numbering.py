"""yard renumber and yard match: a yard under fresh numbers, and two yards held against each other."""
import hashlib
import itertools
import os
import re
import struct

import programs
from yard import EST, HEADER, LARGEST_TRAIN, NARROW_TRAIN, NODE, Words, Wrong, Yard, diverge_size, drawn_whole, in_file, is_wide, once, options, plain, read_file, tell, text_of, train_lines, train_text, write_out


class Numbering:
    """The new number of each link and train; 0 and numbers that are none of the yard's links stay themselves."""

    def __init__(self, links, slots):
        self.links, self.slots = links, slots
        self.new = {"link": {}, "train": {}}

    def link(self, l):
        return self.number("link", l) if 1 <= l < self.links else l

    def train(self, t):
        return self.number("train", t) if t else 0

    def number(self, kind, n):
        if n not in self.new[kind]:
            raise Wrong(0, f"{kind} {n} has no new number")
        return self.new[kind][n]

    def text(self):
        pairs = [f"{kind} {n} is {self.new[kind][n]}" for kind in ("link", "train") for n in sorted(self.new[kind])]
        return "\n".join([f"links {self.links}", f"slots {self.slots}", *pairs]) + "\n"


def read_numbering(text):
    """Links are permuted within 1 to L - 1, trains 1 to S among themselves and the others one to one."""
    said, count, new = {}, {}, {"link": {}, "train": {}}
    for number, line in enumerate(text.split("\n"), 1):
        words = Words(number, line.split("#")[0].split())
        if not words.more():
            continue
        kind = words.word(["links", "slots", "link", "train"], "a word")
        bits = 32 if kind == "train" else 16
        n = words.number(bits, "the number")
        if kind in ("links", "slots"):
            once(said, kind, number)
            count[kind] = n
        else:
            once(said, f"{kind} {n} is", number)
            words.word(["is"], "the word 'is'")
            new[kind][n] = words.number(bits, "the new number")
            once(said, f"{kind} is {new[kind][n]}", number)
        words.end()
    for kind in ("links", "slots"):
        if kind not in count:
            raise Wrong(0, f"the line '{kind}' is missing")
    permuted(new["link"], count["links"] - 1, "links")
    permuted({t: n for t, n in new["train"].items() if t <= count["slots"]}, count["slots"], "trains")
    numbering = Numbering(count["links"], count["slots"])
    numbering.new = new
    if 0 in new["train"].values():
        raise Wrong(0, "a train has the new number 0, which means none")
    if any(max(t, n) > LARGEST_TRAIN and t != n for t, n in new["train"].items()):
        raise Wrong(0, f"a train above {LARGEST_TRAIN} has another number: these stay themselves")
    return numbering


def permuted(new, top, what):
    if not set(new) == set(new.values()) == set(range(1, top + 1)):
        raise Wrong(0, f"the {what} 1 to {top} are not numbered among themselves")


# ---- fresh numbers


def drawn_lot(*words):
    """A number that only the words decide, the same everywhere."""
    return int.from_bytes(hashlib.sha256(" ".join(map(str, words)).encode()).digest(), "big")


def shuffled(seed, kind, numbers):
    return sorted(numbers, key=lambda n: drawn_lot(seed, kind, n))


def in_any_order(seed, links):
    return [links[i] for i in shuffled(seed, "blocking", range(len(links)))]


def trains_at(part):
    """Where an image has trains, and the form of each: the header's and those of its diverge records."""
    e, q, wide = *(struct.unpack_from("<I", part, at)[0] for at in (4, 16)), is_wide(part)
    at = HEADER + (EST + NODE) * e
    return [(32, "<H"), *((at + diverge_size(wide) * i, "<I" if wide else "<H") for i in range(q))]


def image_trains(part):
    return [struct.unpack_from(form, part, at)[0] for at, form in trains_at(part)]


def largest(parts):
    """The largest train that a numbering gives: six digits where every image is wide."""
    return LARGEST_TRAIN if parts and all(map(is_wide, parts)) else NARROW_TRAIN


def fresh(seed, yard, parts):
    slots = len(parts)
    numbering = Numbering(yard.links, slots)
    links = range(1, yard.links)
    numbering.new["link"] = dict(zip(links, shuffled(seed, "link", links)))
    trains = range(1, slots + 1)
    numbering.new["train"] = dict(zip(trains, shuffled(seed, "train", trains)))
    met = {t for t, _ in yard.occupied.values()} | {t for part in parts for t in image_trains(part)} | {yard.numbers["moved"]}
    met |= {call[3] for call in [*yard.steps, yard.call] if call and call[0] == "mark"}
    met |= {call[2]["moved"] for call in yard.steps if call[0] == "check" and "moved" in call[2]}
    top, in_headers = largest(parts), {image_trains(part)[0] for part in parts}
    numbering.new["train"].update({t: t for t in met if t > top})  # 22 refuses it under every numbering
    for t in sorted(t for t in met if slots < t <= top):
        room = (NARROW_TRAIN if t in in_headers else top) - slots
        lots = (slots + 1 + drawn_lot(seed, "train", t, again) % room for again in itertools.count())
        numbering.new["train"][t] = next(n for n in lots if n not in numbering.new["train"].values())
    return numbering


# ---- a yard under a numbering


def drawn_parts(yard):
    """The images of the slots; each can be drawn by its counts."""
    parts = [t.bytes() for t in yard.trains]
    for t, part in enumerate(parts, 1):
        if train_text(part) is None:
            raise Wrong(yard.trains[t - 1].line, f"the image of slot {t} has no counts by which its links and trains could be found")
    return parts


def renumbered_image(part, numbering):
    """The same bytes but for the header's train, the links of est and path records and the trains of diverge records."""
    out = bytearray(part)
    e = struct.unpack_from("<I", part, 4)[0]
    nodes, diverges = HEADER + EST * e, HEADER + (EST + NODE) * e
    for at in (*range(HEADER + 24, nodes, EST), *range(nodes + 16, diverges, NODE)):
        struct.pack_into("<I", out, at, numbering.link(struct.unpack_from("<I", part, at)[0]))
    for at, form in trains_at(part):
        train = numbering.train(struct.unpack_from(form, part, at)[0])
        if form == "<H" and train > NARROW_TRAIN:
            raise Wrong(0, f"the new number {train} of a train has no room in 16 bits, which a header and a narrow image have for it")
        struct.pack_into(form, out, at, train)
    return bytes(out)


def renumbered_call(call, numbering):
    """A mark's link and train; a check's moved train and blocking links; a game's links, an act's link; the slot of any call that has one."""
    kind, line, *given = call
    if kind == "mark":
        return (kind, line, numbering.link(given[0]), numbering.train(given[1]))
    if kind == "check":
        told = {name: numbering.train(n) if name == "moved" else n for name, n in given[0].items()}
        return (kind, line, {name: [numbering.link(l) for l in n] if name == "blocking" else n for name, n in told.items()})
    if kind == "act":
        given[2] = numbering.link(given[2])
    if kind in ("report", "replay", "recorded", "index", "carry") or not given or not 1 <= given[0] <= numbering.slots:
        return (kind, line, *given)
    given[1:] = [[numbering.link(l) for l in x] if isinstance(x, list) else x for x in given[1:]]
    return (kind, line, numbering.train(given[0]), *given[1:])


def kept_bytes(yard):
    """Bytes that a text puts into the yard or the bundle: those of counts and sizes can stay, no others."""
    for line, at, data in yard.yard_patches:
        if at + len(data) > 8:
            raise Wrong(line, "a yard-byte behind the yard's size and number of slots cannot be renumbered")
    for line, at, data in yard.patches:
        if at + len(data) > 32 or any(24 <= i < 26 for i in range(at, at + len(data))):
            raise Wrong(line, "a bundle-byte of the moved train or behind the bundle's header cannot be renumbered")
    for line, at, data in yard.record_patches:
        if at + len(data) > 16:
            raise Wrong(line, "a record-byte behind the undo record's header cannot be renumbered")
    for line, at, data in yard.recording_patches:
        if at + len(data) > 12:
            raise Wrong(line, "a recording-byte behind the recording's header cannot be renumbered")


def renumbered(yard, parts, numbering):
    """The yard under the numbering, with its blocking links in their order, and its images."""
    kept_bytes(yard)
    out = Yard()
    out.links = yard.links
    out.occupied = {numbering.link(l): (numbering.train(t), line) for l, (t, line) in yard.occupied.items()}
    out.blocking = [numbering.link(l) for l in yard.blocking]
    out.numbers = {**yard.numbers, "moved": numbering.train(yard.numbers["moved"])}
    out.flips = {numbering.link(l): (numbering.link(f), [numbering.link(k) for k in locks], line) for l, (f, locks, line) in yard.flips.items()}
    out.call = yard.call and renumbered_call(yard.call, numbering)
    out.steps = [renumbered_call(step, numbering) for step in yard.steps]
    out.patches, out.yard_patches, out.recording_patches = yard.patches, yard.yard_patches, yard.recording_patches
    images = {numbering.train(t): renumbered_image(part, numbering) for t, part in enumerate(parts, 1)}
    return out, [images[t] for t in sorted(images)]


def call_line(call):
    kind, _, *given = call
    if kind == "mark":
        return f"mark {given[0]} for {given[1]}" if given[1] else f"release {given[0]}"
    if kind == "check":
        told = [f"{name} {('no', 'yes')[n] if name == 'local' else n}" for name, n in given[0].items() if name != "blocking"]
        return " ".join(["check", *told, *(map(str, ["blocking", *given[0]["blocking"]]) if "blocking" in given[0] else [])])
    if kind == "game":
        return " ".join(map(str, ["game", *given[1], "turns", given[2], "slot", given[0]]))
    return " ".join([kind, *map(str, given)])


def step_line(step):
    """A step with its blocking links by number: their order does not matter."""
    kind, line, *given = step
    if kind == "check" and "blocking" in given[0]:
        given = [{**given[0], "blocking": sorted(given[0]["blocking"])}]
    return call_line((kind, line, *given))


def flip_line(link, flip, locks):
    return f"link {link} flips {flip}" + (" locks " + " ".join(map(str, locks)) if locks else "")


def text(yard, parts):
    """The text that draws a yard with these images."""
    n = yard.numbers
    out = [f"links {yard.links}", *(f"occupied {l} by {yard.occupied[l][0]}" for l in sorted(yard.occupied))]
    if yard.blocking:
        out.append("blocking " + " ".join(map(str, yard.blocking)))
    out += [f"moved {n['moved']}", f"begin {n['begin']}", f"limit {n['limit']}", f"local {'yes' if n['local'] else 'no'}"]
    out += [flip_line(l, *yard.flips[l][:2]) for l in sorted(yard.flips)]
    if yard.call is not None:
        out += [call_line(call) for call in (yard.call, *yard.steps)]
    for t, part in enumerate(parts, 1):
        out += ["", *train_lines(part, t)]
    out += [f"yard-byte {at} {data.hex()}" for _, at, data in yard.yard_patches]
    out += [f"bundle-byte {at} {data.hex()}" for _, at, data in yard.patches]
    out += [f"recording-byte {at} {data.hex()}" for _, at, data in yard.recording_patches]
    return "\n".join(out) + "\n"


# ---- sheets


def premises(yard, sheet):
    """Where a premise of the third promise fails or is not known: the line of the text, and why."""
    bad = [(line, "the table is refused by 1") for l, (f, locks, line) in yard.flips.items() if max([l, f, *locks]) >= yard.links]
    if yard.call is not None and yard.call[0] == "mark":
        return bad
    if yard.call is not None and yard.call[0] == "replay":
        begins = [line for kind, line, *given in yard.steps if kind == "check" and yard.asked(given[0])["begin"] != 1]
        bad += [(line, "the check does not begin at slot 1") for line in begins]
        bad += [(line, "entry 0 of the occupancy is not empty") for line in [yard.said.get("occupied 0")] if line and yard.occupied[0][0]]
        checks = any(step[0] == "check" for step in yard.steps)
        return bad + [(0, "the strays of its checks are not known")] if checks else bad
    if yard.call is not None and yard.call[0] not in ("report", "recorded"):
        return bad + [(yard.call[1], "the promise is about marks, releases and checks, not about this call")]
    if sheet is not None and sheet[0][0] == "refused":
        return bad + [(0, f"the yard is refused by {sheet[0][1]}") for n in ("2", "14", "17") if n == sheet[0][1]]
    if yard.numbers["begin"] != 1:
        bad.append((yard.said.get("begin", 0), "the check does not begin at slot 1"))
    if yard.occupied.get(0, (0, 0))[0]:
        bad.append((yard.said.get("occupied 0", 0), "entry 0 of the occupancy is not empty"))
    if sheet is None:
        return bad + [(0, "the strays are not known" + (": no sheet takes a wide image" if yard.is_wide() else ""))]
    return bad + [(0, f"slot {row[0]} has strays: {row[4]}") for row in sheet[1:] if row[4] != "0"]


def tell_premises(name, bad):
    name = plain(name)
    for line, why in bad:
        tell(f"{name}:{line}: {why}" if line else f"{name}: {why}")
    if bad:
        tell(f"{name}: so the third promise of README.md does not say that its answers are good for every numbering")


# ---- the commands


def put(files):
    """Writes files, unless one of them is there with other words."""
    for name, words in files.items():
        with in_file(name):
            if os.path.lexists(name) and read_file(name) != words.encode():
                raise Wrong(0, "there is such a file already with other words; --to names another")
    for name, words in files.items():
        try:
            with open(name, "w", encoding="utf-8") as f:
                f.write(words)
        except OSError as e:
            raise Wrong(0, e.strerror, name)


def sheet_if_built(yard, folder):
    """The program's sheet; None where the program cannot be run, and for a wide yard, a mark, a release or a replay, which have none."""
    try:
        return None if yard.is_wide() or yard.call and yard.call[0] in ("mark", "replay") else programs.sheet(yard, folder)
    except Wrong as w:
        tell(f"{w.name}: {w.why}")
        return None


def renumber(args):
    (seed, name), given = options(args, 2, ["--to", "--sheet", "--programs"])
    if not re.fullmatch(r"[A-Za-z0-9][A-Za-z0-9_.-]{0,63}", seed):
        raise Wrong(0, "a seed has letters, digits, points, dashes and underlines, at most 64")
    to = given.get("--to") or f"{re.sub('[.]yard$', '', name)}-{seed}"
    if name == "-" and "--to" not in given:
        raise Wrong(0, "a text from standard input needs --to, the name of what is written", name)
    with in_file(name):
        yard = drawn_whole(name)
        parts = drawn_parts(yard)
        numbering = fresh(seed, yard, parts)
        new, images = renumbered(yard, parts, numbering)
        new.blocking = in_any_order(seed, new.blocking)
        for kind, _, *asked in new.steps:
            if kind == "check" and "blocking" in asked[0]:
                asked[0]["blocking"] = in_any_order(seed, asked[0]["blocking"])
        words = text(new, images)
        sheet = programs.sheet_in(given["--sheet"], yard) if "--sheet" in given else sheet_if_built(yard, given.get("--programs"))
        bad = premises(yard, sheet)
    old, fresh_name = (plain(os.path.basename(x)) for x in (name, to))
    remark = f"# {old} under the seed {seed} is {fresh_name}.yard: each old number, and its new one\n"
    put({f"{to}.yard": words, f"{to}.numbering": remark + numbering.text()})
    tell_premises(name, bad)
    return write_out(os.fsencode(f"{to}.yard\n{to}.numbering\n")) or (3 if bad else 0)


def images_differ(slot, mine, theirs):
    """The lines of two images that differ."""
    if mine == theirs:
        return
    lines = [train_lines(x, slot) if train_text(x) is not None else ["an image that cannot be drawn"] for x in (mine, theirs)]
    pairs = [(a, b) for a, b in itertools.zip_longest(*lines, fillvalue="nothing") if a != b]
    for a, b in pairs[:3]:
        yield f"slot {slot}: '{b}', and the numbering gives '{a}'"
    if len(pairs) > 3:
        yield f"slot {slot}: {len(pairs) - 3} lines more"


def told(what, theirs, mine):
    return [f"{what}: {theirs}, and the numbering gives {mine}"] if mine != theirs else []


def yards_differ(mine, images, second):
    """What of the second yard is not as the numbering gives it."""
    yield from told("links", second.links, mine.links)
    for l in sorted({*mine.occupied, *second.occupied}):
        yield from told(f"the train on link {l}", second.occupied.get(l, (0,))[0], mine.occupied.get(l, (0,))[0])
    yield from told("the blocking links", sorted(second.blocking), sorted(mine.blocking))
    for what in ("moved", "begin", "limit", "local"):
        yield from told(what, second.numbers[what], mine.numbers[what])
    for l in sorted({*mine.flips, *second.flips}):
        yield from told("the table", flip_line(l, *second.flips.get(l, (0, []))[:2]), flip_line(l, *mine.flips.get(l, (0, []))[:2]))
    yield from told("the call", *(y.call and call_line(y.call) or "none" for y in (second, mine)))
    yield from told("the number of steps", len(second.steps), len(mine.steps))
    for i, (a, b) in enumerate(zip(mine.steps, second.steps), 1):
        yield from told(f"step {i}", step_line(b), step_line(a))
    for t, (a, b) in enumerate(zip(images, second.trains), 1):
        yield from images_differ(t, a, b.bytes())
    patches = [("bundle-byte", mine.patches, second.patches), ("yard-byte", mine.yard_patches, second.yard_patches)]
    for what, a, b in (*patches, ("recording-byte", mine.recording_patches, second.recording_patches)):
        yield from told(f"the {what} lines", *([f"{at} {data.hex()}" for _, at, data in x] for x in (b, a)))


def sheets_differ(first, second, numbering):
    """What of the second sheet does not match: the next begin is not compared."""
    yield from told("the sheet's first line", *(" ".join(s[0][:4] if "next" in s[0] else s[0]) for s in (second, first)))
    if len(first) == len(second):
        for row in first[1:]:
            slot = numbering.train(int(row[0]))
            want = [str(slot), *(str(numbering.train(int(x))) if i in programs.TRAINS else x for i, x in enumerate(row[1:], 1))]
            for column, a, b in zip(programs.COLUMNS, want, second[slot]):
                yield from told(f"the sheet's slot {slot}, {column}", b, a)


def matched(names, numbering, sheets, folder):
    """What does not match, the premises that fail where sheets do not match, and whether sheets were held against each other, in words."""
    first, second = (drawn_in(name) for name in names)
    for name, yard in zip(names, (first, second)):
        if (yard.links, len(yard.trains)) != (numbering.links, numbering.slots):
            return [f"{plain(name)} has links {yard.links} and slots {len(yard.trains)}, and the numbering {numbering.links} and {numbering.slots}"], [], ""
    with in_file(names[0]):
        mine, images = renumbered(first, drawn_parts(first), numbering)
    with in_file(names[1]):
        out = list(yards_differ(mine, images, second))
    if not sheets and first.call is not None:
        tell(f"{plain(names[0])}:{first.call[1]}: the text names a call, so there are no sheets to hold against each other")
        return out, [], ""
    pairs = zip((first, second), sheets or (None, None))
    a, b = (programs.sheet_in(name, yard) if name else programs.sheet(yard, folder) for yard, name in pairs)
    more = list(sheets_differ(a, b, numbering))
    return out + more, premises(first, a) if more else [], ", and so are their sheets"


def drawn_in(name):
    with in_file(name):
        return drawn_whole(name)


def match(args):
    names, given = options(args, (3, 5), ["--programs"])
    with in_file(names[2]):
        numbering = read_numbering(text_of(read_file(names[2])))
    out, bad, sheets = matched(names[:2], numbering, names[3:], given.get("--programs"))
    tell_premises(names[0], bad)
    words = out or [f"{plain(names[1])} is {plain(names[0])} under the numbering" + sheets]
    return write_out("".join(f"{w}\n" for w in words).encode()) or (3 if out else 0)
