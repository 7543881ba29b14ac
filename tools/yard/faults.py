"""Why an image is refused by 6 to 9, and why a path is faulty, in words: a second reading of what the proved core decides."""
import math
import struct

from yard import EST, HEADER, LARGEST_TRAIN, NODE, TYPES, WIDTH, diverge_size, diverges_of, is_wide, real_word

LARGEST = 1e12


class Image:
    """The records of an image whose counts can be read."""

    def __init__(self, part):
        self.part = part
        self.size, e, n, m, self.room, *self.offsets = struct.unpack_from("<8I", part)
        self.train, self.fixed, self.free, self.front, self.back = struct.unpack_from("<5H", part, 32)
        self.search, self.far = struct.unpack_from("<2d", part, 48)
        self.ests = [dict(zip(("dist", "next", "alt", "prev", "prev-alt", "link", "type"), struct.unpack_from("<d5IB", part, HEADER + EST * i))) for i in range(e)]
        nodes = HEADER + EST * e
        self.nodes = [dict(zip(("offset", "time", "link", "est", "auth", "type"), struct.unpack_from("<2d2IHB", part, nodes + NODE * i))) for i in range(n)]
        self.wide = is_wide(part)
        self.diverges = diverges_of(part)


def kind(record):
    return TYPES[record["type"]] if record["type"] < 3 else f"type {record['type']}"


def metres(x):
    return real_word(struct.unpack("<Q", struct.pack("<d", x))[0])


# ---- refusals 6 to 9: each gives the places at fault in order, with words


def layout_faults(x):
    e, n, m = len(x.ests), len(x.nodes), len(x.diverges)
    for what, count, low, high in (("est records", e, 1, 512), ("room for diverge nodes", x.room, 2, 1024), ("path nodes", n, 1, e), ("diverge nodes", m, 2, x.room)):
        if not low <= count <= high:
            yield 0, f"{what}: {count}, and an image has from {low} to {high}"
    if x.size != len(x.part) or x.offsets != [HEADER, HEADER + EST * e, HEADER + (EST + NODE) * e]:
        yield 0, "its size or an offset of its header does not fit"
    if x.train == 0:
        yield 0, "its train is 0, which means none"
    for i, r in enumerate([*x.ests, *x.nodes]):
        if r["type"] > 2:
            yield 0, f"{'est record' if i < e else 'path node'} {i if i < e else i - e} has the type {r['type']}, and there are 0 to 2"
    nodes = HEADER + EST * e
    record, diverges = diverge_size(x.wide), nodes + NODE * e
    if not x.wide and x.part[WIDTH] == 1:
        yield 0, f"byte {WIDTH} of its header is 1, for a wide image, and it has not the size of one"
    unused = [(WIDTH + x.wide, 48, "of the header"), *((HEADER + EST * i + 29, HEADER + EST * (i + 1), f"of est record {i}") for i in range(e))]
    unused += [(nodes + NODE * i + 27, nodes + NODE * (i + 1), f"of path node {i}") for i in range(n)]
    unused += [(nodes + NODE * n, diverges, "behind the path")]
    unused += [(diverges + record * i + 6, diverges + record * (i + 1), f"of diverge record {i}") for i in range(m if x.wide else 0)]
    unused += [(diverges + record * m, len(x.part), "behind the diverge nodes")]
    for at, end, where in unused:
        for i in range(at, end):
            if x.part[i]:
                yield 0, f"byte {i}, a spare one {where}, is not 0"


def far(v):
    return not math.isfinite(v) or abs(v) > LARGEST


def event_faults(r, links):
    if r["link"] >= links:
        yield f"has link {r['link']}, and the links end at {links - 1}"
    if r["type"] == 0 and r["link"] == 0:
        yield "arrives at link 0, which means none"


def value_faults(x, links):
    e, n = len(x.ests), len(x.nodes)
    for i, r in enumerate(x.ests):
        for why in event_faults(r, links):
            yield i, f"est record {i} {why}"
        if far(r["dist"]):
            yield i, f"est record {i} has the distance {metres(r['dist'])}, which is not finite or beyond 1e12"
        for what in ("next", "alt", "prev", "prev-alt"):
            if r[what] >= e:
                yield i, f"est record {i} has {what} {r[what]}, and the est records end at {e - 1}"
    for i, r in enumerate(x.nodes):
        for why in event_faults(r, links):
            yield i, f"path node {i} {why}"
        if far(r["offset"]) or far(r["time"]) and r["time"] != math.inf:
            yield i, f"path node {i} has an offset or a time that is not finite or beyond 1e12"
        if r["est"] >= e:
            yield i, f"path node {i} has est {r['est']}, and the est records end at {e - 1}"
    for what, v in (("search", x.search), ("fixed-max", x.far)):
        if far(v) or v < 0:
            yield 0, f"its {what} is {metres(v)}: negative, not finite or beyond 1e12"
    for what, v, top in (("fixed", x.fixed, n), ("free", x.free, n), ("front", x.front, n - 1), ("back", x.back, n - 1)):
        if v > top:
            yield 0, f"its {what} is {v}, and may be {top} at most"


def train_faults(x):
    for i, (train, _) in enumerate(x.diverges):
        if train > LARGEST_TRAIN:
            yield i, f"diverge node {i} has train {train}, and the largest is {LARGEST_TRAIN}"


def cycle_faults(x):
    """The way from each est record back to it, lowest record first."""
    for start in range(len(x.ests)):
        came, todo = {start: None}, [start]
        for at in todo:
            for to in (x.ests[at]["next"], x.ests[at]["alt"]):
                if to == start and to:
                    way = [at]
                    while came[way[-1]] is not None:
                        way.append(came[way[-1]])
                    yield start, f"est records {', '.join(map(str, [*reversed(way), start]))}: each leads to the one behind it"
                elif to and to < len(x.ests) and to not in came:
                    came[to] = at
                    todo.append(to)


def order_faults(x):
    arrived, n = {}, len(x.nodes)
    for i, r in enumerate(x.nodes):
        before = x.ests[x.nodes[i - 1]["est"]]
        if i == 0 and r["est"] != 0:
            yield i, f"the path begins at est {r['est']}, not at est 0"
        if i > 0 and (r["est"] == 0 or r["est"] not in (before["next"], before["alt"])):
            yield i, f"path node {i} has est {r['est']}, which is neither the next ({before['next']}) nor the alt ({before['alt']}) of the node before it"
        if r["type"] == 0 and arrived.setdefault(r["link"], i) != i:
            yield i, f"path nodes {arrived[r['link']]} and {i} both arrive at link {r['link']}"
        if i == n - 1 and x.ests[r["est"]]["next"]:
            yield i, f"the path ends at est {r['est']}, which has the next {x.ests[r['est']]['next']}"
    last = len(x.diverges) - 1
    for i, (train, node) in enumerate(x.diverges):
        if i == 0 and (train, node) != (0, 0):
            yield i, f"the first diverge node is {train} at {node}, not 0 at 0"
        if i == last and node != n:
            yield i, f"the last diverge node is at {node}, not at {n}, behind the path"
        if 0 < i < last and train == 0:
            yield i, f"diverge node {i} has no train"
        if 0 < i < last and not 1 <= node < n:
            yield i, f"diverge node {i} is at {node}, not from 1 to {n - 1}"
        if 0 < i < last and node < x.diverges[i - 1][1]:
            yield i, f"diverge node {i} is at {node}, before the one that it follows"


def within(x, links):
    """Whether every number of an image is in its range, so that its records can be looked up."""
    return next(value_faults(x, links), None) is None


def refused(number, place, image, links):
    """What the record at the place of refusal 6 to 9 has wrong, by 22 of a diverge record; None where this reading finds nothing there."""
    if number > 7 and not within(image, links):
        return None
    faults = {6: layout_faults, 8: cycle_faults, 9: order_faults, 22: train_faults}.get(number) or (lambda x: value_faults(x, links))
    at, why = next(faults(image), (None, None))
    return why if at == place else None


# ---- a faulty path


def near(a, b):
    d, s = b - a, a + b
    return abs(d) < 1e-8 or s != 0 and abs(d / s) < 1e-8


def step_error(x, i):
    """Why the step from path node i to the one behind it does not follow next or alt; None where it does."""
    a, b = x.nodes[i], x.nodes[i + 1]
    here, there = x.ests[a["est"]], x.ests[b["est"]]
    grows = b["offset"] - a["offset"]
    where = f"from node {i} to node {i + 1}, est {a['est']} to est {b['est']}"
    if here["next"] == b["est"] and a["est"] in (there["prev"], there["prev-alt"]):
        return None if near(here["dist"], grows) else f"{where}: the offset grows by {metres(grows)}, and est {a['est']} has the distance {metres(here['dist'])}"
    if here["alt"] == b["est"] and there["prev"] == a["est"]:
        return None if near(a["offset"], b["offset"]) else f"{where}, its alt: the offset changes by {metres(grows)}, and along alt it stays"
    back = f"prev {there['prev']} and prev-alt {there['prev-alt']}" if here["next"] == b["est"] else f"prev {there['prev']}"
    return f"{where}: est {b['est']} has {back}, which does not lead back to est {a['est']}"


def errors(x, occupancy):
    """The errors of a path, in the order of the validation."""
    steps = [step_error(x, i) for i in range(len(x.nodes) - 1)]
    for why in steps:
        if why:
            yield why
    for i, r in enumerate(x.nodes[x.free:], x.free):
        if r["type"] == 0 and occupancy[r["link"]]:
            yield f"node {i} is free and arrives at link {r['link']}, which train {occupancy[r['link']]} holds"
