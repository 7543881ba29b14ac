#!/usr/bin/env python3
"""Takes the named items out of the ALTRIOS sources, twice: plain and hooked.

usage: extract.py SOURCES OUT
SOURCES holds altrios-core/. A written file keeps every line at its place and
leaves the lines that are not taken empty, so a panic names the line of the
original. The changes to the text are those listed in README.md.
"""
import hashlib
import os
import re
import sys

SRC = "altrios-core/src/"
FREE_PATH = "meet_pass/train_disp/free_path.rs"

# The hooks below stand at lines of this edition of free_path.rs.
FREE_PATH_SHA256 = "44c70f9fe50ec8600ce9caa3c0b90f308cf90f56bc4efe381c857f58cbc67677"

# file: (written as, items as they begin; a pair is a block and the members kept of it)
SHARED = {
    "track/link/link_idx.rs": ("link_idx.rs", [
        "pub struct LinkIdx", "pub const LINK_IDX_NA", "impl LinkIdx#2",
        "impl std::hash::Hash for LinkIdx"]),
    "traits.rs": ("traits.rs", [
        "pub trait Idx", "impl Idx for u32", "impl Idx for Option",
        "pub trait TryFromIdx", "impl<T> TryFromIdx"]),
    "meet_pass/disp_structs.rs": ("disp_structs.rs", [
        "pub type EstIdx", "pub const EST_IDX_NA", "pub enum EstType",
        "pub struct LinkEvent", "pub type DispNodeIdx", "pub type TrainIdx",
        "pub type DispAuthIdx", "type TrainIdxsViewIdx",
        "pub struct TrainIdxsView", "impl TrainIdxsView",
        "pub struct EstTimeStatus", "impl EstTimeStatus",
        "pub struct DivergeNode", "pub struct DispNode",
        "impl Default for DispNode"]),
    "meet_pass/est_times/mod.rs": ("est_times.rs", [
        "pub struct EstTime", "impl Default for EstTime",
        "pub struct EstTimeNet", "impl EstTimeNet#2"]),
    "combo_error.rs": ("combo_error.rs", [
        "pub struct ComboError", "impl<E: Debug + Display> ComboError<",
        "impl<E: Debug + Display> Deref for ComboError<",
        "impl<E: Debug + Display> DerefMut for ComboError<",
        "pub struct ComboErrors", "impl<E: Debug + Display> ComboErrors<",
        "impl<E: Debug + Display> Deref for ComboErrors<",
        "impl<E: Debug + Display> DerefMut for ComboErrors<"]),
    "validate.rs": ("validate.rs", [
        "pub type ValidationError", "pub type ValidationErrors",
        "pub type ValidationResults"]),
    "track/link/network.rs": ("network.rs", [
        ("pub struct Link", ["pub idx_flip", "pub link_idxs_lockout"])]),
    "meet_pass/train_disp/advance_rewind.rs": ("advance_rewind.rs", [
        "fn update_links_blocked", "fn reset_link_train_idx"]),
}

# These stand once beside the plain text and once beside the hooked one.
COPIED = {
    "meet_pass/train_disp/mod.rs": ("train_disp.rs", [
        "pub struct TrainDisp",
        ("impl TrainDisp", [
            "pub fn swap_link_idxs_blocking", "pub fn is_finished",
            "pub fn new"])]),
    "meet_pass/dispatch.rs": ("dispatch.rs", ["fn check_deadlock"]),
    FREE_PATH: ("free_path.rs", [
        "enum LinkOptType", "impl LinkOptType", "fn calc_idx_sentinels",
        "fn find_train_intersect", "fn add_blocking_trains",
        "fn add_all_blocking_trains", "fn concat_train_idx_views",
        "pub enum FreePathStatus", "impl TrainDisp"]),
}

COUNT = ("crate::hook::count(&self.disp_path,"
         " self.disp_node_idx_free.idx(), links_blocked);")
POOL_SELF = " crate::hook::pool(self.train_idxs_blocking.len());"
POOL = " crate::hook::pool(trains_blocking.len());"
GIVEN_NEXT = " crate::hook::given(%d, self.est_time_statuses[est_curr.idx_next.idx()].train_idxs_view);"
GIVEN_HERE = " crate::hook::given(437, self.est_time_statuses[disp_node_curr.est_idx.idx()].train_idxs_view);"
NEW_OFFSET = " crate::hook::offset(self.disp_path_new.last().unwrap().offset);"

# line of free_path.rs: (at the line's start or end, what is put there)
HOOKS = {
    163: ("end", POOL),
    179: ("end", POOL),
    203: ("end", POOL),
    273: ("start", COUNT + " "),
    278: ("end", " crate::hook::round();"),
    304: ("end", " crate::hook::meeting(idx_split, idx_sentinel, &self.link_idx_path, links_blocked);"),
    309: ("start", COUNT + " "),
    346: ("start", "crate::hook::entry(); "),
    387: ("end", GIVEN_NEXT % 380),
    389: ("end", POOL_SELF),
    408: ("end", GIVEN_NEXT % 404),
    409: ("end", POOL_SELF),
    446: ("end", GIVEN_HERE),
    470: ("start", "crate::hook::blocked(&self.train_idxs_blocking, self.est_idxs_blocked.last().map("
                   "|i| self.est_time_statuses[i.idx()].train_idxs_view)); "),
    491: ("end", " crate::hook::diverge_new(self.div_nodes_new.len());"),
    499: ("end", NEW_OFFSET),
    526: ("end", " crate::hook::diverge(self.div_nodes.len());"),
    549: ("end", NEW_OFFSET),
    559: ("end", GIVEN_NEXT % 559),
    572: ("end", ";" + NEW_OFFSET),
    634: ("start", COUNT + " "),
    673: ("end", " crate::hook::diverge(self.div_nodes.len());"),
    717: ("end", " crate::hook::offsets(&self.disp_path[idx_join_base..]);"),
}


def code_mask(text):
    """For each character whether it is code: no comment, string or character."""
    mask = [True] * len(text)
    skip = re.compile(r"//[^\n]*|/\*.*?\*/|\"(?:\\.|[^\"\\])*\"|'(?:\\.|[^'\\])'",
                      re.S)
    for m in skip.finditer(text):
        for i in range(m.start(), m.end()):
            mask[i] = False
    return mask


def block_end(text, mask, at, ends="};"):
    """The index behind the first of `ends` that closes what begins at `at`."""
    depth = 0
    for i in range(at, len(text)):
        if not mask[i]:
            continue
        c = text[i]
        if c in "({[":
            depth += 1
        elif c in ")}]":
            depth -= 1
            if depth == 0 and c == "}" and "}" in ends:
                return i + 1
        elif depth == 0 and c in ends:
            return i + 1
    sys.exit("extract: item without an end")


def item_end(text, mask, at):
    """A constant or a type ends at its semicolon, a field at its comma."""
    head = text[at:text.index("\n", at)]
    if re.match(r"(pub )?(const|type) ", head):
        return block_end(text, mask, at, ";")
    if re.match(r"(pub )?[a-z_]+: ", head):
        return block_end(text, mask, at, ",")
    return block_end(text, mask, at)


def find_item(text, mask, head, start, end):
    """Where the line that begins with `head` begins; `head#2` is the second one."""
    head, _, nth = head.partition("#")
    behind = r"(?![A-Za-z0-9_])" if head[-1].isalnum() else ""
    pattern = re.compile(r"^[ ]*(" + re.escape(head) + ")" + behind, re.M)
    found = [m.start(1) for m in pattern.finditer(text, start, end)
             if mask[m.start(1)]]
    nth = int(nth or 1)
    if len(found) < nth:
        sys.exit("extract: not found: " + head)
    return found[nth - 1]


def derive_span(text, at):
    """The derive among the attributes before an item, or None."""
    lines_before = text[:at].split("\n")[:-1]
    pos = at - len(text[:at].split("\n")[-1])
    for line in reversed(lines_before):
        pos -= len(line) + 1
        s = line.strip()
        if s.startswith("#[derive("):
            return (pos, pos + len(line))
        if not (s.startswith("#[") or s.startswith("///")):
            return None
    return None


def keep_spans(text, items):
    """The spans of the text that the items take."""
    mask = code_mask(text)
    spans = []
    for item in items:
        head, members = item if isinstance(item, tuple) else (item, None)
        at = find_item(text, mask, head, 0, len(text))
        end = item_end(text, mask, at)
        d = derive_span(text, at)
        if d:
            spans.append(d)
        if members is None:
            spans.append((at, end))
            continue
        spans.append((at, text.index("{", at) + 1))
        for m in members:
            a = find_item(text, mask, m, at + 1, end)
            spans.append((a, item_end(text, mask, a)))
        spans.append((end - 1, end))
    return spans


def blanked(text, spans):
    """The text with all but the spans and the line ends made blank."""
    keep = [c == "\n" for c in text]
    for a, b in spans:
        keep[a:b] = [True] * (b - a)
    return "".join(c if k else " " for c, k in zip(text, keep))


def changed(name, text):
    """The listed changes. None of them adds or takes a line."""
    text = re.sub(r", (Serialize|Deserialize)\b", "", text)
    text = text.replace("get_unchecked", "get_checked")
    text = re.sub(r"^(fn |enum |struct |type )", r"pub \1", text, flags=re.M)
    text = text.replace("    fn validate_free_path", "    pub fn validate_free_path")
    if name == "train_disp.rs":
        text = re.sub(r"^    ([a-z_]+: [A-Za-z:<>]+,)$", r"    pub \1", text,
                      flags=re.M)
    return text


class Branches:
    """Counters at every condition, loop body and match arm of a text."""

    def __init__(self, text):
        self.text = text
        self.mask = code_mask(text)
        self.puts = []
        self.table = []

    def put(self, at, what):
        self.puts.append((at, len(self.puts), what))

    def new_id(self, at, kind):
        self.table.append((self.text.count("\n", 0, at) + 1, kind))
        return len(self.table) - 1

    def hit(self, at, kind):
        self.put(at, " crate::hook::hit(%d);" % self.new_id(at, kind))

    def scan(self):
        for m in re.finditer(r"\b(if|while|for|loop)\b|=>", self.text):
            if not self.mask[m.start()]:
                continue
            if m.group(0) == "=>":
                self.arm(m.end())
            elif m.group(0) in ("for", "loop"):
                self.body(m.start(), m.end(), m.group(0))
            elif self.text.startswith(" let ", m.end()):
                self.if_let(m.end())
            else:
                self.condition(m.end() + 1)
        return self

    def open_brace(self, at):
        depth = 0
        for i in range(at, len(self.text)):
            if not self.mask[i]:
                continue
            c = self.text[i]
            if c == "{" and depth == 0:
                return i
            depth += (c in "([{") - (c in ")]}")
        sys.exit("extract: no block")

    def body(self, at, end, kind):
        line = self.text[self.text.rfind("\n", 0, at) + 1:at].strip()
        if line:          # `impl X for Y`
            return
        if kind == "for":
            self.hit(self.open_brace(end) + 1, "body")

    def if_let(self, at):
        brace = self.open_brace(at)
        self.hit(brace + 1, "is")
        end = block_end(self.text, self.mask, brace)
        rest = self.text[end:].lstrip()
        if rest.startswith("else"):
            self.hit(self.text.index("{", end) + 1, "is not")
        else:
            self.put(end, " else { crate::hook::hit(%d); }"
                     % self.new_id(brace, "is not"))

    def arm(self, at):
        rest = self.text[at:].lstrip()
        first = at + len(self.text[at:]) - len(rest)
        if rest.startswith("unreachable!"):
            return
        if rest.startswith("{"):
            self.hit(first + 1, "arm")
            return
        end = block_end(self.text, self.mask, first, ",") - 1
        self.put(first, "{ crate::hook::hit(%d); " % self.new_id(first, "arm"))
        self.put(end, " }")

    def condition(self, at):
        if self.text.startswith("match ", at):
            end = block_end(self.text, self.mask, at)
            self.wrap(at, end)
            return
        self.operands(at, self.open_brace(at))

    def operands(self, a, b):
        """Wraps each operand of && and || in the span."""
        parts, depth, start = [], 0, a
        i = a
        while i < b:
            if self.mask[i]:
                c = self.text[i]
                depth += (c in "([{") - (c in ")]}")
                if depth == 0 and self.text[i:i + 2] in ("&&", "||"):
                    parts.append((start, i))
                    start = i + 2
                    i += 1
            i += 1
        parts.append((start, b))
        for s, e in parts:
            while self.text[s].isspace():
                s += 1
            while self.text[e - 1].isspace():
                e -= 1
            if len(parts) > 1 and self.text[s] == "(" and self.text[e - 1] == ")":
                self.operands(s + 1, e - 1)
            else:
                self.wrap(s, e)

    def wrap(self, s, e):
        order = self.order(s, e)
        if order is None:
            self.put(s, "crate::hook::cond(%d, " % self.new_id(s, "cond"))
            self.put(e, ")")
            return
        at = self.new_id(s, "order")
        one_line = lambda t: " ".join(t.split())
        same = one_line(self.text[s:order[0]]) + " == " + one_line(self.text[order[1]:e])
        self.put(s, "crate::hook::cond(%d, { crate::hook::equal(%d, %s); " % (at, at, same))
        self.put(e, " })")

    def order(self, s, e):
        """Where <, <=, > or >= stands between two sides of the span, or None."""
        depth = 0
        for i in range(s, e):
            c = self.text[i]
            m = re.compile(r"\s(<=|>=|<|>)\s").match(self.text, i, e)
            if depth == 0 and m:
                return (m.start(1), m.end(1))
            depth += (c in "([{") - (c in ")]}")
        return None


def line_starts(text):
    starts = [0]
    for i, c in enumerate(text):
        if c == "\n":
            starts.append(i + 1)
    return starts


def hooked(text):
    """free_path.rs with its hooks, and the table of its branches."""
    branches = Branches(text).scan()
    starts = line_starts(text)
    puts = list(branches.puts)
    for line, (where, what) in HOOKS.items():
        a, b = starts[line - 1], starts[line] - 1
        if where == "start":
            a += len(text[a:b]) - len(text[a:b].lstrip())
            puts.append((a, -1, what))
        else:
            puts.append((b, 10 ** 6, what))
    out = text
    for at, _, what in sorted(puts, reverse=True):
        out = out[:at] + what + out[at:]
    return out, branches.table


def write(path, text):
    os.makedirs(os.path.dirname(path), exist_ok=True)
    with open(path, "w") as f:
        f.write(text)


def main():
    if len(sys.argv) != 3:
        sys.exit(__doc__)
    sources, out = sys.argv[1:]
    for table, folders in ((SHARED, ("",)), (COPIED, ("plain/", "hooked/"))):
        for name, (written, items) in table.items():
            with open(os.path.join(sources, SRC, name), "rb") as f:
                data = f.read()
            if name == FREE_PATH and hashlib.sha256(data).hexdigest() != FREE_PATH_SHA256:
                sys.exit("extract: free_path.rs is another edition: see HOOKS")
            text = data.decode()
            text = changed(written, blanked(text, keep_spans(text, items)))
            for folder in folders:
                put = text
                if name == FREE_PATH and folder == "hooked/":
                    put, branches = hooked(text)
                write(os.path.join(out, folder + written), put)
    rows = "".join("    (%d, %r),\n" % (line, kind) for line, kind in branches)
    write(os.path.join(out, "branches.rs"),
          "pub static BRANCHES: &[(u32, &str)] = &[\n%s];\n"
          % rows.replace("'", '"'))


main()
