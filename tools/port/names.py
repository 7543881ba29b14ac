#!/usr/bin/env python3
"""Spells the repository's own definitions and lemmas as today's library spells its own.

usage: tools/port/names.py GUIDES [--check] [--rows FILE]     at the top of the repository, once, after the kit's port.py

GUIDES is the folder of the kit that has its guides and its library.

Definitions, fields, variables and lemmas are in snake case: linkCount is link_count. In the name of a lemma a dash
joins two names, and a plain word is added with an underscore: length-holdAll is length-hold_all, arrive-is is
arrive_is. Types and modules keep their capitals. Names of the library, names that Rattle makes and names of Rust
stay. Only code of .antt files and, in .rt files, clauses, ghost blocks and 'ghost use' items turn, and code spans
of comments. A name that would fall together with another one stays, and a line 'left:' says so. --check writes
nothing. --rows FILE writes each name and what it became, a tab between them.
"""

import collections
import os
import re
import sys

WORD = re.compile(r'[^\s(){}.;,@"«»]+')
HIDDEN = re.compile(r'"(?:[^"\\\n]|\\.)*"|(?<![^\s(){}.;,@"«»])--[^\n]*|\{-.*?-\}', re.S)
CAMEL = re.compile(r"[a-z][a-z0-9]*[A-Z]")
HEAD = re.compile(
    r"(?m)^( *)((?:(?:abbrev|unfoldable|opaque|pub|private|data|record|constructor|field)\s+)*)"
    r"([^\s(){}.;,@\"«»:|]+)((?: *[({][^:\n]*:[^\n]*?[)}]| *\([^()\n]*\)| *\{[^{}\n]*\})*) :(?= |$)"
)
MADE = re.compile(
    r"^(loop|if|returns|in|in_ok|in_err|in_default|match|overflow|bounds|slice_bounds|offset_bounds|shape_of|Need|After|Then|Else|At|In|"
    r"nonzero_div|nonzero_rem|invariant|decreases|type_inv|invariant_of|the)-|-(requires|preserved|smaller|init|test|spec)$"
)


def texts(root):
    for folder, dirs, files in os.walk(os.path.join(root, "crates")):
        dirs[:] = sorted(d for d in dirs if d not in ("out", ".git"))
        for f in sorted(files):
            if f.endswith((".rt", ".antt")):
                yield os.path.join(folder, f)


def read(p):
    with open(p, encoding="utf-8") as f:
        return f.read()


def shown(t):
    return HIDDEN.sub(lambda m: re.sub(r"[^\n]", " ", m.group()), t)


def ghost_parts(t):
    """The (start, end) of each clause, ghost block and 'ghost use' item of a .rt file."""
    out = [m.span() for m in re.finditer(r"ghost\s+use\b[^;]*;", t)]
    for m in re.finditer(r"\b(?:requires|ensures)\s*\*?\s*(?:\w+\s*)?\{|\bghost\s+(?!use\b)[^{};]*\{", t):
        i, depth = m.end(), 1
        while i < len(t) and depth:
            depth += {"{": 1, "}": -1}.get(t[i], 0)
            i += 1
        out.append((m.end(), i - 1))
    return sorted(out)


def bare_words(t):
    """The names that stand behind no dot."""
    return set(re.findall(r'(?<![^\s(){};,@"«»])[^\s(){}.;,@"«»]+', t))


def snake(part):
    return re.sub(r"(?<=[a-z0-9])[A-Z]", lambda m: "_" + m.group().lower(), part) if re.match(r"[a-z]", part) else part


def library():
    words = set()
    for folder, dirs, files in os.walk(sys.argv[1]):
        if "/examples" in folder:
            continue
        for f in files:
            if f.endswith(".antt"):
                words.update(WORD.findall(shown(read(os.path.join(folder, f)))))
    return words


def main():
    root = "."
    write = "--check" not in sys.argv
    paths = list(texts(root))
    text = {p: read(p) for p in paths}
    std = library()
    tokens = {}  # the names that a file's antt has
    rust, fields = {}, set()  # the words of a Rust file; the fields of structs
    for p, t in text.items():
        if p.endswith(".antt"):
            tokens[p] = bare_words(shown(t))
        else:
            tokens[p] = set()
            for a, b in ghost_parts(t):
                tokens[p].update(bare_words(t[a:b]))
            rust[p] = set(re.findall(r"\w+", t))
            for m in re.finditer(r"\bstruct \w+[^{;]*\{([^}]*)\}", re.sub(r"//[^\n]*", "", t)):
                fields.update(re.findall(r"(\w+)\s*:(?!:)", m.group(1)))
    everything = set().union(*tokens.values())
    defs, lemmas, proved, where = set(), set(), set(), collections.defaultdict(set)
    for p, t in text.items():
        if not p.endswith(".antt"):
            continue
        of_function = re.search(r"/proofs/[^/]+/", p)
        for m in HEAD.finditer(shown(t)):
            name = m.group(3)
            where[name].add(p)
            if "/proofs/" in p and not of_function:
                proved.add(name)
            if "/specs/" in p:
                defs.add(name)
            elif not of_function and "-" in name:
                lemmas.add(name)
    names = {}
    for w in everything:
        if w in std and not w in where or not CAMEL.search(w) or not re.match(r"[a-z]", w):
            continue
        new = "-".join(snake(x) for x in w.split("-"))
        if new != w:
            names[w] = new
    known = {names.get(d, d) for d in defs} | {
        "length", "take", "drop", "map", "set", "get_or", "append", "replicate", "reverse", "filter", "sum", "cond",
        "add", "mul", "sub", "suc", "slice_index", "slice_set", "foldl", "foldr", "min", "max", "not",
    }
    for w in sorted(lemmas | {d for d in defs if "-" in d}):
        if MADE.search(w) or w in std:
            continue
        parts = [snake(x) for x in w.split("-")]
        out = parts[0]
        left = parts[0]
        for x in parts[1:]:
            joined = left in known and x in known
            out += ("-" if joined else "_") + x
            left = x if joined else left + "_" + x
        if out != w:
            names[w] = out
    # names that fall together
    back = collections.defaultdict(set)
    for w, n in names.items():
        back[n].add(w)
    for n, ws in list(back.items()):
        if n in everything or n in std:
            ws = ws | {n}
        if len(ws) < 2:
            continue
        meet = [p for p, ts in tokens.items() if len(ws & ts) > 1]
        new_word = n in std and n not in everything
        if meet:
            # a definition takes the name before a lemma; a field of a record keeps it
            field = n in everything and n not in names and (n not in proved or n in fields)
            order = sorted(ws, key=lambda w: (w != n or not field, "-" in w, w == n, w))
            for w in order[1:]:
                hy = "-".join(snake(x) for x in w.split("-"))
                if w == n:
                    hy = n + "_lem"
                elif field and "-" not in w:
                    hy = n + "_of"
                elif hy == n or hy == w:
                    hy = w if "-" in w else n + "_lem"
                if hy != w and (hy in everything or hy in std or hy in back):
                    print(f"left: {w}, since {order[0]} is {n} in {len(meet)} files, as {meet[0]}")
                    names.pop(w, None)
                    continue
                if hy == w:
                    del names[w]
                else:
                    names[w] = hy
                print(f"apart: {w} is {hy}, since {order[0]} is {n} in {meet[0]}")
        else:
            print(f"two: {sorted(ws)} are {n}, in no file together")
    # a parameter or a variable of Rust with the name of a word of the file's clauses
    for p, ids in sorted(rust.items()):
        for w in sorted(tokens[p]):
            n = names.get(w)
            if n and n in ids:
                uses = len(re.findall(rf"\b(?:let (?:mut )?)?{n}\s*:(?!:)|let (?:mut )?{n}\b", text[p]))
                if uses:
                    print(f"look: {p}: {w} is {n}, which {uses} places of Rust bind")
    if "--rows" in sys.argv:
        with open(sys.argv[sys.argv.index("--rows") + 1], "w") as f:
            for w, n in sorted(names.items()):
                f.write(f"{w}\t{n}\n")
    turn = lambda s: WORD.sub(lambda m: names.get(m.group(), m.group()), s)
    spans = lambda c: re.sub(r"`[^`\n]+`", lambda m: turn(m.group()), c)

    def antt(t):
        out, at = [], 0
        for m in HIDDEN.finditer(t):
            out += [turn(t[at : m.start()]), m.group() if m.group()[0] == '"' else bare(m.group())]
            at = m.end()
        return "".join(out + [turn(t[at:])])

    def bare(c):
        # a camel word of a comment is a name
        return WORD.sub(lambda m: names.get(m.group(), m.group()) if CAMEL.search(m.group()) else m.group(), c)

    for p, t in text.items():
        if p.endswith(".antt"):
            new = antt(t)
        else:
            out, at = [], 0
            for a, b in ghost_parts(t):
                out += [re.sub(r"//[^\n]*", lambda m: bare(m.group()), t[at:a]), turn(t[a:b])]
                at = b
            new = "".join(out + [re.sub(r"//[^\n]*", lambda m: bare(m.group()), t[at:])])
        if new != t and write:
            with open(p, "w", encoding="utf-8") as f:
                f.write(new)
    print(f"{len(names)} names")


main()
