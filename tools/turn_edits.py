#!/usr/bin/env python3
"""Turns the must-fail edits of the last landed commit so that they fit today's sources, with the same wrong meaning.

usage: tools/turn_edits.py [--check] [--review FILE]     at the top of the repository

Of the port alone: the design pass (docs/DESIGN-PASS.md) wrote edits anew for other sources, and this would take them back. It stops where that page is,
but for --check.

It reads each crates/NAME/must-fail/*.edit of the landed commit and writes it anew: the old and the new text in today's spelling, names in comments and
in the line `for:` too. It looks for the old text in today's file, with the edit's earlier pairs applied: it must stand there exactly once, in the line
that stands beside the landed one (the lines of both files are set beside one another), and that line must read as the landed one does in today's
spelling. Where it doesn't, the pair is unsure, and the script says so. What it can't turn stands in tools/turn_edits.json: `edits` has pairs of an edit
by their place (0 is the first), as they are to be written; `names` has the names that are not the old ones in snake case (the table of
tools/respell.py, what edits use of it), `crates` crates that have another name today. Pairs of proofs/ that an edit has behind the landed ones are kept.
--check writes nothing; --review FILE sets all pairs beside one another.
"""
import difflib
import glob
import json
import os
import re
import subprocess
import sys

HERE = os.path.dirname(os.path.abspath(__file__))
LANDED = "ee5a28cd681b644143578aa1bbae31e66121bb34"
# a token of antt: an operator is a name like any other
TOKEN = re.compile(r"""[^\s(){}\[\],;."|`«»]+""")
# the library's names
LIBRARY = {"getD": "get_or"}


def snake(name):
    t = name.replace("QoS", "Qos")
    t = re.sub(r"(?<=[a-z0-9'])([A-Z])", r"_\1", t)
    t = re.sub(r"(?<=[A-Z])([A-Z][a-z])", r"_\1", t)
    return t.replace("-", "_").lower()


class Spelling:
    def __init__(self, names, dashed):
        self.names, self.dashed = names, dashed

    def name(self, w):
        w = w.replace("\u2033", "''").replace("\u2032", "'")
        if w in LIBRARY:
            return LIBRARY[w]
        m = re.fullmatch(r"_(\S+)_", w)
        if m and not re.fullmatch(r"[\w-]+", m[1]):
            return "\u25cc" + m[1] + "\u25cc"
        if re.fullmatch(r"[\w']+(-[\w']+)+", w) or re.match(r"[a-z]", w) and re.search(r"[A-Z]", w):
            return self.names.get(w, snake(w) if w[0].islower() else w)
        return w

    def antt(self, t):
        """A line of specs/ or a clause."""
        t = TOKEN.sub(lambda m: self.name(m[0]), t)
        t = re.sub("[\u00ab\u00bb]", "", t)
        for _ in range(4):
            t = re.sub(r"([\w')])\s+\.(?=[a-z0-9A-Z])", r"\1.", t)
            # a projection alone within brackets needs none
            t = re.sub(r"(?<![\w'])\(([\w']+(?:\.[\w']+)+)\)", r"\1", t)
        return t

    def rust(self, t):
        """Rust code has kept its spelling; a clause or an import is turned."""
        if re.search("[\u2261\u2192\u00d7\u03bb\u2237]|ghost use|ensures|requires", t):
            return self.antt(t)
        return t

    def of(self, path, t):
        return self.antt(t) if path.endswith(".antt") else self.rust(t)

    def words(self, t, asked):
        """A comment, or the line `for:` (asked): names only; a dashed word of a sentence is one only if something of that name was defined."""
        def one(m):
            w = m[0]
            if asked or w in self.dashed or re.match("[a-z]", w) and re.search("[a-z][A-Z]", w):
                return self.name(w)
            return w
        return TOKEN.sub(one, t)


def dashed_names():
    """The names with dashes that specs/ and proofs/ of the landed commit define."""
    out = subprocess.run(["git", "grep", "-hoE", r"^ *((abbrev|pub|unfoldable|axiom) )*[^ :(){}.,;]+-[^ :(){}.,;]+ :", LANDED, "--", "crates/*/specs/*", "crates/*/proofs/*"], capture_output=True, text=True, check=True).stdout
    return {line.split()[-2] for line in out.split("\n") if line}


def landed_text(path, cache={}):
    if path not in cache:
        cache[path] = subprocess.run(["git", "show", f"{LANDED}:{path}"], capture_output=True, text=True, check=True).stdout
    return cache[path]


def today_text(path, cache={}):
    if path not in cache:
        with open(path, encoding="utf-8") as f:
            cache[path] = f.read()
    return cache[path]


def flat(line):
    return re.sub(r"\s+", " ", re.sub(r"([(){}\[\],;])", r" \1 ", line)).strip()


def beside(a, b):
    """For each line of a its line in b, or None: the equal ones, and between them the likest in order."""
    to = [None] * len(a)
    for op, i, j, k, m in difflib.SequenceMatcher(None, a, b, autojunk=False).get_opcodes():
        if op == "equal":
            for n in range(j - i):
                to[i + n] = k + n
        elif op == "replace" and (j - i) * (m - k) <= 4000:
            like = [[difflib.SequenceMatcher(None, x, y, autojunk=False).ratio() for y in b[k:m]] for x in a[i:j]]
            best = [[0.0] * (m - k + 1) for _ in range(j - i + 1)]
            for x in range(j - i - 1, -1, -1):
                for y in range(m - k - 1, -1, -1):
                    best[x][y] = max(best[x + 1][y], best[x][y + 1], best[x + 1][y + 1] + like[x][y] if like[x][y] > 0.5 else 0)
            x = y = 0
            while x < j - i and y < m - k:
                if best[x][y] == best[x + 1][y]:
                    x += 1
                elif best[x][y] == best[x][y + 1]:
                    y += 1
                else:
                    to[i + x] = k + y
                    x += 1
                    y += 1
    return to


def alignment(path, today, spelling, cache={}):
    if path not in cache:
        a = [flat(spelling.of(path, line)) for line in landed_text(path).split("\n")]
        b = [flat(line) for line in today_text(today).split("\n")]
        cache[path] = beside(a, b)
    return cache[path]


def parse(text):
    """The lines of an edit: ('file', PATH), ('old', TEXT), ('new', TEXT), ('for', TEXT) or ('#', TEXT)."""
    out = []
    for line in text.split("\n"):
        m = re.match(r"(file|old|new|for): ?(.*)", line)
        if m:
            out.append((m[1], m[2]))
        elif line.startswith("#"):
            out.append(("#", line))
        elif line.strip():
            raise SystemExit(f"unknown line: {line!r}")
    return out


def line_of(text, at):
    return text.count("\n", 0, at)


def main():
    with open(os.path.join(HERE, "turn_edits.json"), encoding="utf-8") as f:
        data = json.load(f)
    spelling = Spelling(data["names"], dashed_names())
    by_hand = data["edits"]
    check = "--check" in sys.argv
    if not check and os.path.exists(os.path.join(HERE, "..", "docs", "DESIGN-PASS.md")):
        sys.exit("turn_edits: the design pass wrote edits anew; --check alone")
    review = sys.argv[sys.argv.index("--review") + 1] if "--review" in sys.argv else None
    shown, unsure, hand, total = [], [], [], 0
    # what lets the answers follow the names of the wrong program is no landed pair: it stays as it stands
    carried = {}
    for f in glob.glob("crates/*/must-fail/*.edit"):
        with open(f, encoding="utf-8") as h:
            text = h.read()
        if "\nfile: proofs/" in text:
            carried[f] = text[text.index("\nfile: proofs/") + 1 :]
    listed = subprocess.run(["git", "ls-tree", "-r", "--name-only", LANDED, "crates"], capture_output=True, text=True, check=True).stdout.split("\n")
    edits = sorted(p for p in listed if re.fullmatch(r"crates/[^/]*/must-fail/[^/]*\.edit", p))
    used = set()
    for edit in edits:
        crate = edit.split("/")[1]
        key = crate + "/" + os.path.basename(edit)[: -len(".edit")]
        # a crate that has another name today
        home = data["crates"].get(crate, crate)
        if not os.path.isdir("crates/" + home):
            unsure.append(f"{key}: there is no crate {home}")
            continue
        mine = by_hand.get(key, {})
        if mine:
            used.add(key)
        was, now = {}, {}
        out, path, old, place = [], None, None, 0
        shown.append(f"== {key}")
        for kind, value in parse(landed_text(edit)):
            if kind in ("#", "for"):
                t = mine.get(kind) or spelling.words(value, kind == "for")
                out.append(t if kind == "#" else "for: " + t)
                shown.append(("   " + t) if kind == "#" else "   for: " + t)
                if t != value:
                    shown.append("       was " + value)
            elif kind == "file":
                path = f"crates/{crate}/{value}"
                out.append("file: " + value)
                if path not in was:
                    was[path], now[path] = landed_text(path), today_text(f"crates/{home}/{value}")
            elif kind == "old":
                old = value
            else:
                new = value
                total += 1
                assert was[path].count(old) == 1, (edit, old)
                at = was[path].index(old)
                line = line_of(was[path], at)
                stood = was[path].split("\n")[line]
                was[path] = was[path].replace(old, new)
                lines = now[path].split("\n")
                to = alignment(path, f"crates/{home}/" + path.split("/", 2)[2], spelling)[line]
                said = []
                if str(place) in mine:
                    o, n = mine[str(place)]
                    hand.append(f"{key} {place}")
                    mark = "hand"
                else:
                    o, n = spelling.of(path, old), spelling.of(path, new)
                    mark = "same" if (o, n) == (old, new) else "turned"
                count = now[path].count(o)
                if count != 1:
                    said.append(f"stands {count} times" + ("" if to is None else ", and today's line is: " + lines[to]))
                elif mark == "hand":
                    pass
                elif to is None:
                    said.append("no line stands beside it")
                elif line_of(now[path], now[path].index(o)) != to:
                    said.append(f"it stands in line {line_of(now[path], now[path].index(o)) + 1} and not in {to + 1}")
                elif flat(spelling.of(path, stood)) != flat(lines[to]):
                    said.append(f"the line reads otherwise: {stood.strip()}  |  {lines[to].strip()}")
                if o == n:
                    said.append("old and new are one")
                if count == 1:
                    now[path] = now[path].replace(o, n)
                if said:
                    unsure.append(f"{key} {place}: " + "; ".join(said))
                shown += [f"   {mark} {path.split('/', 2)[2]}", f"     - {old}", f"     + {new}"]
                shown += [f"    -- {o}", f"    ++ {n}"] if (o, n) != (old, new) else []
                shown += ["    !! " + s for s in said]
                out += ["old: " + o, "new: " + n]
                place += 1
        if not check:
            to = f"crates/{home}/must-fail"
            os.makedirs(to, exist_ok=True)
            to = os.path.join(to, os.path.basename(edit))
            with open(to, "w", encoding="utf-8") as f:
                f.write("\n".join(out) + "\n" + carried.get(to, ""))
    if review:
        with open(review, "w", encoding="utf-8") as f:
            f.write("\n".join(shown) + "\n")
    for s in unsure:
        print("unsure: " + s)
    for k in sorted(set(by_hand) - used):
        print("no such edit: " + k)
    print(f"edits: {len(edits)}; pairs: {total}; by hand: {len(hand)}; unsure: {len(unsure)}")


if __name__ == "__main__":
    main()
