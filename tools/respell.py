#!/usr/bin/env python3
"""Brings the repository's own definitions and lemmas to today's spelling: words in snake case, facts in upper camel case.

usage: tools/respell.py [--list] [--map FILE]     at the top of the repository, once, after the kit's port.py

Names that specs/ and proofs/ of a crate define, and fields and constructors of their records, lose capitals within (`toldKind` is `told_kind`)
and dashes (`topic-ends` is `topic_ends`). A definition whose value is a type has a capital (`freshUnless` is `FreshUnless`). Functions of src/, names that
rattle makes (goals, steps, `Need-..`), strings, inputs and outputs keep theirs. It writes the sources, specs and proofs, and nothing else:
must-fail edits are turned by tools/turn_edits.py, papers by hand. --list prints the names and what falls together, and writes nothing.
"""
import collections
import glob
import json
import os
import re
import subprocess
import sys

TYPES = {"freshUnless": "FreshUnless", "publishIs": "PublishIs", "plainIs": "PlainIs", "numbered": "Numbered"}
# a definition and a lemma that would fall together, by the definition's name: the lemma takes `_lem`. The kit's script has turned some of them alone
LANDED = "ee5a28cd681b644143578aa1bbae31e66121bb34"
# a library has these too, and its own are cited beside them: two names, joined by a dash
SHARED = {"not-false", "or-true", "and-false"}
# a token of antt: an operator is a name like any other
TOKEN = re.compile(r"""[^\s(){}\[\],;."|]+""")
HEAD = re.compile(r"^\s*(?:(?:abbrev|pub|unfoldable|axiom)\s+)*([^\s:(){}.,;]+)\s+:(?:\s|$)")


def snake(name):
    """toldGotQoS as told_got_qos, topic-ends as topic_ends; what begins with a capital stays, but for dashes between words."""
    if name in TYPES:
        return TYPES[name]
    if name[0].isupper():
        return name
    t = name.replace("QoS", "Qos").replace("\u2032", "'")
    t = re.sub(r"(?<=[a-z0-9'])([A-Z])", r"_\1", t)
    t = re.sub(r"(?<=[A-Z])([A-Z][a-z])", r"_\1", t)
    out = t.replace("-", "_")
    return out.lower() if out.isascii() else "".join(c.lower() if c.isascii() else c for c in out)


def files(*kinds):
    for k in kinds:
        for f in sorted(glob.glob("crates/*/" + k, recursive=True)):
            if "/out/" not in f:
                yield f


def proof_of_function(f):
    return os.path.basename(f) in ("Proof.antt", "Answers.antt", "Invariants.antt")


def defined():
    """The repository's own names, each with the files that define it."""
    names = collections.defaultdict(set)
    for f in files("specs/**/*.antt", "proofs/**/*.antt"):
        if proof_of_function(f):
            continue
        with open(f, encoding="utf-8") as h:
            for line in h:
                if line.lstrip().startswith(("use ", "pub use ", "--", "mod ", "pub mod ")):
                    continue
                m = HEAD.match(line)
                if m and not m.group(1).startswith(("\u25cc", "\u03bb")):
                    names[m.group(1)].add(f)
    return names


def landed():
    """The names of the last landed commit."""
    names = set()
    for f in subprocess.run(["git", "ls-tree", "-r", "--name-only", LANDED, "crates"], capture_output=True, text=True, check=True).stdout.split():
        if re.match(r"crates/[^/]*/(specs|proofs)/.*\.antt$", f) and not proof_of_function(f):
            names |= {m.group(1) for m in map(HEAD.match, subprocess.run(["git", "show", f"{LANDED}:{f}"], capture_output=True, text=True, check=True).stdout.split("\n")) if m}
    return names


def table(own):
    """What each token of the sources becomes."""
    groups = collections.defaultdict(set)
    for n in landed():
        groups[snake(n)].add(n)
    names = {n: snake(n) for n in own if snake(n) != n and n not in SHARED}
    for new, olds in groups.items():
        lemmas = [n for n in olds if "-" in n]
        if len(olds) == 1 or not lemmas:
            continue
        assert len(olds) == 2 and len(lemmas) == 1, olds
        definition = (olds - set(lemmas)).pop()
        if lemmas[0] in own:
            names[lemmas[0]] = new + "_lem"
        elif definition in own and definition != new:
            names[new] = new + "_lem"
        # where the kit's script turned both, they share no file
    return names


def mask(line, rt):
    """The parts of a line that are text or prose are left alone: (text, is it code)."""
    mark = "//" if rt else "--"
    out, i = [], 0
    while i < len(line):
        if line[i] == '"':
            j = i + 1
            while j < len(line) and line[j] != '"':
                j += 2 if line[j] == "\\" else 1
            out.append((line[i : j + 1], "text"))
            i = j + 1
        elif line.startswith(mark, i) and (rt or i == 0 or line[i - 1] in " \t"):
            out.append((line[i:], "prose"))
            break
        else:
            j = i
            while j < len(line) and line[j] != '"' and not (line.startswith(mark, j) and (rt or j == 0 or line[j - 1] in " \t")):
                j += 1
            out.append((line[i:j], "code"))
            i = j
    return out


def turn(text, names, rt, proof=False):
    def code(m):
        w = m.group(0)
        # a plain word may be a function, a field or a module: only a lemma that stands alone is meant
        if w in names and "-" not in w and w.islower() and (rt or m.start() and m.string[m.start() - 1] == "." or m.string[m.end() : m.end() + 1] == "."):
            return w
        new = names.get(w, w)
        # in the proof of a function what stands behind a dot is mostly named by the source
        if proof and new.endswith("_lem") and m.start() and m.string[m.start() - 1] == ".":
            return new[: -len("_lem")]
        return new

    def prose(t):
        # a dashed word of a sentence is no name, unless it is quoted as one
        t = re.sub(r"`[^`]*`", lambda q: TOKEN.sub(lambda m: code(m) if m.group(0).strip("`") == m.group(0) else "`" * (m.group(0)[0] == "`") + names.get(m.group(0).strip("`"), m.group(0).strip("`")) + "`" * (m.group(0)[-1] == "`"), q.group(0)), t)
        return TOKEN.sub(lambda m: code(m) if "-" not in m.group(0) and re.search("[a-z][A-Z]", m.group(0)) else m.group(0), t)

    lines = []
    for line in text.split("\n"):
        parts = []
        for t, kind in mask(line, rt):
            parts.append(TOKEN.sub(code, t) if kind == "code" else prose(t) if kind == "prose" else t)
        lines.append("".join(parts))
    return "\n".join(lines)


def main():
    own = defined()
    names = table(own)
    if "--map" in sys.argv:
        with open(sys.argv[sys.argv.index("--map") + 1], "w") as h:
            json.dump(names, h, indent=0, sort_keys=True, ensure_ascii=False)
    if "--list" in sys.argv:
        back = collections.defaultdict(set)
        for n in own:
            back[names.get(n, n)].add(n)
        for new, olds in sorted(back.items()):
            if len(olds) > 1:
                print("together:", new, "from", ", ".join(f"{o} ({', '.join(sorted(own[o]))})" for o in sorted(olds)))
    for f in files("src/**/*.rt", "specs/**/*.antt", "proofs/**/*.antt"):
        with open(f, encoding="utf-8") as h:
            text = h.read()
        rt = f.endswith(".rt")
        if "--list" in sys.argv:
            code = "\n".join("".join(t for t, k in mask(l, rt) if k == "code") for l in text.split("\n"))
            words = set(TOKEN.findall(code))
            for w in sorted(words & set(names)):
                if names[w] in words:
                    print("meets:", f, w, names[w])
            for line in text.split("\n"):
                m = re.match(r"(?:ghost |pub )?use (\S+?)\.\{(.*)\}", line)
                if m and not any(m.group(1).startswith(f"Rattle.{c}.") for c in os.listdir("crates")):
                    for w in TOKEN.findall(m.group(2)):
                        if w in names:
                            print("library:", f, m.group(1), w)
            continue
        new = turn(text, names, rt, proof_of_function(f))
        if new != text:
            with open(f, "w", encoding="utf-8") as h:
                h.write(new)
    print(f"respell: {len(names)} names")


main()
