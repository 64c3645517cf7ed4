#!/usr/bin/env python3
"""Brings the names that this repository defines in specs/ and proofs/ to today's spelling, after port.py has turned those of the libraries.

usage: tools/port/respell.py            at the top of the repository: rewrites the files in place and prints each row of the table

Words are in snake case and types in camel case; a dash stays beside a sign, as in `conj-⊕`. Names that Rattle makes (goals, `invariant-..`)
and those of the Rust source stay. It goes by whole words: in .antt the code and the code spans of comments, in .rt the clauses and the
`ghost use` items (also the names that a file gives what it imports), in an .edit of specs/ or proofs/ the lines of text, in docs/CLAIMS.md the code spans.
"""
import collections
import glob
import re
import sys

DEFINED = re.compile(r"(?m)^([ \t]*)((?:pub |abbrev |unfoldable )*)(record |data |ruleset )?([^\s:(){};,.@\"]+)[ \t]*(?=([:({=]))")
IMPORTED = re.compile(r"(?m)^use ([\w.'-]+)\.\{([^}]*)\}")
WORD = re.compile(r"[^\s(){}.;,@\"«»`\[\]|]+")
# Names by hand: camel humps and the types that are no words.
BY_HAND = {
    "NoneOf-after": "NoneOfAfter",
    "gP": "g_p",
    "gS": "g_s",
}


def files(*ends):
    for e in ends:
        yield from sorted(p for p in glob.glob(f"crates/**/*{e}", recursive=True) if "/out/" not in p)


def text(path):
    with open(path, encoding="utf-8") as f:
        return f.read()


def definitions():
    """Each name that a file defines: whether a file of specs/ does, and whether it is a goal's."""
    found = collections.defaultdict(lambda: [False, False])
    for p in files(".antt"):
        t = text(p)
        for m in DEFINED.finditer(t):
            name, kind, sign = m[4], m[3], m[5]
            if sign in "({=" and not kind and not m[2]:
                continue
            if sign == "=" and kind != "ruleset ":
                continue
            rest = t[m.end() : m.end() + 40]
            found[name][0] |= "/specs/" in p
            found[name][1] |= bool(re.match(r":\s*\(?(tie|goal)\.", rest)) and p.endswith(("Proof.antt", "Answers.antt", "Invariants.antt"))
    return found


def foreign():
    """The names that files take from the libraries."""
    names = set()
    for p in files(".antt", ".rt"):
        for m in IMPORTED.finditer(text(p).replace("ghost use", "use")):
            if not re.match(r"Rattle\.(?!std\b)", m[1]):
                for item in m[2].split(","):
                    names |= set(item.replace(" as ", " ").split())
    return names


def humps(word):
    """`leZ` as `le_z`."""
    if not re.match(r"[a-z]", word):
        return word
    return re.sub(r"(?<=[a-z0-9])([A-Z])(?![A-Z])", lambda m: "_" + m[1].lower(), word)


def respelled(name):
    if name in BY_HAND:
        return BY_HAND[name]
    parts = [humps(p) for p in name.split("-")]
    out = parts[0]
    for a, b in zip(parts, parts[1:]):
        out += ("_" if re.search(r"\w", a) and re.search(r"\w", b) else "-") + b
    return out


def table():
    defs, theirs = definitions(), foreign()
    rows = {}
    for n, (in_specs, goal) in sorted(defs.items()):
        if n in theirs or n.startswith(("Need-", "invariant-", "decreases-")):
            continue
        if goal and not in_specs:
            continue
        new = n[: -len("-spec")].replace("-", "_") + "_spec" if n.endswith("-spec") else respelled(n)
        if new != n:
            rows[n] = new
    taken = collections.Counter(list(rows.values()) + [n for n in defs if n not in rows] + sorted(theirs))
    for n in sorted(rows):
        if taken[rows[n]] > 1:
            print(f"falls together: {n} -> {rows[n]}", file=sys.stderr)
            del rows[n]
    return rows


ALIAS = re.compile(r"(?m)^(?:ghost )?use [^\n;]*? as ([^\s,};]+)|(?<=[{,]) ?[^\s,{}]+ as ([^\s,};]+)")


def aliases(t):
    """The names that a file gives what it imports, as in `use M.{reading as reading-of}`."""
    names = {m[1] or m[2] for m in ALIAS.finditer(t)}
    return {n: respelled(n) for n in names if "-" in n and not n.startswith("#")}


def turned(t, rows):
    return WORD.sub(lambda m: rows.get(m[0], m[0]), t)


def spans(t, rows):
    return re.sub(r"`[^`\n]+`", lambda m: turned(m[0], rows), t)


def antt(t, rows):
    out = []
    for line in t.split("\n"):
        m = re.match(r"(\s*--\s)(.*)$", line)
        out.append(m[1] + spans(m[2], rows) if m else turned(line, rows))
    return "\n".join(out)


CLAUSE = re.compile(r"(?s)(ghost use [^;]*;|(?:requires|ensures)\*?(?: \w+)? \{|ghost (?:\w+: )?\{)")


def rt(t, rows):
    out, at = [], 0
    while m := CLAUSE.search(t, at):
        out.append(t[at : m.start()])
        end = m.end()
        if m[0].endswith("{"):
            depth = 1
            while depth:
                depth += {"{": 1, "}": -1}.get(t[end], 0)
                end += 1
        out.append(turned(t[m.start() : end], rows))
        at = end
    out.append(t[at:])
    return "".join(out)


def edit(t, rows):
    return "\n".join(turned(l, rows) if re.match(r"(old|new): ", l) and re.search(r"(?m)^file: (specs|proofs)/", t) else l for l in t.split("\n"))


def main():
    rows = table()
    for n in sorted(rows):
        print(f"{n}\t{rows[n]}")
    for paths, turn in ((files(".antt"), antt), (files(".rt"), rt), (files(".edit"), edit), (["docs/CLAIMS.md"], spans)):
        for p in list(paths):
            t = text(p)
            n = turn(t, rows | aliases(t))
            if n != t:
                with open(p, "w", encoding="utf-8") as f:
                    f.write(n)


main()
