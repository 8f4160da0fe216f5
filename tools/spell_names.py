#!/usr/bin/env python3
"""Respells the repository's own definitions and lemmas: words in snake case, types and modules as they are.

usage: tools/spell_names.py [--list] [ROOT]

It runs once, after /opt/rattle/port/port.py: `deviceGood` becomes `device_good`, `pass-device` becomes `pass_device`. It reads the names from
crates/*/specs and crates/*/proofs, and rewrites them in .antt files, in .rt files outside strings, in the must-fail edits, and in docs/ and
README.md between backticks. Names that Rattle makes (goals, steps) are left, but for the proof of a function f, which is f_spec.
It prints the names that fall together, in one file. --list writes nothing. A second run changes nothing.
"""
import collections
import os
import re
import sys

WORD = r"[^\s(){}\[\].;,:@\"«»`|=<>+*/&!?#→λ×]+"
TOKEN = re.compile(r"(?<![\w'′-])(?<!\w\.)(?<!:)[a-zα-ω][\w'′-]*(?![\w'′-])")
FIELD = re.compile(r"(?<=[\w)'′-]\.)[a-zα-ω][\w'′-]*(?![\w'′-])")
HEAD = re.compile(
    r"^[ \t]*(?:(?:pub|abbrev|unfoldable|data|record|mutual) +)*(" + WORD + r"(?:, " + WORD + r")*)((?: *(?:\([^()]*(?:\([^()]*\)[^()]*)*\)|\{[^{}]*\}))*) *:(?![=:])\s*(\S+)", re.M
)
MADE = re.compile(r"^(tie|goal|lts)\.")


def read(p):
    with open(p, encoding="utf-8") as f:
        return f.read()


def write(p, t):
    with open(p, "w", encoding="utf-8") as f:
        f.write(t)


def snake(name):
    s = re.sub(r"(?<=[a-z0-9₀-₉])([A-Z]+)(?=[A-Z][a-z])", lambda m: "_" + m.group(1), name)
    s = re.sub(r"(?<=[a-z0-9₀-₉])([A-Z])", lambda m: "_" + m.group(1).lower(), s)
    s = re.sub(r"-([A-Z][a-z])", lambda m: "_" + m.group(1), s)
    return s.replace("-", "_").replace("′", "'")


def heads(text):
    for m in HEAD.finditer(re.sub(r"--[^\n]*", "", text)):
        for n in m.group(1).split(", "):
            yield n, m.group(3)


def odd(n):
    return re.match(r"[a-zα-ω]", n) and (re.search(r"[A-Z]", n) or "-" in n or "′" in n)


def files(root, ends):
    for top, dirs, fs in os.walk(os.path.join(root, "crates")):
        dirs[:] = sorted(d for d in dirs if d not in ("out", "data"))
        for f in sorted(fs):
            if f.endswith(ends):
                yield os.path.join(top, f)


def of_function(root, p):
    """Whether the file stands in a function's own folder of proofs/."""
    parts = os.path.relpath(p, root).split(os.sep)
    return parts[2] == "proofs" and len(parts) > 4


# Lemmas whose names would be those of the functions that they speak of, as port.py left them; the second are of one file or crate.
LEMMAS = {"bytes-of", "words-of", "state-of", "word-at"}
LEMMAS_OF = [
    ("crates/model/proofs/", "none_open"),
    ("crates/writer_laws/proofs/Made.antt", "in_order"),
    ("crates/keeper/proofs/Entries.antt", "at_rest"),
    ("crates/keeper/proofs/at_rest/", "at_rest"),
]


def own_names(root):
    every, local = collections.defaultdict(set), {}
    for p in files(root, ".antt"):
        mine = set()
        for n, kind in heads(read(p)):
            if not odd(n) or MADE.match(kind):
                continue
            if of_function(root, p):
                mine.add(n)
            else:
                every[n].add(os.path.relpath(p, root))
        if mine:
            local[p] = mine
    return every, local


def spelled(every):
    """The new name of each; a lemma that would have its function's name gets _lem."""
    names = {n: snake(n) for n in every}
    functions = {s for n, s in names.items() if "-" not in n}
    names.update({n: s + "_lem" for n, s in names.items() if "-" in n and s in functions})
    names.update({n: snake(n) + "_lem" for n in LEMMAS})
    return names


def turned(text, names):
    text = TOKEN.sub(lambda m: names.get(m.group(0), m.group(0)), text)
    # a field, or a step that Rattle makes, is no lemma
    return FIELD.sub(lambda m: snake(m.group(0)) if m.group(0) in names else m.group(0), text)


def turned_source(text, names):
    parts = re.split(r"(\"(?:[^\"\\\n]|\\.)*\")", text)
    return "".join(t if i % 2 else turned(t, names) for i, t in enumerate(parts))


def turned_page(text, names, known):
    def word(m):
        w = m.group(0)
        return names[w] if w in names else snake(w) if odd(w) and snake(w) in known else w

    return re.sub(r"`[^`\n]+`", lambda m: TOKEN.sub(word, m.group(0)), text)


# rt ci keeps the name if◌then◌else◌ for the library's own, which computes otherwise in proofs: the model's is when◌then◌else◌.
CHOICE = re.compile(r"(?<![\w.'◌-])if(?=\s)")
OWN = re.compile(r"Rattle\.model\.specs\.Logic\.\{[^}]*if◌then◌else◌|^unfoldable pub if◌then◌else◌", re.M)


def chosen(text):
    """The text of an .antt file, or of a clause, with the model's choice under its new name."""
    lines = text.split("\n")
    code = [re.split(r"(?<!\S)--", l, maxsplit=1) for l in lines]
    whole = "\n".join(c[0] for c in code)
    whole = CHOICE.sub("when", whole).replace("if◌then◌else◌", "when◌then◌else◌")
    return "\n".join(a + ("--" + c[1] if len(c) > 1 else "") for a, c in zip(whole.split("\n"), code))


def clauses(text):
    """The spans of the clauses and of the ghost uses of an .rt file."""
    for m in re.finditer(r"^[ \t]*(?:ensures|requires)\b[^{\n]*\{|^ghost use [^;]*;", text, re.M):
        end, depth = m.end(), 0
        if text[end - 1] == "{":
            depth = 1
            while depth:
                depth += {"{": 1, "}": -1}.get(text[end], 0)
                end += 1
        yield m.start(), end


def spell_choice(root):
    own = {p for p in files(root, (".antt", ".rt")) if OWN.search(read(p))}
    for p in sorted(own):
        t = read(p)
        if p.endswith(".antt"):
            write(p, chosen(t))
        else:
            for a, b in reversed(list(clauses(t))):
                t = t[:a] + chosen(t[a:b]) + t[b:]
            write(p, t)
    for p in files(root, ".edit"):
        t, of, out = read(p), None, []
        for line in t.split("\n"):
            if line.startswith("file: "):
                of = os.path.join(root, *os.path.relpath(p, root).split(os.sep)[:2], line[6:])
            elif of in own and line.startswith(("old: ", "new: ")) and (of.endswith(".antt") or re.search(r"\bensures\b|\brequires\b", line)):
                line = line[:5] + chosen(line[5:])
            out.append(line)
        if "\n".join(out) != t:
            write(p, "\n".join(out))


def together(root, names):
    for p in files(root, ".antt"):
        t = read(p)
        into = collections.defaultdict(set)
        for m in re.finditer(r"^\s*(?:pub )?use ([\w.'◌+-]+)\.\{([^}]*)\}", t, re.M | re.S):
            for n in m.group(2).split(","):
                n = n.strip().split(" as ")[-1].strip()
                if n:
                    into[names.get(n, n)].add((m.group(1), n))
        for n, _ in heads(t):
            into[names.get(n, n)].add(("here", n))
        for n, places in sorted(into.items()):
            if len({old for _, old in places}) > 1 or len({m for m, _ in places if m != "here"}) > 1:
                print(f"together: {os.path.relpath(p, root)}: {n}: {sorted(places)}")


def main(argv):
    only = "--list" in argv
    rest = [a for a in argv if a != "--list"]
    root = rest[0] if rest else "."
    every, local = own_names(root)
    names = spelled(every)
    # a name that port.py respelled already stands in the pages as it was
    known = {n for p in files(root, ".antt") for n, _ in heads(read(p))} | set(names.values())
    lemmas_of = [(where, n) for where, n in LEMMAS_OF if n in names.values()]
    if only:
        for n in sorted(names):
            print(n, names[n])
    new = collections.defaultdict(set)
    for n, s in names.items():
        new[s].add(n)
    for s, olds in sorted(new.items()):
        if len(olds) > 1:
            print("together:", s, sorted((o, sorted(every[o])) for o in olds))
    together(root, names)
    if only:
        return 0
    for p in files(root, (".antt", ".rt", ".edit")):
        t = read(p)
        mine = dict(names)
        if p in local:
            mine.update({n: snake(n) for n in local[p]})
        mine.update({n: n + "_lem" for where, n in lemmas_of if os.path.relpath(p, root).startswith(where)})
        if p.endswith(".antt"):
            u = turned(t, mine)
        else:
            u = turned_source(t, mine)
        if u != t:
            write(p, u)
    for top, dirs, fs in os.walk(os.path.join(root, "docs")):
        for f in sorted(fs):
            if f.endswith(".md") and f not in ("PORT.md",):
                p = os.path.join(top, f)
                t = read(p)
                u = turned_page(t, names, known)
                if u != t:
                    write(p, u)
    spell_choice(root)
    p = os.path.join(root, "README.md")
    t = read(p)
    u = turned_page(t, names, known)
    if u != t:
        write(p, u)
    return 0


if __name__ == "__main__":
    raise SystemExit(main(sys.argv[1:]))
