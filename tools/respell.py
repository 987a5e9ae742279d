#!/usr/bin/env python3
"""Brings the names of definitions and lemmas to one spelling: words in snake case, types and modules in camel case.

usage: python3 tools/respell.py     at the top of the repository

A name is one that a file of specs/ or proofs/ defines, a field or a constructor there, or what a `ghost use` or a `use`
calls an import of the repository's own (`as`). `firstFrom` becomes `first_from`, `cut-fit` becomes `cut_fit`; a dash stays
behind a word of the library's lists (`map-last_of`). Names of goals, invariants and measures, which the check makes, and
names of the library stay, and so does all else: code, comments, texts. Names that fall together are told, and nothing is
then changed.
"""

import collections
import os
import re
import sys

LIST_WORDS = {"map", "take", "drop", "set", "length"}
# What would fall together with another name, or with a word of the code, and what it is called instead.
OTHERWISE = {
    "has_all": "has_all_true",
    "in-last": "in_last_is",
    "refused-at": "refused_at_act",
    "is-mark": "is_mark_within",
    "at_call": "at_call_is",
    "all_hold": "all_hold_true",
    "is-met": "met_there",
    "read_as": "command_read_as",
}
NAME = r"[^\s(){}\[\].,;:@\"«»⌜⌝|]+"
TOKEN = re.compile(r"(?<![^\s(){}\[\].,;:@«»⌜⌝|])" + NAME)
MADE = re.compile(r"^(goal|need|needs|Goals|Given)\.")
DEFINES = re.compile(r"^(\s*)((?:(?:abbrev|unfoldable|pub|record|data|ruleset)\s+)*)(" + NAME + r"(?:\s+" + NAME + r")*)\s*((?:[({].*)?:(?!:)\s*(.*))$")
HEAD = re.compile(r"^(?:(?:abbrev|unfoldable|pub)\s+)*(record|data|ruleset)\s+(" + NAME + r")")


def snake(name):
    name = re.sub(r"(?<=[a-z0-9])([A-Z])", lambda m: "_" + m.group(1).lower(), name)
    parts = name.split("-")
    out = parts[0]
    for left, right in zip(parts, parts[1:]):
        out += ("-" if left in LIST_WORDS else "_") + right
    return out


def wants(name):
    return name[0].islower() and ("-" in name.strip("-") or re.search(r"[a-z0-9][A-Z]", name)) and re.fullmatch(r"[\w'-]+", name)


def files(root):
    for folder, dirs, names in os.walk(os.path.join(root, "crates")):
        dirs[:] = sorted(d for d in dirs if d not in ("out", "must-fail", "data"))
        for n in sorted(names):
            if n.endswith((".antt", ".rt")):
                yield os.path.join(folder, n)


def ghost_parts(text):
    """The spans of a .rt file that are clauses, ghost items or ghost imports."""
    spans = []
    for m in re.finditer(r"^\s*(?:pub )?ghost use [^;]*;", text, re.M):
        spans.append(m.span())
    for m in re.finditer(r"^\s*(?:pub )?(?:ghost \w+\s*[:=]|(?:requires|ensures)\*?(?: \w+)?)\s*\{|(?<=[,{ ])ghost \w+: \{", text, re.M):
        i = m.end()
        depth = 1
        while depth and i < len(text):
            depth += {"{": 1, "}": -1}.get(text[i], 0)
            i += 1
        spans.append((m.start(), i))
    return sorted(spans)


def imports(text):
    """(module, name, alias) of each imported name."""
    for m in re.finditer(r"^\s*(?:pub )?(?:ghost )?use ([\w.+'-]+)\.\{([^}]*)\}", text, re.M):
        for item in m.group(2).split(","):
            item = item.strip()
            if item:
                a, _, b = item.partition(" as ")
                yield m.group(1), a.strip(), b.strip()


def defined(path, text):
    made = set()
    own = set()
    plain = not re.search(r"/(Answers|Choices|Invariants)\.antt$", path)
    for line in text.split("\n"):
        if line.lstrip().startswith("--"):
            continue
        m = DEFINES.match(line)
        if not m:
            continue
        names = m.group(3).split()
        if "=" in names:
            continue
        if names[0] in ("use", "mod", "pub", "unfolding", "elim", "let", "λ"):
            continue
        for n in names:
            (made if not plain and MADE.match(m.group(5)) else own).add(n)
    return own, made


def main():
    root = "."
    texts = {p: open(p, encoding="utf-8").read() for p in files(root)}
    crates = set(os.listdir(os.path.join(root, "crates")))
    own = collections.defaultdict(set)
    made = {}
    fields = set()
    for p, t in texts.items():
        if p.endswith(".antt"):
            o, mk = defined(p, t)
            made[p] = mk
            fields |= {n for line in t.split("\n") if (m := re.match(r"\s+(?:pub )?(" + NAME + r") :(?!:)", line)) for n in [m.group(1)]}
            for n in o:
                own[n].add(p)
        for module, a, b in imports(t):
            parts = module.split(".")
            if b and not (module.startswith("Rattle.std") and not wants(b)):
                own[b].add(p)
    table = {n: OTHERWISE.get(n, snake(n)) for n in own if wants(n) or n in OTHERWISE}
    back = collections.defaultdict(set)
    for n, to in table.items():
        back[to].add(n)
    bad = False
    for to, froms in back.items():
        others = set(froms) | ({to} if to in own and to not in table else set())
        if len(others) > 1:
            print("fall together:", to, "<-", sorted(others), sorted(set().union(*(own[o] for o in others)))[:4])
            bad = True
    code = collections.defaultdict(set)
    for p, t in texts.items():
        if p.endswith(".rt"):
            for m in re.finditer(r"\b(?:fn|const|ghost|mod|type|static|let|let mut)\s+(\w+)|\b(\w+)\s*:(?!:)", t):
                code[m.group(1) or m.group(2)].add(p)
    for to in sorted(back):
        if to in code:
            print("also in code:", to, "<-", sorted(back[to]), sorted(code[to])[:3])
    if bad and "--force" not in sys.argv:
        sys.exit("nothing was changed")
    if "--dry" in sys.argv:
        for n in sorted(table):
            print(n, "->", table[n])
        return
    changed = 0
    for p, t in texts.items():
        foreign = {b or a for module, a, b in imports(t) if module.split(".")[1:2] and module.split(".")[1] not in crates and not (b and b in own)}
        foreign |= {a for module, a, b in imports(t) if module.split(".")[1:2] and module.split(".")[1] not in crates}
        keep = foreign | made.get(p, set())

        def turn(m):
            w = m.group(0)
            if w in table and w not in keep and (w in fields or m.string[m.start() - 1 : m.start()] != "."):
                return table[w]
            return w

        def goal_safe(text):
            out = []
            for line in text.split("\n"):
                if line.lstrip().startswith("--"):
                    out.append(line)
                elif (path := re.match(r"\s*(?:pub )?(?:ghost )?use [\w.+'-]+", line)):
                    out.append(path.group(0) + TOKEN.sub(turn, line[path.end() :]))
                else:
                    out.append(re.sub(r"(?<![\w.])(?:goal|need|needs)\.[^\s)]+|" + TOKEN.pattern, lambda m: m.group(0) if re.match(r"(goal|need|needs)\.", m.group(0)) else turn(m), line))
            return "\n".join(out)

        if p.endswith(".antt"):
            new = goal_safe(t)
        else:
            new, at = "", 0
            for a, b in ghost_parts(t):
                if a < at:
                    continue
                new += t[at:a] + goal_safe(t[a:b])
                at = b
            new += t[at:]
        if new != t:
            open(p, "w", encoding="utf-8").write(new)
            changed += 1
    print(f"respell: {len(table)} names, {changed} files")


main()
