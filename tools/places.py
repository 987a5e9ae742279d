#!/usr/bin/env python3
"""Lists the places in crates/*/src that read like an older language, by the points of docs/DESIGN-PASS.md.

usage: python3 tools/places.py [--count] [FOLDER]     FOLDER: a checkout, by default this one
"""
import collections
import pathlib
import re
import sys

ARGS = [a for a in sys.argv[1:] if a != "--count"]
COUNT = "--count" in sys.argv
ROOT = pathlib.Path(ARGS[0]) if ARGS else pathlib.Path(__file__).resolve().parent.parent
FILES = sorted(ROOT.glob("crates/*/src/**/*.rt"))
TEXTS = {p: p.read_text() for p in FILES}
SHORT = {p: str(p.relative_to(ROOT / "crates")) for p in FILES}

# One line each: the point, what is looked for, and what the line has.
LINES = [
    (1, "an arm that hands an Option or a Result on",
     r"^\s*(Ok\((\w+)\) => Ok\(\2\),|Some\((\w+)\) => \3,|None => (Err\(|None,|Ok\(None\)|false,|0,)|"
     r"Err\(\w+\) => Err\(|Err\(_\) => Err\(|Some\(\w+\) => (Ok\(|Some\()|Ok\(\w+\) => Ok\(\w+[ ({])"),
    (1, "a refusal's number in an arm of its own", r"^\s*\w+::\w+ => \d+,$"),
    (1, "a number for a kind, or one that stands for none", r"\bkind: u8,$|= u32::MAX;|self\.kind == 0"),
    (3, "a count by hand", r"\b(count|offset) \+= "),
    (3, "a loop that searches or tests all by hand", r"^\s*return (true|false|Some\(\w+\));$"),
    (4, "a comparison, copy or conversion by hand",
     r"^\s*(pub(\(crate\))? )?fn (act_of|condition_of|comparison_of|word|clone|number)\b|\.letters == "),
    (6, "an array of a fixed length in a type or as a parameter",
     r"^\s*(pub(\(crate\))? )?\w+: \[\w+; \w+\],$|: &mut \[\w+; \w+\]"),
    (7, "a match that only chooses what to run", r"^\s*match command \{$|^\s*Tie::Reads\(\w+\) => "),
]


def functions(text):
    """The name, the parameters, the body and the line of each function that has a body."""
    for m in re.finditer(r"\bfn (\w+)(<[^(]*>)?\(([^)]*)\)", text):
        begin = re.search(r"^\s*\{$|\{$|;$", text[m.end():], re.M)
        if not begin or begin.group(0).endswith(";"):
            continue
        start = end = m.end() + begin.end()
        depth = 1
        while end < len(text) and depth:
            depth += {"{": 1, "}": -1}.get(text[end], 0)
            end += 1
        yield m.group(1), m.group(3), text[start:end - 1], text[:m.start()].count("\n") + 1


KEPT = {"if", "else", "match", "for", "while", "let", "return", "mut", "in", "true", "false",
        "Some", "None", "Ok", "Err", "self", "is_some", "is_none", "len", "push"}


def shape(body):
    """A body with its names, numbers and texts taken out."""
    body = re.sub(r"//.*", "", body)
    body = re.sub(r'b?"[^"]*"', "T", body)
    body = re.sub(r"\b\d\w*\b", "N", body)
    body = re.sub(r"[A-Za-z_]\w*", lambda m: m.group(0) if m.group(0) in KEPT else "x", body)
    return re.sub(r"\s+", " ", body).strip()


def report(point, what, places):
    print(f"{point}. {what}: {len(places)}")
    if not COUNT:
        for place in places:
            print(f"     {place}")


def each_line(pattern):
    for p in FILES:
        for n, line in enumerate(TEXTS[p].split("\n"), 1):
            if re.search(pattern, line):
                yield f"{SHORT[p]}:{n}: {line.strip()[:100]}"


for point, what, pattern in LINES:
    report(point, what, list(each_line(pattern)))

# Two lines: what is not there is handed on as an error of its own.
handed = re.compile(r"(let Some\(\w+\) = .* else|if let Err\(\w+\) = .*) \{\n\s*return Err\(")
report(1, "a `let else` or an `if let` that returns an error",
       [f"{SHORT[p]}:{TEXTS[p][:m.start()].count(chr(10)) + 1}: {m.group(1)[:90]}"
        for p in FILES for m in handed.finditer(TEXTS[p])])

report(1, "an enum without derived equality",
       [f"{SHORT[p]}: {m.group(2)}" for p in FILES
        for m in re.finditer(r"#\[derive\(([^)]*)\)\]\n(?:pub(?:\(crate\))? )?enum (\w+)", TEXTS[p])
        if "PartialEq" not in m.group(1)])

loops = []
for p in FILES:
    for m in re.finditer(r"for (\w+) in 0\w*\.\.=?[^{]*\{\n((?:.*\n){1,8})", TEXTS[p]):
        if re.search(rf"\[{m.group(1)}\]|\({m.group(1)}\)", m.group(2)):
            loops.append(f"{SHORT[p]}:{TEXTS[p][:m.start()].count(chr(10)) + 1}: {m.group(0).split(chr(10))[0]}")
report(3, "a loop over numbers that are used as an index", loops)

shapes = collections.defaultdict(list)
pairs = collections.defaultdict(set)
for p in FILES:
    for name, parameters, body, line in functions(TEXTS[p]):
        if len(shape(body)) > 24 and name != "fmt":
            shapes[shape(body)].append(f"{SHORT[p]}:{line} {name}")
        # the runtime and the allocator are handed in everywhere, as the language has it
        listed = [re.sub(r"\s+|mut ", "", x) for x in parameters.split(",")
                  if ":" in x and not re.match(r"\s*(rt|heap):", x)]
        for i, a in enumerate(listed):
            for b in listed[i + 1:]:
                pairs[(a, b)].add(f"{SHORT[p].split('/')[0]} {name}")
report(2, "functions of one shape", [", ".join(v) for v in shapes.values() if len(v) > 1])
constants = collections.defaultdict(list)
for p in FILES:
    for m in re.finditer(r"const (\w+): \w+ = ([^;]+);", TEXTS[p]):
        constants[(m.group(1), m.group(2))].append(SHORT[p])
report(2, "a constant said more than once", [f"{k[0]}: {', '.join(v)}" for k, v in constants.items() if len(v) > 1])
report(5, "two parameters that stand together in three functions or more",
       [f"{a}, {b}: {', '.join(sorted(v))}" for (a, b), v in sorted(pairs.items()) if len(v) >= 3])
clauses = collections.Counter()
for p in FILES:
    for m in re.finditer(r"ensures\*? ?\w* \{ (.*) \}", TEXTS[p]):
        clauses[(SHORT[p].split("/")[0], m.group(1))] += 1
report(5, "a clause that stands in three contracts or more of a crate",
       [f"{c}: {n} times: {t[:100]}" for (c, t), n in sorted(clauses.items()) if n >= 3])

proofs = list(ROOT.glob("crates/*/proofs/**/*.antt"))
texts = {p: p.read_text() for p in proofs}
answers = sum(len(re.findall(r"^pub [^:\n]* :\s+goal\.", t, re.M)) for t in texts.values())
lemmas = sum(len(re.findall(r"^\s*(?:pub )?(?!abbrev|use|record|data)[a-z][\w'-]* : ", t, re.M))
             for p, t in texts.items() if p.name not in ("Answers.antt", "Invariants.antt"))
print(f"8. files of proofs: {len(proofs)}, lines: {sum(len(t.splitlines()) for t in texts.values())}, "
      f"answers: {answers}, lemmas of our own: {lemmas}")
