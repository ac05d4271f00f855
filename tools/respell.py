#!/usr/bin/env python3
"""Brings the names of the definitions, fields and lemmas of specs/ and proofs/ to snake case: lossCheck to loss_check, floor-below to
floor_below, Rounding·nearest to rounding_nearest. Functions, types, modules and the names that the check makes stay. Run once, at the top, on
what port.py wrote; --list prints the names."""
import collections, glob, re, sys

WORD = r"[^\s(){}\[\]:;,.λ⟨⟩`\"]+"
SIGNATURE = re.compile(rf"^\s*(?:(?:abbrev|unfoldable|pub|data|record|ruleset)\s+)*({WORD})\s*:(?:\s(.*))?$")
MADE = re.compile(r"^(tie\.|goal\.|{M : Type 1} → statement|statement)")


def comment_free(line):
    return re.sub(r"(^|\s)--.*$", "", line)


def snake(name):
    name = re.sub(r"(?<=[a-z0-9])([A-Z])", lambda m: "_" + m.group(1).lower(), name) if name[0].islower() else name
    return name.replace("-", "_")


def wants(name):
    if any(c in name for c in "◌_") and not re.search(r"[a-z]-|-[a-z0-9]", name):
        return False
    return bool(re.match(r"^[a-z≼≺Δμ+]", name)) and bool(re.search(r"[a-z0-9][A-Z]|-", name)) and name != "-"


own, made_in = collections.defaultdict(set), collections.defaultdict(set)
antt = sorted(glob.glob("crates/*/specs/**/*.antt", recursive=True) + glob.glob("crates/*/proofs/**/*.antt", recursive=True))
for path in antt:
    for line in open(path, encoding="utf-8"):
        m = SIGNATURE.match(comment_free(line.rstrip("\n")))
        if not m:
            continue
        name, rest = m.group(1), m.group(2) or ""
        if MADE.match(rest) and not name.endswith("-spec"):
            made_in[path].add(name)
        elif wants(name):
            own[name].add(path)
    for line in open(path, encoding="utf-8"):
        for name in re.findall(rf"(?:^|[\s(])let ({WORD}) [:=]", comment_free(line)):
            if wants(name):
                own[name].add(path)

# where two would fall together
APART = {
    "aim-refused": "aim_refused_lem",
    "exact-share": "share_exactly",
    "first-not-insufficient": "first_not_insufficient_lem",
    "limit-at": "limit_at_lem",
    "loss-limit": "limit_of_loss",
    "new-book": "new_made",
    "sheet-order": "order_of_sheets",
    "surface-bound": "surface_bound_lem",
    "surface-limit": "limit_of_surface",
    "year-round": "all_year",
}
names = {n: APART.get(n, snake(n)) for n in own}
if "--list" in sys.argv:
    every = {m.group(1) for p in antt for l in open(p, encoding="utf-8") if (m := SIGNATURE.match(comment_free(l)))}
    back = collections.defaultdict(list)
    for n, s in names.items():
        back[s].append(n)
    for n, s in sorted(names.items()):
        print(n, s, "TOGETHER" if len(back[s]) > 1 or s in every else "")
    sys.exit()

TOKEN = re.compile(WORD)


def respelled(text, skip):
    def one(m):
        w = m.group(0)
        if w in skip:
            return w
        if w in names:
            return names[w]
        if "·" in w and re.match(r"^[A-Z][A-Za-z]*·[a-z]", w):
            a, b = w.split("·", 1)
            return snake(a[0].lower() + a[1:]) + "_" + snake(b)
        return w
    return TOKEN.sub(one, text)


def foreign(text):
    """the names that a file imports from a library"""
    out = set()
    for m in re.finditer(r"^(?:pub )?(?:ghost )?use ([^\s{]+)\.\{([^}]*)\}", text, re.M):
        crate = m.group(1).split(".")
        if crate[0] != "Rattle" or crate[1] in ("std", "core", "io", "libc", "os"):
            out |= {p.split(" as ")[-1].strip() for p in m.group(2).split(",")}
    return out


def line_of_antt(line, skip):
    m = re.search(r"(^|\s)--.*$", line)
    if not m:
        return respelled(line, skip)
    code, comment = line[:m.start()], line[m.start():]
    return respelled(code, skip) + in_comment(comment)


def in_comment(text):
    """names between backquotes, and words in camel case"""
    text = re.sub(r"`([^`]*)`", lambda m: "`" + respelled(m.group(1), set()) + "`", text)
    return re.sub(r"\b[a-z]+[A-Z][A-Za-z]*\b", lambda m: names.get(m.group(0), m.group(0)), text)


def line_of_rt(line, skip):
    m = re.search(r"//.*$", line)
    code, comment = (line[:m.start()], line[m.start():]) if m else (line, "")
    parts = re.split(r'(b?"(?:[^"\\]|\\.)*")', code)
    return "".join(p if i % 2 else respelled(p, skip) for i, p in enumerate(parts)) + in_comment(comment)


for path in antt + sorted(glob.glob("crates/*/src/**/*.rt", recursive=True)) + sorted(glob.glob("crates/*/must-fail/*.edit")):
    text = open(path, encoding="utf-8").read()
    skip = foreign(text) | made_in.get(path, set())
    each = line_of_antt if path.endswith(".antt") else line_of_rt
    if path.endswith(".edit"):
        out, each = [], line_of_rt
        for line in text.split("\n"):
            if line.startswith("file: "):
                each = line_of_antt if line.endswith(".antt") else line_of_rt
            out.append(line[:5] + each(line[5:], set()) if line.startswith(("old: ", "new: ")) else line)
        new = "\n".join(out)
    else:
        new = "\n".join(each(l, skip) for l in text.split("\n"))
    if new != text:
        open(path, "w", encoding="utf-8").write(new)
