#!/usr/bin/env python3
"""Brings the names of this repository's own definitions and lemmas to today's spelling.

usage: python3 tools/respell.py [FOLDER]    once, right after the kit's port.py, at the top of the tree or of FOLDER
       python3 tools/respell.py --pages     later, once: the pages (README.md, docs/), by the names that NAMES keeps

A name is taken from where it is declared: in an .antt file below crates/, at the head of a line, before a colon. Words,
lemmas, fields and constructors go to snake case, with types and facts in camel case as they were; a dash stays where it
joins two names that are declared themselves. Names of src/, of the library, of what the check makes, of module and type
parameters, and strings stay. A name that would fall together with another in some file takes the next form, or stops the
script. The names, old and new, are written to docs/PORT-NAMES.txt.
"""

import os
import re
import sys

NAMES = "docs/PORT-NAMES.txt"
TOKEN = re.compile(r"[^\s(){};,.@\"\[\]`]+")
DECLARED = re.compile(
    r"^(\s*)((?:abbrev|unfoldable|pub|private|data|record|opaque)\s+)*"
    r"([^\s(){};,.@\"\[\]:]+(?:\s+[^\s(){};,.@\"\[\]:=|λ→]+)*)\s+:(?:\s|$)"
)
TAKEN = re.compile(r"^\s*(?:ghost\s+)?use\s+(\S+?)(?:\.\{([^}]*)\})?;?\s*$")
# The paper's functions of a step, and the lemmas whose names a word takes.
BY_HAND = {
    "P0": "p0_of", "P1": "p1_of", "G0": "g0_of", "G1": "g1_of", "R0": "r0_of", "R1": "r1_of",
    "R0orR1": "r0_or_r1", "U0andU1": "u0_and_u1", "G*": "g_star", "G": "g_of",
    "is_found": "found_some", "out_of_range": "answers-out_of_range",
}


def files(root, endings):
    for folder, dirs, names in os.walk(os.path.join(root, "crates")):
        dirs[:] = sorted(d for d in dirs if d not in ("out", ".git"))
        for name in sorted(names):
            if name.endswith(endings):
                yield os.path.join(folder, name)


def read(path):
    with open(path, encoding="utf-8") as f:
        return f.read()


def pieces(text, comment):
    """The text as (kind, piece): code, strings and comments, in order."""
    out, at = [], 0
    for m in re.finditer(r'"(?:\\.|[^"\\\n])*"|' + re.escape(comment) + r"[^\n]*", text):
        out.append(("code", text[at:m.start()]))
        out.append(("string" if m.group().startswith('"') else "comment", m.group()))
        at = m.end()
    out.append(("code", text[at:]))
    return out


def comment_of(path):
    return "--" if path.endswith(".antt") else "//"


def code_of(path):
    return "".join(t if k == "code" else " " for k, t in pieces(read(path), comment_of(path)))


def declared(root):
    """The declared names: in specs or proofs, but not the answers of a function's own proof to the check's goals."""
    names, specs = set(), set()
    for path in files(root, ".antt"):
        lines = code_of(path).split("\n")
        for i, line in enumerate(lines):
            m = DECLARED.match(line)
            if not m or answers(lines, i, len(m.group(1))):
                continue
            for name in m.group(3).split():
                names.add(name)
                if "/specs/" in path:
                    specs.add(name)
    return names, specs


def answers(lines, i, indent):
    """Whether a declaration's type, over all its lines, is what the check asks of a function."""
    whole = lines[i]
    for line in lines[i + 1:]:
        if len(line) - len(line.lstrip()) <= indent:
            break
        whole += line
    return bool(re.search(r"(?<!\w)(tie|goal)\.|Need-|(?<!\w)statement(?!\w)", whole))


def taken(text, own):
    """Names that a file takes from the library or from what the check makes: they keep their spelling there."""
    out = set()
    for line in text.split("\n"):
        m = TAKEN.match(line)
        if not m:
            continue
        parts = m.group(1).split(".")
        ours = len(parts) > 2 and parts[0] == "Rattle" and parts[1] in own and parts[2] in ("specs", "proofs")
        if ours and parts[-1] not in ("Tie", "Statement", "Goals", "Given") and "contracts" not in parts:
            continue
        for name in (m.group(2) or "").split(","):
            out.update(w for w in name.split(" as ")[0].split())
    return out


def snake(part):
    if part in BY_HAND:
        return BY_HAND[part]
    if re.match(r"[A-Z]", part) and (re.search(r"[a-z]", part) and not re.search(r"[0-9]", part)):
        return part
    part = re.sub(r"(?<=[a-z0-9])(?=[A-Z])", "_", part)
    return part.lower() if re.search(r"[A-Z]", part) else part


def forms(name, names):
    """The spellings to try, in order."""
    parts = name.split("-")
    new = [snake(p) for p in parts]
    first = new[0]
    for i in range(1, len(parts)):
        both = parts[i - 1] in names and parts[i] in names
        first += ("-" if both else "_") + new[i]
    return [first, "-".join(new), "_".join(new)]


def wanted(name):
    if name in BY_HAND:
        return True
    if not re.match(r"[A-Za-z]", name):
        return False
    if "-" in name:
        return True
    return bool(re.match(r"[a-z]", name) and re.search(r"[A-Z]", name))


def plan(root):
    names, specs = declared(root)
    own = {c for c in os.listdir(os.path.join(root, "crates"))}
    tokens, kept, holders = {}, {}, {}
    for path in files(root, (".antt", ".rt")):
        code = code_of(path)
        tokens[path] = set(TOKEN.findall(code))
        kept[path] = taken(code, own)
        for t in tokens[path]:
            holders.setdefault(t, []).append(path)
    new, made = {}, {}
    trouble = []
    order = sorted((n for n in names if wanted(n)), key=lambda n: (n not in BY_HAND, "-" in n, n not in specs, n))
    for name in order:
        for form in [BY_HAND[name]] if name in BY_HAND else forms(name, specs):
            if form == name:
                new[name] = form
                break
            free = form in new
            clash = [p for p in holders.get(name, []) if name not in kept[p] and form in tokens[p] and not free and not fn_alone(p, form)]
            if not clash and made.get(form, name) == name:
                new[name], made[form] = form, name
                break
        else:
            trouble.append((name, forms(name, specs), clash[:3], made.get(forms(name, specs)[0])))
    return {a: b for a, b in new.items() if a != b}, kept, own, trouble


def fn_alone(path, form):
    """Whether a name stands in a file as the name of a function of src/ alone: it may be a word of specs/ too."""
    if path.endswith(".rt"):
        return True
    edge = r"[^\s(){};,.@\[\]]"
    return not re.search(r"(?<!\.)(?<!" + edge + ")" + re.escape(form) + r"(?!" + edge + ")", code_of(path))


def respelled(text, new, skip, comment):
    """The text with each name in its new spelling; in comments only what no English word is."""
    out = []
    for kind, piece in pieces(text, comment):
        if kind == "string":
            out.append(piece)
            continue
        plain = kind == "comment"

        def one(m):
            t = m.group()
            if t in skip or t not in new:
                return t
            if plain and not re.search(r"[a-z][A-Z]", t) and not quoted(piece, m.start()):
                return t
            if not plain and m.start() and piece[m.start() - 1] == "." and generated(piece, m.start()):
                return t
            return new[t]

        out.append(TOKEN.sub(one, piece))
    return "".join(out)


def quoted(piece, at):
    return piece[:at].count("`") % 2 == 1


def generated(piece, at):
    """Whether a projection's path goes through what the check makes: c.before.., tie.., goal.."""
    head = re.search(r"([^\s(){};,@\[\]]*)\.$", piece[:at])
    return bool(head and re.match(r"(tie|goal|c)(\.|$)|.*\.(before|args)(\.|$)", head.group(1)))


def turn(root):
    new, kept, own, trouble = plan(root)
    if trouble:
        for t in trouble:
            print("falls together:", *t)
        raise SystemExit(1)
    for path in files(root, (".antt", ".rt", ".edit")):
        text = read(path)
        skip = kept.get(path, set())
        after = respelled(text, new, skip, comment_of(path))
        if after != text:
            with open(path, "w", encoding="utf-8") as f:
                f.write(after)
    with open(os.path.join(root, NAMES), "w", encoding="utf-8") as f:
        f.write("".join(f"{a} {b}\n" for a, b in sorted(new.items())))
    print(f"respell: {len(new)} names")


def pages(root):
    with open(os.path.join(root, NAMES), encoding="utf-8") as f:
        new = dict(line.split() for line in f if line.strip())
    named = [os.path.join(root, "README.md")]
    named += [os.path.join(root, "docs", p) for p in sorted(os.listdir(os.path.join(root, "docs"))) if p.endswith(".md") and not p.startswith("PORT")]
    for path in named:
        text = read(path)
        after = "".join(
            TOKEN.sub(lambda m: new.get(m.group(), m.group()), t) if t.startswith("`") else t
            for t in re.split(r"(`[^`\n]*`)", text)
        )
        if after != text:
            with open(path, "w", encoding="utf-8") as f:
                f.write(after)


if __name__ == "__main__":
    if sys.argv[1:2] == ["--pages"]:
        pages(".")
    else:
        turn(sys.argv[1] if len(sys.argv) > 1 else ".")
