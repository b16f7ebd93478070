#!/usr/bin/env python3
"""Turns a function's Proof.antt that walks by `tie` into Invariants.antt and Answers.antt.

usage: python3 tools/convert_proofs.py NAMES CRATE..      at the top of the repository

NAMES is the folder that `rt names NAMES` wrote. A file that has a form the script does not know is left, and said on a line `left:`.
"""

import json
import os
import re
import sys

NAME = r"[^\s(){}.;,@\"«»\[\]]+"


def norm(s):
    return s.replace("_", "-")


def strip_kind(s):
    s = norm(s)
    s = re.sub(r"^(overflow|nonzero|offset-bounds|slice-bounds|bounds)-", "", s)
    return s


def blocks(text):
    """Top-level blocks: comments and lines that begin at column 0 with what follows them indented."""
    out, cur = [], []
    for line in text.split("\n"):
        if line and not line.startswith((" ", ")", "]", "}")):
            if cur:
                out.append("\n".join(cur))
            cur = [line]
        else:
            cur.append(line)
    if cur:
        out.append("\n".join(cur))
    return [b.rstrip("\n") for b in out]


def split_args(text):
    """The arguments of an application, by brackets."""
    out, depth, cur = [], 0, ""
    for ch in text:
        if ch in "([{":
            depth += 1
        if ch in ")]}":
            depth -= 1
        if ch.isspace() and depth == 0:
            if cur:
                out.append(cur)
            cur = ""
        else:
            cur += ch
    if cur:
        out.append(cur)
    return out


def subst(text, mapping):
    def one(m):
        before = text[m.start() - 1] if m.start() else ""
        if before == ".":
            return m.group()
        return mapping.get(m.group(), m.group())

    return re.sub(NAME, one, text)


def labels_of(of):
    table = {}
    for place in of["places"]:
        old, new = place[2]
        if old:
            table[norm(old)] = new
    for (old, new), _ in of["loops"]:
        table[norm(old)] = new
    return table


def paths(text, table):
    text = re.sub(r"\.before\b(?![-_])", "", text)
    return re.sub(r"\.([A-Za-z][\w-]*)", lambda m: "." + table.get(norm(m.group(1)), m.group(1)), text)


def inline(text):
    """`let d = c in` goes, and d reads c; so for each such name."""
    while True:
        m = re.search(r"(?m)^[ ]*let (%s) = \(?([a-zA-Z]\w*)\)? in(?: \(\n|\n| )" % NAME, text)
        if not m or m.group(2) not in ("c", "w"):
            return text
        keep = "(\n" if m.group().endswith("(\n") else ""
        head, tail = text[: m.start()], text[m.end() :]
        if keep:
            tail = "    (\n" + tail
        text = head + subst(tail, {m.group(1): m.group(2)})


def convert(path, of, module):
    text = open(path, encoding="utf-8").read()
    table = labels_of(of)
    uses, head, items = [], [], []
    pending = []
    for b in blocks(text):
        if b.startswith("--"):
            (head if not uses and not items else pending).append(b)
            continue
        if b.startswith("use "):
            uses.append(b)
            continue
        items.append((pending, b))
        pending = []
    # group: signature, unfolding, equations
    decls = []
    for comments, b in items:
        m = re.match(r"((?:abbrev|pub|unfoldable|record|data)\s+)*(%s)" % NAME, b)
        name = m.group(2)
        if b.startswith("unfolding"):
            decls[-1]["unfold"] = b.strip()
            continue
        if decls and decls[-1]["name"] == name and not re.match(r"((?:abbrev|pub|unfoldable)\s+)*%s\s*:\s" % re.escape(name), b):
            decls[-1]["eqs"].append(b)
            continue
        decls.append({"name": name, "sig": b, "eqs": [], "unfold": None, "comments": comments})
    inv, ans, others = [], [], []
    finals = None
    loops = of["loops"]
    n_loops = 0
    for d in decls:
        body = "\n".join(d["eqs"])
        if re.search(r"tie\.(close|spec)", body):
            finals = body
            continue
        m = re.search(r":\s*tie\.(invariant|decreases)-(%s)" % NAME, d["sig"])
        if m:
            inv.append((d, m.group(1), m.group(2)))
            continue
        m = re.search(r":\s*tie\.Need-(%s)" % NAME, d["sig"])
        if m:
            ans.append((d, m.group(1)))
            continue
        others.append(d)
    if finals is None:
        raise ValueError("no tie.spec")
    m = re.search(r"tie\.spec\b(.*)", finals, re.S)
    rest = m.group(1).strip()
    # drop the bracket that closes tie.close's argument
    depth = 0
    cut = len(rest)
    for i, ch in enumerate(rest):
        depth += ch in "([{"
        depth -= ch in ")]}"
        if depth < 0:
            cut = i
            break
    args = split_args(rest[:cut])
    inv_names = {d["name"] for d, _, _ in inv}
    args = [a for a in args if a not in inv_names]
    for at, kind in enumerate(["invariant", "decreases"] * len(loops) if not inv else []):
        m = re.match(r"\(λ ([^.]*)\.\s*(.*)\)$", args[at], re.S)
        loop = loops[at // 2][0][0]
        inv.append(({"name": "x", "sig": "", "eqs": [f"x {m.group(1)} = {m.group(2)}"], "unfold": None, "comments": []}, kind, loop))
    if not inv_names:
        args = args[2 * len(loops) :]
    needs = of["needs"]
    by_pos = len(args) == len(needs)
    olds = {}
    for old, new in needs:
        olds.setdefault(strip_kind(old), new)
        olds.setdefault(strip_kind(new), new)
    answers = []
    unknown = []
    by_arg = {a: needs[i][1] for i, a in enumerate(args)} if by_pos else {}
    for d, old in ans:
        new = by_arg.get(d["name"]) or olds.get(strip_kind(old))
        if not new:
            unknown.append(old)
            new = old
        answers.append((d, new))
    extra = []
    for i, a in enumerate(args):
        if by_pos and a.startswith("("):
            m = re.match(r"\(λ (?:c|_)(?: κs| _)?\.\s*(.*)\)$", a, re.S)
            if m and m.group(1).strip() != "search rules":
                extra.append((needs[i][1], m.group(1).strip()))
            elif not m:
                extra.append((needs[i][1], None))
        elif not by_pos and a.startswith("(") and not re.match(r"\(λ c(?: κs)?\.\s*search rules\)$", a, re.S):
            unknown.append(a)
    # invariants
    inv_text = []
    for d, kind, old in inv:
        loop = next((l for l in loops if norm(l[0][0]) == norm(old)), None)
        if loop is None and len(loops) == 1:
            loop = loops[0]
        if loop is None:
            raise ValueError("no loop " + old)
        new, vars_ = loop[0][1], loop[1]
        changed = of["changed"][loops.index(loop)]
        body = "\n".join(d["eqs"])
        m = re.match(r"%s((?:\s+%s)*)\s*=(.*)" % (re.escape(d["name"]), NAME), body, re.S)
        params = m.group(1).split()
        fixed = [v for v, c in zip(vars_, changed) if not c]
        moved = [v for v, c in zip(vars_, changed) if c]
        want = len(fixed) + 2 * len(moved)
        targets = [("l.initial." if c else "l.") + v for v, c in zip(vars_, changed)] + ["l." + v for v in moved]
        note = ""
        if want != len(params):
            note = f"-- CHECK: {len(params)} parameters {params} for {targets}\n"
            # by names
            targets = []
            for p in params:
                if p.endswith("₀") and p[:-1] in vars_:
                    targets.append("l.initial." + p[:-1])
                elif p in vars_:
                    targets.append("l." + p)
                else:
                    targets.append("l." + p)
        mapping = dict(zip(params, targets))
        inv_text.append((note, kind, new, subst(m.group(2), mapping)))
    folder = os.path.dirname(path)
    use_all = [u for u in uses if not re.search(r"\.Statement\.\{statement\}|\.Tie as tie", u)]

    def fmt_decl(d, body=None):
        out = "".join(c + "\n" for c in d["comments"])
        out += d["sig"] + "\n"
        if d["unfold"]:
            out += d["unfold"] + "\n"
        out += "\n".join(d["eqs"])
        return out

    if inv_text:
        names = {}
        t = "\n".join(head) + "\n" + "\n".join(use_all) + f"\nuse {module}.Given as goal\n"
        used = " ".join(x[3] for x in inv_text)
        local = []
        while True:
            more = [d for d in others if d not in local and re.search(r"(?<![\w.-])%s(?![\w-])" % re.escape(d["name"]), used)]
            if not more:
                break
            local += more
            used += " ".join(fmt_decl(d) for d in more)
        local = [d for d in others if d in local]
        for d in local:
            text = fmt_decl(d)
            if re.match(r"(pub )?record", text):
                text = re.sub(r"^(pub )?record", "pub record", text)
                text = re.sub(r"(?m)^(  )(?!pub |--)(\S+ :)", r"\1pub \2", text)
                t += "\n" + text + "\n"
            else:
                t += "\n" + re.sub(r"^(abbrev )?(pub )?", "abbrev pub ", text, count=1) + "\n"
        for note, kind, new, body in inv_text:
            t += f"\n{note}abbrev pub {kind}-{new} : goal.{kind}-{new}\n{kind}-{new} l ={body}\n"
        open(os.path.join(folder, "Invariants.antt"), "w", encoding="utf-8").write(t)
        if local:
            use_all.append(f"use {module}.Invariants.{{{', '.join(d['name'] for d in local)}}}")
            others = [d for d in others if d not in local]
    if answers or extra:
        t = "\n".join(head) + "\n" + "\n".join(use_all) + f"\nuse {module}.Goals as goal\n"
        for d in others:
            t += "\n" + inline(paths(fmt_decl(d), table)) + "\n"
        for d, new in answers:
            body = "\n".join(d["eqs"])
            body = re.sub(r"^%s c κs\b" % re.escape(d["name"]), f"{d['name']} c", body)
            body = re.sub(r"^%s\b(?![-_])" % re.escape(d["name"]), new, body)
            body = inline(paths(body, table))
            t += "\n" + "".join(c + "\n" for c in d["comments"]) + f"pub {new} : goal.{new}\n"
            if d["unfold"]:
                t += d["unfold"] + "\n"
            t += body + "\n"
        for new, body in extra:
            t += f"\npub {new} : goal.{new}\n{new} c = " + (inline(paths(body, table)) if body else "?") + "\n"
        open(os.path.join(folder, "Answers.antt"), "w", encoding="utf-8").write(t)
    for name in ["Invariants.antt", "Answers.antt"]:
        it = os.path.join(folder, name)
        if os.path.exists(it):
            said = open(it, encoding="utf-8").read()
            turned = re.sub(r"\.well-formed\b", ".well_formed", re.sub(r"\.type-inv\b", ".type_inv", said))
            open(it, "w", encoding="utf-8").write(turned)
    os.remove(path)
    return by_pos, unknown, [d["name"] for d in others if "tie." in fmt_decl(d)]


def main():
    names, crates = sys.argv[1], sys.argv[2:]
    for crate in crates:
        listed = json.load(open(os.path.join(names, "crates", crate, "names.json"), encoding="utf-8"))
        for module, of in listed.items():
            if not module.endswith(".Lts"):
                continue
            where = module.split(".", 1)[1].rsplit(".Lts", 1)[0]
            path = os.path.join("crates", crate, "proofs", *where.split("."), "Proof.antt")
            if not os.path.exists(path):
                continue
            try:
                by_pos, unknown, ties = convert(path, of, f"Rattle.{crate}.proofs.{where}")
                if not by_pos or unknown or ties:
                    print(f"look: {path}: by_pos={by_pos} unknown={unknown} ties={ties}")
            except Exception as e:
                print(f"left: {path}: {e!r}")


main()
