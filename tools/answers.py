#!/usr/bin/env python3
"""Turns a crate's proofs by hand (proofs/F/Proof.antt) into Invariants.antt and Answers.antt.

usage: python3 tools/answers.py NAMES CRATE..     at the top; NAMES is what `rt check --generated DIR --old-names` wrote (names.json)

An answer that is a bare search is left out: the check tries more than that by itself. What has no new name is kept as a comment line
that begins `-- LEFT`, for a person to read.
"""
import json
import os
import re
import sys

TRIVIAL = {"search rules", "omega arith", "refl", "search needs", "tt"}


def norm(n):
    n = n.replace("_", "-")
    n = re.sub(r"^overflow-", "", n)
    n = re.sub(r"^bounds-", "index-", n)
    n = re.sub(r"^nonzero-", "", n)
    n = re.sub(r"^slice-index-", "part-", re.sub(r"^slice-bounds-", "part-", n))
    n = n.replace("loop-holds", "loop-init").replace("loop-less", "loop-smaller").replace("loop-again", "loop-preserved")
    return n


def blocks(text):
    """Splits a file into its top-level declarations, each with the comment lines above it."""
    out, cur = [], []
    for line in text.split("\n"):
        if line and not line[0].isspace() and cur and not (cur and all(l.startswith("--") or l.startswith("unfolding") or not l for l in cur)):
            starts = line.startswith("--") or re.match(r"(pub |abbrev )*[^\s=]+ :", line) or line.startswith("use ")
            if starts:
                out.append("\n".join(cur))
                cur = []
        cur.append(line)
    out.append("\n".join(cur))
    return [b.strip("\n") for b in out if b.strip()]


def name_of(b):
    for l in b.split("\n"):
        m = re.match(r"(?:pub |abbrev )*([^\s:=(){}]+) :", l)
        if m:
            return m.group(1)
    return None


def chain(k, place):
    """The steps on the way to a goal, the nearest first: old field names to new ones, and what an arm binds."""
    at = {}
    for i, p in enumerate(k["places"]):
        at.setdefault(p[0], i)
    fields, arms, seen = {}, [], set()
    i = at.get(place)
    while i is not None and i not in seen:
        seen.add(i)
        n, par, (o, new), _, _ = k["places"][i]
        if o:
            fields.setdefault(o, new)
            fields.setdefault(o.replace("_", "-"), new)
        a = k["arms"][i]
        if a:
            for f, step, path in a[2]:
                arms.append((step, path, a[0], f))
        i = at.get(par)
    arms.sort(key=lambda x: -len(x[1]))
    return fields, arms


def steps(body, places, callees, cycle, arms=()):
    """`c.before.before.loop.i` becomes `c.loop-q.i`; what only names an earlier state goes."""
    states = {"c"}
    while True:
        m = None
        for s in sorted(states, key=len, reverse=True):
            m = re.search(r"let ([\w'-]+) = " + re.escape(s) + r"(?:\.before)* in\s*", body)
            if m:
                break
        if not m:
            break
        states.add(m.group(1))
        body = body[: m.start()] + body[m.end():]
    for s in sorted(states, key=len, reverse=True):
        body = re.sub(r"(?<![\w'.-])" + re.escape(s) + r"((?:\.before)*)(?=\.(?!before))", "c", body)

    for step, path, arm, f in arms:
        if path:
            old = ".".join([step] + path)
            body = re.sub(r"(?<![\w'.-])c\." + re.sub(r"\\?[-_]", "[-_]", re.escape(old)) + r"(?![\w'-])", f"c.{arm}.{f}", body)

    def put(m):
        f = m.group(1)
        plain = re.sub(r"_lem$", "", f.replace("-", "_"))
        return "c." + (places.get(f) or {k.replace("-", "_"): v for k, v in places.items()}.get(plain, f))
    body = re.sub(r"(?<![\w'.-])c\.([A-Za-z_][\w'-]*)", put, body)
    if cycle:
        body = re.sub(r"(?<![\w'.-])c\.requires\.([01])(?!\w)", lambda m: "c.requires" if m.group(1) == "1" else "c.decreases", body)
    named = {"c." + k: v for k, v in callees.items()}
    for l, v in re.findall(r"let ([\w'-]+) = (c\.[\w'-]+) in", body):
        if v in named:
            named[l] = named[v]
    for l, ps in sorted(named.items(), key=lambda x: -len(x[0])):
        def pick(m):
            n = m.group(2).count(".1")
            return f"{l}.{m.group(1)}.{ps[n]}" if n < len(ps) else m.group(0)
        body = re.sub(r"(?<![\w'.-])" + re.escape(l) + r"\.(new|auto)((?:\.1)*)\.0(?![\w'-])", pick, body)
    body = re.sub(r"\.type-inv\b", ".type_inv", body)
    # Rattle says of a `bool` in a condition what it is.
    def plain(m):
        return m.group(1) if m.group(2) in callees else m.group(0)
    body = re.sub(r"\bnot-(?:true|false) _ \((c\.if-not-([\w'-]+)\.(?:true|false))\)", plain, body)
    body = re.sub(r"\bnot-(?:true|false) _ (c\.if-not-([\w'-]+)\.(?:true|false))", plain, body)
    return body


def subst_names(body, m):
    if not m:
        return body
    pat = re.compile(r"(?<![\w'.₀-₉-])(" + "|".join(sorted((re.escape(k) for k in m), key=len, reverse=True)) + r")(?![\w'₀-₉-])")
    return pat.sub(lambda x: m[x.group(1)], body)


def convert(crate, path, fn, d):
    text = open(path, encoding="utf-8").read()
    bs = blocks(text)
    places, needs, chains = {}, {}, {}
    for k in d:
        for n, par, (o, new), callee, _ in k["places"]:
            if o and o not in places:
                places[o] = new
            if o.replace("_", "-") not in places:
                places[o.replace("_", "-")] = new
        for (o, new), (asked, _) in zip(k["needs"], k["asked_at"]):
            needs.setdefault(norm(o), new)
            chains.setdefault(new, chain(k, asked))
        for (names, vars_) in k["loops"]:
            places[names[0]] = names[1]
    callees = {new: k["params"][callee] for k in d for n, par, (o, new), callee, _ in k["places"] if callee and callee in k["params"]}
    uses = [b for b in bs if b.startswith("use ")]
    usetext = []
    for b in uses:
        for u in re.findall(r"use [^{\n]*(?:\{[^}]*\})?[^\n]*", b):
            if re.search(r"\.(Statement|Tie|Reads|Lts|Kinds|Met)\b", u) or re.search(r"PlainCycle|Fn\.Kinds|\.Lts-|proofs\.\+[\w.+-]+\.\{statement|Lts", u):
                continue
            usetext.append(u)
    inv, ans, left = [], [], []
    rest = [b for b in bs if not b.startswith("use ")]
    loops = {}
    for k in d:
        for (names, vars_), ch in zip(k["loops"], k["changed"]):
            loops[names[0]] = (names[1], vars_, ch)
    for b in rest:
        n = name_of(b)
        if n is None:
            left.append(b)
            continue
        lines = b.split("\n")
        mu = re.match(r"(?:abbrev )?μ-(\S+) : Measures", next((l for l in lines if "Measures" in l), ""))
        if mu:
            ps = next((v for k in d for f, v in k["params"].items() if f.split("::")[-1].replace("_", "-") == mu.group(1)), [])
            fn_name = next((f.split("::")[-1] for k in d for f, v in k["params"].items() if f.split("::")[-1].replace("_", "-") == mu.group(1)), mu.group(1))
            body = lines[-1].split("=", 1)[1]

            def field(x):
                n = x.group(1).count(".1")
                return f"l.{ps[n]}" if n < len(ps) else x.group(0)
            body = re.sub(r"(?<![\w.])a((?:\.1)*)\.0", field, body)
            inv.append(f"abbrev pub decreases-{fn_name} : goal.decreases-{fn_name}\ndecreases-{fn_name} l ={body}")
            continue
        if re.search(r": ℕ → In \d", b):
            continue
        m = re.match(r"abbrev (invariant|decreases)-(.+?) : tie\.", next((l for l in lines if l.startswith("abbrev")), ""))
        if m:
            kind, loop = m.groups()
            if loop not in loops:
                left.append(b)
                continue
            new, vars_, ch = loops[loop]
            i = next(j for j, l in enumerate(lines) if l.startswith("abbrev"))
            head = lines[:i]
            mm = re.match(r"\S+((?: \S+)*?) =(.*)$", "\n".join(lines[i + 1:]), re.S)
            params, body = mm.group(1).split(), mm.group(2)
            names = [f"l.initial.{v}" if c else f"l.{v}" for v, c in zip(vars_, ch)] + [f"l.{v}" for v, c in zip(vars_, ch) if c]
            table = dict(zip(params, names))
            if len(params) != len(names):
                head.append(f"-- LEFT: parameters {params} for {names}")
            inv.append("\n".join(head + [f"abbrev pub {kind}-{new} : goal.{kind}-{new}", f"{kind}-{new} l ={subst_names(body, table)}"]))
            continue
        sig = next((l for l in lines if re.search(r"(tie|lts|-lts)\.Need-", l)), None)
        if sig is None:
            if re.search(r"-spec :|-spec$", lines[0]) or n.endswith("-spec"):
                continue
            if "statement" in b and "tie.close" in b:
                continue
            ans.append(b)
            continue
        need = re.search(r"\.Need-([^\s(]+)", sig).group(1)
        i = lines.index(sig)
        while i + 1 < len(lines) and not lines[i + 1].startswith(n + " ") and not lines[i + 1].startswith("unfolding"):
            i += 1
        unf = [l for l in lines if l.startswith("unfolding")]
        bodylines = [l for l in lines[i + 1:] if not l.startswith("unfolding")]
        comments = [l for l in lines[: lines.index(sig)] if l.startswith("--")]
        mm = re.match(r"\S+((?: \S+)*?) =(.*)$", "\n".join(bodylines), re.S)
        if not mm:
            left.append(b)
            continue
        params, body = mm.group(1).split(), mm.group(2).rstrip()
        new = needs.get(norm(need))
        if body.strip() in TRIVIAL and not unf:
            continue
        cyc = "t " if "t" in params[:1] else ""
        body = re.sub(r"\bsearch needs\b", "search rules", steps(body, dict(places, **(chains[new][0] if new in chains else {})), callees, "+" in path, chains[new][1] if new in chains else ()))
        for k in d:
            for o, newarg in k["args"]:
                body = re.sub(re.escape(o.replace(" ", "")) + r"(?![\w'-])", newarg.replace(" ", ""), body)
        if new is None:
            left.append("\n".join(["-- no new name for " + need] + comments + unf + [f"{need} c =" + body]))
            continue
        ans.append("\n".join(comments + [f"pub {new} : goal.{new}"] + unf + [f"{new} {cyc}c =" + (body if body.startswith(("\n", " ")) else " " + body)]))
    folder = os.path.dirname(path)
    base = os.path.relpath(folder, f"crates/{crate}/proofs").replace("/", ".")
    heads = "\n".join(usetext)
    if inv:
        with open(os.path.join(folder, "Invariants.antt"), "w", encoding="utf-8") as f:
            f.write(heads + f"\nuse Rattle.{crate}.proofs.{base}.Given as goal\n\n" + "\n\n".join(inv) + "\n")
    if ans or left:
        with open(os.path.join(folder, "Answers.antt"), "w", encoding="utf-8") as f:
            f.write(heads + f"\nuse Rattle.{crate}.proofs.{base}.Goals as goal\n\n" + "\n\n".join(ans) + "\n")
            for b in left:
                f.write("\n-- LEFT\n" + "\n".join("-- " + l for l in b.split("\n")) + "\n")
    os.remove(path)
    print(f"{crate} {base}: {len(inv)} invariants, {len(ans)} answers, {len(left)} left")


def main():
    names = json.load(open(sys.argv[1], encoding="utf-8"))
    for crate in sys.argv[2:]:
        root = f"crates/{crate}/proofs"
        for folder, dirs, files in os.walk(root):
            if "Proof.antt" not in files:
                continue
            base = os.path.relpath(folder, root).replace("/", ".")
            stem = f"Rattle-{crate}-proofs.{base}."
            d = [v for k, v in names.items() if k.startswith(stem + "Lts")]
            if not d:
                print(f"{crate} {base}: no names; left as it is")
                continue
            convert(crate, os.path.join(folder, "Proof.antt"), base, d)


main()
