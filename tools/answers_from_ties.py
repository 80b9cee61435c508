#!/usr/bin/env python3
"""Turns a crate's Proof.antt files, which answer a function's goals in one record by the older names, into Invariants.antt and Answers.antt.

usage: rt names NAMES                                   at the top of the repository: lists each goal's old and new name
       python3 tools/answers_from_ties.py NAMES CRATE..  turns the files of these crates, and says what it left

An answer that the check finds alone (search rules, omega arith) is not kept. A file that the script can't read stays as it is, with a line 'left:'.
"""

import json
import os
import re
import sys

TOKEN = re.compile(r"[^\s(){}\[\].,;:=λ→|]+")
NAME = r"[^\s(){}\[\].,;:]+"


def plain(name):
    name = re.sub(r"^overflow[-_]", "", name)
    # The kit's scripts took some callees' names for words of specs/.
    name = re.sub(r"(?<![a-z])Is(?=[A-Z])", "", name)
    return re.sub(r"[-_]", "-", name).lower()


class Left(Exception):
    pass


def blocks(text):
    """The file's pieces: a list of (comment lines, lines), each of which begins at the margin."""
    out, comments, current = [], [], None
    for line in text.split("\n"):
        if line.startswith("--"):
            current = None
            comments.append(line)
        elif not line.strip():
            current = None
        elif line[0] in " \t)" and current is not None:
            current.append(line)
        else:
            current = [line]
            out.append((comments, current))
            comments = []
    return out, comments


def declarations(text):
    """Groups of pieces under one name: (name, comments, signature, unfolding, equations), or ('use', ..)."""
    got, tail = blocks(text)
    out = []
    for comments, lines in got:
        head = lines[0]
        body = "\n".join(lines)
        if head.startswith("use "):
            out.append(["use", comments, body, [], []])
            continue
        if head.startswith("unfolding"):
            out[-1][3].append(body)
            continue
        m = re.match(r"(?:(?:abbrev|pub|unfoldable) )*(" + NAME + r")\s*(?::|$)", head)
        if m and re.match(r"(?:(?:abbrev|pub|unfoldable) )*" + NAME + r"\s+:|" + r"(?:(?:abbrev|pub) )*" + NAME + r"\s*:", head):
            out.append([m.group(1), comments, body, [], []])
            continue
        first = re.match(NAME, head)
        if out and first and out[-1][0] == first.group(0):
            out[-1][4].append((comments, body))
            continue
        # Anything else (a module of lemmas, a record) is kept as it stands.
        out.append(["", comments, body, [], []])
    return out, tail


def chain(places, start):
    by = {p[0]: p for p in places}
    at, out = start, []
    while at is not None and at in by:
        out.append(by[at])
        at = by[at][1]
    return out


def turned_body(body, place, fn):
    """Old paths from c to the steps by their new names: every step above is a field of c itself."""
    steps = {}
    for p in reversed(chain(fn["places"], place)):
        old, new = p[2]
        if old:
            steps[old] = new
    # Names of steps that the kit's scripts had respelled.
    loose = {}
    for old, new in steps.items():
        loose.setdefault(plain(old).lower(), new)
    # What an arm of a match binds and tells, by the older record that held it.
    by = dict(zip((p[0] for p in fn["places"]), fn["arms"]))
    arms = {}
    for p in reversed(chain(fn["places"], place)):
        arm = by.get(p[0])
        if arm:
            for field, step, fields in arm[2]:
                arms[(plain(step), *map(plain, fields))] = [arm[0], field]
    variables = {plain(v): v for _, vs in fn["loops"] for v in vs}
    whole = {"c"}
    # A let that names a place stands for c.
    while True:
        m = next((m for m in re.finditer(r"let (" + NAME + r") = (" + NAME + r")((?:\.before)*) in\s*", body) if m.group(2) in whole), None)
        if not m:
            break
        whole.add(m.group(1))
        body = body[: m.start()] + body[m.end() :]

    # A let for what an arm of a match tells goes too: the arm's fields have other names.
    told = {k[0] for k in arms}
    while True:
        m = next((m for m in re.finditer(r"let (" + NAME + r") = (" + NAME + r")((?:\.before)*)\.([^\s(){}\[\].,;:]+) in\s*", body) if m.group(2) in whole and plain(m.group(4)) in told), None)
        if not m:
            break
        rest = body[m.end() :]
        rest = re.sub(r"(?<![\w.'-])" + re.escape(m.group(1)) + r"(?![\w'-])", lambda x: "c." + m.group(4), rest)
        body = body[: m.start()] + rest

    def path(m):
        head, rest = m.group(1), m.group(2)
        if head not in whole:
            return m.group(0)
        parts = [p for p in rest.split(".")[1:]]
        while parts and parts[0] == "before":
            parts = parts[1:]
        for n in range(len(parts), 0, -1):
            arm = arms.get(tuple(map(plain, parts[:n])))
            if arm:
                return ".".join(["c"] + arm + parts[n:])
        if parts:
            name = "well_formed" if parts[0] == "well-formed" else parts[0]
            parts[0] = steps.get(name) or loose.get(plain(name).lower()) or name
            if len(parts) > 1 and parts[0].startswith("loop-"):
                parts[1] = variables.get(plain(parts[1]), parts[1])
            if len(parts) > 1 and parts[0] == "args":
                parts[1] = fn["temporaries"].get(parts[1]) or fn["parameters"].get(plain(parts[1])) or parts[1]
        return ".".join(["c"] + parts)

    # A let for the arguments or a loop's variables is followed too, since a parameter may have had the name of a copy.
    for m in list(re.finditer(r"let (" + NAME + r") = (" + "|".join(map(re.escape, whole)) + r")((?:\.before)*)\.(args|loop\d*) in", body)):
        body = re.sub(r"(?<![\w.'-])" + re.escape(m.group(1)) + r"\.([^\s(){}\[\].,;:]+)", lambda x: m.group(1) + "." + (fn["temporaries"].get(x.group(1)) or fn["parameters"].get(plain(x.group(1))) or x.group(1) if m.group(4) == "args" else variables.get(plain(x.group(1)), x.group(1))), body)
    body = re.sub(r"(?<![\w.'-])(" + "|".join(sorted(map(re.escape, whole), key=len, reverse=True)) + r")((?:\.[^\s(){}\[\].,;:]+)*)(?![\w'-])", path, body)
    # What a call leaves in the places lent has its parameter's name now, and had its number.
    callees = {p[2][1]: fn["params"].get(p[3], []) for p in fn["places"] if len(p) > 3 and p[3]}
    while True:
        m = re.search(r"let (" + NAME + r") = (" + NAME + r"\.new) in\s*", body) or re.search(r"let (" + NAME + r") = (c\.[^\s(){}\[\].,;:]+\.new) in\s*", body)
        if not m:
            break
        rest = re.sub(r"(?<![\w.'-])" + re.escape(m.group(1)) + r"(?=\.[01])", m.group(2), body[m.end() :])
        body = body[: m.start()] + rest
    step_of = {m.group(1): m.group(2) for m in re.finditer(r"let (" + NAME + r") = c\.([^\s(){}\[\].,;:]+) in", body)}

    def left(m):
        step = m.group(2) if m.group(1) == "c" else step_of.get(m.group(1))
        names = callees.get(step, [])
        at = len(m.group(3)) // 2
        if at >= len(names):
            return m.group(0)
        return (f"c.{step}" if m.group(1) == "c" else m.group(1)) + ".new." + names[at]

    body = re.sub(r"(?<![\w.'-])(c)\.([^\s(){}\[\].,;:]+)\.new((?:\.1)*)\.0", left, body)
    body = re.sub(r"(?<![\w.'-])(" + "|".join(map(re.escape, step_of)) + r")()\.new((?:\.1)*)\.0", left, body) if step_of else body
    # A test of `!x` tells of x itself.
    called = {p[3].rsplit("::", 1)[-1] for p in fn["places"] if len(p) > 3 and p[3]}
    for name in sorted(called | set(fn["parameters"].values()), key=len, reverse=True):
        step = r"c\.(if-not-" + re.escape(name) + r"(?:-[^\s()]*?)?\.(?:true|false))(?![\w'-])"
        body = re.sub(r"\(not-(?:true|false) [^\s()]+ " + step + r"\)", r"c,\1", body)
        body = re.sub(r"not-(?:true|false) [^\s()]+ " + step, r"c,\1", body)
        body = re.sub(r"(?<![\w.'-])" + step, r"(ap not c,\1)", body)
    return body.replace("c,if-not", "c.if-not")


def invariant(decl, loops, fn):
    name, comments, sig, unfolding, equations = decl
    m = re.search(r":\s*tie\.(invariant|decreases)-(\S+)\s*$", sig)
    if not m or len(equations) != 1:
        raise Left("an invariant that the script can't read: " + name)
    kind, loop = m.group(1), m.group(2)
    found = [(i, l) for i, l in enumerate(loops) if plain(l[0][0]) == plain(loop)]
    if not found:
        raise Left("no loop " + loop)
    index, ((old, new), variables) = found[0]
    changed = fn["changed"][index]
    head, _, body = equations[0][1].partition(" =")
    args = head.split()[1:]
    moving = [v for v, c in zip(variables, changed) if c]
    if len(args) != len(variables) + len(moving):
        raise Left(f"{name} has {len(args)} arguments, and the loop {len(variables)} and {len(moving)} variables")
    to = {}
    for a, v, c in zip(args, variables, changed):
        to[a] = (".initial." if c else ".") + v
    for a, v in zip(args[len(variables) :], moving):
        to[a] = "." + v
    tokens = set(re.findall(r"[^\s(){}\[\].,;:]+", body)) | set(fn_names(body))
    record = next(x for x in ["l", "s", "it", "z", "loop"] if x not in tokens - set(args))
    body = re.sub(r"(?<![\w.'₀-])(" + "|".join(sorted(map(re.escape, to), key=len, reverse=True)) + r")(?![\w'₀-])", lambda m: record + to[m.group(1)], body)
    out = comments + [f"abbrev pub {kind}-{new} : goal.{kind}-{new}"] + unfolding + [f"{kind}-{new} {record} ={body}"]
    return "\n".join(out)


def fn_names(body):
    return re.findall(r"λ \(?([^\s:.()]+)", body)


def answer(decl, old_new, place, fn):
    name, comments, sig, unfolding, equations = decl
    if len(equations) != 1:
        raise Left(f"{name} has {len(equations)} equations")
    more, text = equations[0]
    head, _, body = text.partition(" =")
    args = head.split()[1:]
    if not args or args[0] != "c":
        raise Left(f"{name} takes {args}")
    # Lifetimes are no argument any more.
    args = ["c"] + [a for a in args[1:] if a != "κs"]
    if not unfolding and body.strip() in ("search rules", "omega arith"):
        return None
    if re.search(r"(?<![\w.'-])κs(?![\w'-])", body):
        raise Left(f"{name} uses κs")
    new = old_new[1]
    return "\n".join(comments + [f"pub {new} : goal.{new}"] + unfolding + [f"{new} {' '.join(args)} ={turned_body(body, place, fn)}"])


def used(imports, text):
    """The imports with those names alone that the text has."""
    if "(ap not c.if-not" in text:
        have = "\n".join(imports)
        if not re.search(r"Core\.Path\.\{[^}]*\bap\b", have):
            imports = imports + ["use mathlib.Core.Path.{ap}"]
        if not re.search(r"Core\.Bool\.\{[^}]*\bnot\b", have):
            imports = imports + ["use mathlib.Core.Bool.{not}"]
    words = set(re.findall(r"[^\s(){}\[\],;.]+", text)) | set(re.findall(r"[^\s(){}\[\].,;:]+", text))
    out = []
    for line in imports:
        m = re.match(r"use (\S+)\.\{(.*)\}$", line.replace("\n", " "))
        if not m:
            alias = re.search(r"(\S+)$", line).group(1)
            if re.search(r"(?<![\w.'-])" + re.escape(alias.split(".")[-1]) + r"\.", text):
                out.append(line)
            continue
        keep = []
        for item in (x.strip() for x in m.group(2).split(",")):
            last = item.split(" as ")[-1]
            parts = [p for p in last.split("◌") if p]
            if last == "[]":
                parts = ["[]"] if "[]" in text else []
                if parts:
                    keep.append(item)
                continue
            if parts and all(p in words for p in parts):
                keep.append(item)
        if keep:
            out.append(f"use {m.group(1)}.{{{', '.join(keep)}}}")
    return out


def parameters(crate, module):
    """The function's parameters and types, from its source."""
    for folder, _, files in os.walk(f"crates/{crate}/src"):
        for name in files:
            with open(os.path.join(folder, name), encoding="utf-8") as f:
                text = f.read()
            at = os.path.relpath(os.path.join(folder, name), f"crates/{crate}/src")[:-3].replace("/", ".")
            path = [] if at in ("lib", "main") else at.split(".")
            if module.split(".")[:-1] != path:
                continue
            m = re.search(r"\bfn " + re.escape(module.split(".")[-1]) + r"\s*(?:<[^>]*>)?\(([^{}]*?)\)\s*(?:->|\n|\{)", text)
            if m:
                return re.findall(r"(?:mut )?(\w+): ([^,\[\]]+|[^,]*\[.*?\](?:; \d+\])*)(?:,|$|\s*$)", m.group(1).strip())
    return []


SCALARS = {"u8", "u16", "u32", "u64", "usize", "bool", "f64", "i32", "i64"}


def turn(path, fn, crate, module):
    with open(path, encoding="utf-8") as f:
        text = f.read()
    given = parameters(crate, module)
    copies = [n for n, ty in given if not ty.startswith("&") and ty.strip() not in SCALARS and not re.search(r"\b(?:a|args)\." + n + r"(?![\w'-])", text)]
    cited = sorted(set(re.findall(r"\b(?:a|args)\.(t\d+)(?![\w'-])", text)), key=lambda x: int(x[1:]))
    fn["temporaries"] = dict(zip(cited, copies)) if len(cited) == len(copies) else {f"t{i + 1}": n for i, n in enumerate(copies)}
    fn["parameters"] = {plain(n): n for n, _ in given}
    decls, tail = declarations(text)
    if not any("tie.close" in "".join(t for _, t in d[4]) for d in decls):
        raise Left("no tie.close")
    imports = [d[2] for d in decls if d[0] == "use"]
    top = next((d[1] for d in decls if d[0] == "use"), [])
    imports = [i for i in imports if not re.search(r"\.(Statement\.\{statement\}|Tie as tie)$", i)]
    loops = fn["loops"]
    needs = {}
    for (old, new), (asked, _) in zip(fn["needs"], fn["asked_at"]):
        needs.setdefault(plain(old), []).append(((old, new), asked))
    invariants, answers = [], []
    for d in decls:
        name, comments, sig, unfolding, equations = d
        if name == "use":
            continue
        if "tie.close" in "".join(t for _, t in equations):
            continue
        m = re.search(r":\s*tie\.(invariant|decreases|Need)-", sig)
        if m and m.group(1) != "Need":
            invariants.append(invariant(d, loops, fn))
            continue
        if m:
            old = re.search(r"tie\.Need-(\S+)", sig).group(1)
            found = needs.get(plain(old)) or needs.get(plain(old).replace("bounds-", "index-"))
            if not found:
                # A goal that is no longer asked, or has another old name.
                if not unfolding and len(equations) == 1 and equations[0][1].partition(" =")[2].strip() in ("search rules", "omega arith"):
                    continue
                raise Left(f"no goal {old}; there are {sorted(needs)}")
            pair, place = found[0]
            got = answer(d, pair, place, fn)
            if got:
                answers.append(got)
            continue
        if re.search(r"\btie\.", sig + "".join(t for _, t in equations)):
            raise Left(f"{name} cites tie")
        keep = comments + [sig] + unfolding
        for more, t in equations:
            keep += more + [t]
        answers.append("\n".join(keep))
    folder = os.path.dirname(path)
    if os.path.exists(os.path.join(folder, "Answers.antt")) or os.path.exists(os.path.join(folder, "Invariants.antt")):
        raise Left("new files are there already")
    if invariants:
        body = "\n\n".join(invariants)
        write(os.path.join(folder, "Invariants.antt"), top, used(imports, body) + [f"use Rattle.{crate}.proofs.{module}.Given as goal"], body)
    if answers:
        body = "\n\n".join(answers + (["\n".join(tail)] if tail else []))
        write(os.path.join(folder, "Answers.antt"), top, used(imports, body) + [f"use Rattle.{crate}.proofs.{module}.Goals as goal"], body)
    os.remove(path)


def turn_cycle(path, known, crate, module):
    """The proof of functions that call one another, or of one that calls itself: each answer takes the measure t."""
    with open(path, encoding="utf-8") as f:
        text = f.read()
    decls, tail = declarations(text)
    imports = [d[2] for d in decls if d[0] == "use"]
    top = next((d[1] for d in decls if d[0] == "use"), [])
    imports = [i for i in imports if not re.search(r"\.(Statement|Tie|Kinds|Lts|Lts-\w+|\{statement\})\b|\.Reads as |borrow\.Fn\.|\.\{statement\}$| as \S+-(?:reads|kinds|lts)$", i)]
    stem = f"Rattle-{crate}-proofs.{module}.Lts-"
    members = {k[len(stem) :]: v for k, v in known.items() if k.startswith(stem)}
    if not members:
        raise Left("no names for it")
    folder = module.rsplit(".", 1)[0]
    for name, fn in members.items():
        given = parameters(crate, folder + "." + name)
        fn["given"] = [n for n, _ in given]
        fn["temporaries"] = {}
        fn["parameters"] = {plain(n): n for n in fn["given"]}
        fn["goals"] = {}
        for (old, new), (asked, _) in zip(fn["needs"], fn["asked_at"]):
            fn["goals"].setdefault(plain(old), []).append((new, asked))
    alone = len(members) == 1
    prefix = lambda name: "" if alone else name + "-"
    invariants, answers = [], []
    for name, comments, sig, unfolding, equations in decls:
        if name == "use" or " close " in " ".join(t for _, t in equations):
            continue
        if re.search(r": ℕ → In \d+ ", sig):
            continue
        m = re.search(r": Measures \d+ (\S+)-kinds\.ps ℕ$", sig)
        if m:
            fn_name = next(n for n in members if plain(n) == plain(m.group(1)))
            body = equations[0][1].partition(" =")[2]
            given = members[fn_name]["given"]
            body = re.sub(r"\ba((?:\.1)*)\.0", lambda x: "l." + given[len(x.group(1)) // 2], body)
            invariants.append("\n".join(comments + [f"abbrev pub decreases-{fn_name} : goal.decreases-{fn_name}", f"decreases-{fn_name} l ={body}"]))
            continue
        m = re.search(r": (\S+)-lts\.(invariant|decreases)-(\S+)$", sig)
        if m:
            fn_name = next(n for n in members if plain(n) == plain(m.group(1)))
            as_tie = [name, comments, f"{name} : tie.{m.group(2)}-{m.group(3)}", unfolding, equations]
            got = invariant(as_tie, members[fn_name]["loops"], members[fn_name])
            invariants.append(re.sub(r"(invariant|decreases)-(?=loop)", lambda x: x.group(1) + "-" + prefix(fn_name), got) if not alone else got)
            continue
        m = re.search(r"→ (\S+)-lts\.Need-(\S+)", sig)
        if m:
            fn_name = next(n for n in members if plain(n) == plain(m.group(1)))
            fn = members[fn_name]
            # The kit's scripts respelled some of the older names.
            found = fn["goals"].get(plain(m.group(2))) or fn["goals"].get(plain(m.group(2)).replace("bounds-", "index-"))
            head, _, body = equations[0][1].partition(" =")
            args = [a for a in head.split()[1:] if a != "κs"]
            if not unfolding and body.strip() in ("search rules", "omega arith"):
                continue
            if not found:
                raise Left(f"no goal {m.group(2)} of {fn_name}; there are {sorted(fn['goals'])}")
            if args[:2] != ["t", "c"]:
                raise Left(f"{name} takes {args}")
            new, place = found[0]
            new = prefix(fn_name) + new
            answers.append("\n".join(comments + [f"pub {new} : goal.{new}"] + unfolding + [f"{new} {' '.join(args)} ={turned_body(body, place, fn)}"]))
            continue
        keep = comments + [sig] + unfolding
        for more, t in equations:
            keep += more + [t]
        answers.append("\n".join(keep))
    where = os.path.dirname(path)
    body = "\n\n".join(invariants)
    write(os.path.join(where, "Invariants.antt"), top, used(imports, body) + [f"use Rattle.{crate}.proofs.{module}.Given as goal"], body)
    body = "\n\n".join(answers)
    write(os.path.join(where, "Answers.antt"), top, used(imports, body) + [f"use Rattle.{crate}.proofs.{module}.Goals as goal"], body)
    os.remove(path)


def write(path, top, imports, body):
    with open(path, "w", encoding="utf-8") as f:
        f.write("\n".join(top + imports) + "\n\n" + body.rstrip("\n") + "\n")


def main(argv):
    names, crates = argv[0], argv[1:]
    for crate in crates:
        with open(os.path.join(names, "crates", crate, "names.json"), encoding="utf-8") as f:
            known = json.load(f)
        turned, left = 0, 0
        for folder, dirs, files in os.walk(f"crates/{crate}/proofs"):
            if "Proof.antt" not in files:
                continue
            module = os.path.relpath(folder, f"crates/{crate}/proofs").replace("/", ".")
            fn = known.get(f"Rattle-{crate}-proofs.{module}.Lts")
            path = os.path.join(folder, "Proof.antt")
            try:
                if "+" in module:
                    turn_cycle(path, known, crate, module)
                    turned += 1
                    continue
                if fn is None:
                    raise Left("no names for it")
                turn(path, fn, crate, module)
                turned += 1
            except Left as e:
                print(f"left: {path}: {e}")
                left += 1
        print(f"{crate}: {turned} turned, {left} left")
    return 0


if __name__ == "__main__":
    raise SystemExit(main(sys.argv[1:]))
