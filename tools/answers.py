#!/usr/bin/env python3
"""Turns the old Proof.antt of each function of a crate into Invariants.antt and Answers.antt.

usage: answers.py CRATE [FUNCTION..]     at the top of the repository; the crates below CRATE must be proved

The names of goals and places come from `rt check --generated DIR --old-names`. A file that it cannot read stays, and is listed.
"""
import json
import os
import re
import shutil
import subprocess
import sys
import tempfile

WORD = r"[^\s(){}.;,@\"«»]+"
PATH = re.compile(r"(?<![^\s(){},;@\[\]])([A-Za-z_][\w'₀-₉]*)((?:\.%s)+)?(?![^\s(){},;@.\[\]])" % WORD)
SEARCH = re.compile(r"\(?λ (\w+)( κs)?\. search rules\)?$")


# The words of the crate's own code.
RUST = set()


def norm(s):
    return s.replace("-", "_")


class Function:
    def __init__(self, d):
        self.d = d
        self.places = [p[0] for p in d["places"]]
        self.parent = {p[0]: p[1] for p in d["places"]}
        self.field = {p[0]: p[2] for p in d["places"]}
        self.new_place = dict(zip(self.places, d["places_by_name"]))
        self.typed = dict(zip(self.places, d["typed"]))
        self.arms = dict(zip(self.places, d["arms"]))
        self.clauses = dict(zip(self.places, d["clauses"]))
        self.by_norm = {norm(p): p for p in self.places}

    def up(self, place, n):
        for _ in range(n):
            if place is not None:
                place = self.parent.get(place)
        return place

    def chain(self, place):
        while place is not None:
            yield place
            place = self.parent.get(place)

    def lookup(self, place, rest):
        """The new spelling of what stands behind a place: a list of words."""
        f = norm(rest[0])
        if f[:1].isupper():
            f = f[0].lower() + f[1:]
        if f.endswith("_lem") and not any(norm(self.field[p][0]) == f for p in self.chain(place)):
            f = f[:-4]
        if f in ("args", "requires", "ranges", "well_formed", "lifetimes", "type_inv", "before"):
            return [f] + [norm(x) for x in rest[1:]]
        for p in self.chain(place):
            for var, old in self.typed.get(p) or []:
                if norm(old) == f and len(rest) > 1 and rest[1] == "given":
                    return ["TYPED", var] + rest[2:]
        for p in self.chain(place):
            a = self.arms.get(p)
            if a:
                for sub, of, subs in a[2]:
                    if norm(of) == f and rest[1:1 + len(subs)] == subs:
                        return [a[0], sub] + rest[1 + len(subs):]
            old, new = self.field[p]
            if old and norm(old) == f:
                rest = rest[1:]
                said = self.clauses.get(p)
                if said and rest[:1] == ["ensures"] and said["fields"]:
                    if len(rest) > 1 and rest[1].isdigit() and int(rest[1]) < len(said["fields"]):
                        rest = ["ensures", said["fields"][int(rest[1])]] + rest[2:]
                    elif len(said["fields"]) == 1:
                        rest = ["ensures", said["fields"][0]] + rest[1:]
                    elif len(rest) == 1:
                        return ["PAIR", new] + said["fields"]
                if new.startswith("if-not-") and rest[:1] in (["true"], ["false"]):
                    return ["NOT", new] + rest
                return [new] + rest
        return None


def blocks_of(text):
    out, cur = [], []
    for line in text.split("\n"):
        if line.strip() == "":
            if cur:
                out.append("\n".join(cur))
            cur = []
        else:
            cur.append(line)
    if cur:
        out.append("\n".join(cur))
    return out


def top_args(s):
    """The arguments at the top level of s, up to the parenthesis that closes it."""
    args, depth, cur = [], 0, ""
    for ch in s:
        if ch == ")" and depth == 0:
            break
        if ch.isspace() and depth == 0:
            if cur:
                args.append(cur)
            cur = ""
            continue
        if ch in "([{":
            depth += 1
        if ch in ")]}":
            depth -= 1
        cur += ch
    if cur:
        args.append(cur)
    return args


class Turn:
    def __init__(self, fn, crate, log):
        self.fn, self.log = fn, log
        self.used_places = set()
        self.nots = set()
        self.helpers = {}

    def paths(self, body, vars_, owner=None):
        """Rewrites the paths of a body, where vars_ says at which place each variable stands: name -> (root, steps, place)."""
        fn, log = self.fn, self.log
        vars_ = dict(vars_)
        origin = {root: place for root, steps, place in vars_.values() if steps == 0}
        # lets that only name a place
        while True:
            m = None
            for it in re.finditer(r"let (\w[\w']*) = (\w[\w']*)((?:\.before)+|) in\s*", body):
                if it[2] in vars_:
                    m = it
                    break
            if not m:
                break
            root, steps, place = vars_[m[2]]
            k = m[3].count(".before")
            vars_[m[1]] = (root, steps + k, fn.up(place, k))
            indent = ""
            body = body[:m.start()] + body[m.end():]

        def one(m):
            name, rest = m[1], m[2]
            if name not in vars_:
                return m[0]
            root, steps, place = vars_[name]
            start = origin.get(root)
            parts = rest[1:].split(".") if rest else []
            k = 0
            while k < len(parts) and parts[k] == "before":
                k += 1
            place = fn.up(place, k)
            steps += k
            parts = parts[k:]
            if not parts:
                back = re.search(r"(?:^|[\s(])(%s)(?: [^\s()]+)?\s*$" % WORD, m.string[:m.start()])
                while back and back[1] not in self.helpers and back.start() > 0:
                    back = None
                if back and back[1] in self.helpers and owner is not None:
                    want = self.helpers[back[1]]
                    if want == origin.get(root):
                        return root
                    if want in fn.new_place:
                        self.used_places.add(fn.new_place[want])
                        return f"(goal.at-{owner} {root}).{fn.new_place[want]}"
                if steps == 0 or owner is None or place not in fn.new_place:
                    return root + ".before" * steps
                self.used_places.add(fn.new_place[place])
                return f"(goal.at-{owner} {root}).{fn.new_place[place]}"
            new = fn.lookup(place, parts)
            if new is None and start is not None:
                new = fn.lookup(start, parts)
            if new is None:
                log.append(f"no field {parts[0]} at {place}")
                return root + "." + ".".join(parts)
            if new[0] == "TYPED":
                return f"{root}.type_inv.{new[1]}" + "".join("." + x for x in new[2:])
            if new[0] == "PAIR":
                return "(" + ", ".join(f"{root}.{new[1]}.ensures.{x}" for x in new[2:]) + ")"
            if new[0] == "NOT":
                self.nots.add("not-" + new[2])
                return f"(ap not {root}.{new[1]}.{new[2]})"
            return root + "." + ".".join(new)

        return PATH.sub(one, body)

    def place_type(self, m):
        p = self.fn.by_norm.get(norm(m[1]))
        if p is None:
            self.log.append(f"no place {m[1]}")
            return m[0]
        self.used_places.add(self.fn.new_place[p])
        return self.fn.new_place[p]


def split_def(block):
    """Comment lines, name, signature, unfolding lines and clauses of a definition."""
    lines = block.split("\n")
    comment = []
    while lines and lines[0].startswith("--"):
        comment.append(lines.pop(0))
    m = re.match(r"((?:abbrev |pub |unfoldable )*)(%s) ?((?:\{[^{}]*\} ?)*): ?" % WORD, lines[0]) if lines else None
    if not m:
        return None
    name = m[2]
    sig = [lines[0][m.end():]]
    k = 1
    while k < len(lines) and not re.match(r"(unfolding |%s( |$))" % re.escape(name), lines[k]):
        sig.append(lines[k])
        k += 1
    unf = []
    while k < len(lines) and lines[k].startswith("unfolding "):
        unf.append(lines[k])
        k += 1
    return {"comment": comment, "mods": m[1], "name": name, "gen": m[3], "sig": "\n".join(sig), "unf": unf, "clauses": "\n".join(lines[k:])}


def plain(s):
    return re.sub(r"^(overflow|nonzero)_", "", norm(s)).replace("slice_bounds", "part").replace("bounds", "shared_slice_read")


def align(args, needs, by_name):
    """For each need its argument, where an argument that only searches may have no need, and a need no argument."""
    def cost(arg, need):
        flat = re.sub(r"\s+", " ", arg)
        d = by_name.get(arg)
        if d is not None:
            m = re.search(r"tie\.Need-(%s)" % WORD, d["sig"])
            return 0 if m and plain(m[1]) == plain(need) else 12 if m else 5
        kappa = re.match(r"\(?λ \w+ κs", flat) is not None
        return 0 if kappa == ("requires" in need) else 8

    def skip(arg):
        return 3 if SEARCH.match(re.sub(r"\s+", " ", arg)) else 40

    n, m = len(args), len(needs)
    if n == m:
        return args
    best = {(n, m): (0, None)}
    for i in range(n, -1, -1):
        for j in range(m, -1, -1):
            if (i, j) == (n, m):
                continue
            it = []
            if i < n and j < m:
                it.append((best[i + 1, j + 1][0] + cost(args[i], needs[j][0]), "both"))
            if i < n:
                it.append((best[i + 1, j][0] + skip(args[i]), "arg"))
            if j < m:
                it.append((best[i, j + 1][0] + 4, "need"))
            best[i, j] = min(it)
    if best[0, 0][0] >= 80:
        return None
    i = j = 0
    out = []
    while (i, j) != (n, m):
        step = best[i, j][1]
        if step == "both":
            out.append(args[i])
            i, j = i + 1, j + 1
        elif step == "arg":
            i += 1
        else:
            out.append("λ c. search rules")
            j += 1
    return out


def turn_function(crate, fn, path, folder, log):
    text = open(folder + "/Proof.antt", encoding="utf-8").read()
    t = Turn(fn, crate, log)
    head, uses, rest = [], [], []
    lines = text.split("\n")
    i = 0
    while i < len(lines) and lines[i].startswith("--"):
        head.append(lines[i])
        i += 1
    body = []
    for line in lines[i:]:
        if line.startswith("use ") or line.startswith("open "):
            if not re.search(r"\.Statement\.\{statement\}|\.Tie as tie|Lts as", line):
                uses.append(line)
            elif "Lts" in line:
                log.append("uses Lts")
        else:
            body.append(line)
    blocks = blocks_of("\n".join(body))
    defs, spec = [], None
    for b in blocks:
        d = split_def(b)
        if d is None:
            log.append("a block that is no definition: " + b.split("\n")[0])
            return False
        if re.search(r"statement M", d["sig"]) and re.search(r"[-_]spec$", d["name"]):
            spec = d
        else:
            defs.append(d)
    if spec is None:
        log.append("no theorem")
        return False
    m = re.search(r"tie\.spec\s", spec["clauses"] + " ")
    if not m:
        log.append("no tie.spec")
        return False
    args = top_args(spec["clauses"][m.end():].strip())
    if spec["clauses"].rstrip().endswith("tie.spec)") or not args:
        args = []
    loops = fn.d["loops"]
    needs = fn.d["needs"]
    by_name = {d["name"]: d for d in defs}
    front = args[:2 * len(loops)]
    found = align(args[2 * len(loops):], needs, by_name)
    if found is None:
        log.append(f"{len(args)} arguments for {len(loops)} loops and {len(needs)} needs")
        return False
    args = front + found
    used = set()
    inv, ans = [], []
    # invariants and measures
    for j, ((old, new), vs) in enumerate(loops):
        changed = fn.d["changed"][j]
        for kind, arg in (("invariant", args[2 * j]), ("decreases", args[2 * j + 1])):
            d = by_name.get(arg)
            if d is None:
                log.append(f"no {kind} {arg}")
                return False
            used.add(arg)
            m = re.match(r"%s ((?:%s ?)*)=" % (re.escape(d["name"]), r"[^\s=]+"), d["clauses"])
            if not m:
                log.append(f"{kind} has another form")
                return False
            ps = m[1].split()
            want = len(vs) + sum(changed)
            if len(ps) != want:
                log.append(f"{kind}: {len(ps)} parameters for {want}")
                return False
            sub = {}
            for p, v, c in zip(ps, vs, changed):
                sub[p] = f"l.initial.{v}" if c else f"l.{v}"
            for p, v in zip(ps[len(vs):], [v for v, c in zip(vs, changed) if c]):
                sub[p] = f"l.{v}"
            bodytext = d["clauses"][m.end():]
            bodytext = PATH.sub(lambda q: (sub[q[1]] + (q[2] or "")) if q[1] in sub and q[1] != "_" else q[0], bodytext)
            inv.append("\n".join(d["comment"] + [f"abbrev pub {kind}-{new} : goal.{kind}-{new}"] + d["unf"] + [f"{kind}-{new} l ={bodytext}"]))
    place_at = [a[0] for a in fn.d["asked_at"]]
    goals = {}
    for k, (old, new) in enumerate(needs):
        goals.setdefault(args[2 * len(loops) + k], []).append((new, place_at[k]))
    inv_names = {args[2 * j] for j in range(len(loops))} | {args[2 * j + 1] for j in range(len(loops))}

    def clean_sig(s):
        s = re.sub(r"tie\.(%s)((?: (?:%s))*)" % (r"(?:After|Then|Else|At|In|Joined|Start|Off|Merged)[^\s(){},;]*", "|".join(map(re.escape, inv_names)) or "NONE"), t.place_type, s)
        return s

    names = {}
    for d in defs:
        if d["name"] in goals:
            names[d["name"]] = goals[d["name"]][0][0]
    for d in defs:
        m = re.search(r"tie\.((?:After|Then|Else|At|In|Joined|Start)[^\s(){},;]*)", d["sig"])
        if m and d["name"] not in goals and fn.by_norm.get(norm(m[1])):
            t.helpers[d["name"]] = fn.by_norm[norm(m[1])]

    def cite(text):
        """Names of goals that other definitions cite."""
        return re.sub(r"(?<![^\s(){},;])(%s)(?=\s+[\w(])" % WORD, lambda m: names.get(m[1], m[1]), text)

    for d in defs:
        if d["name"] in used:
            continue
        nm = d["name"]
        targets = goals.get(nm)
        m = re.match(r"%s((?: %s|\s\([^()]*\))*)\s=" % (re.escape(nm), r"[^\s=()]+"), d["clauses"])
        params = m[1].split() if m else []
        if targets:
            for q, (goalname, place) in enumerate(targets):
                if q:
                    ans.append(f"pub {goalname} : goal.{goalname}\n{goalname} c = {targets[0][0]} c")
                    continue
                var = params[0] if params else "c"
                cl = t.paths(d["clauses"], {var: (var, 0, place)}, goalname)
                cl = goalname + cite(cl[len(nm):])
                if "requires" in goalname:
                    cl = re.sub(r"^(\S+ \w+) κs =", r"\1 =", cl)
                ans.append("\n".join(d["comment"] + [f"pub {goalname} : goal.{goalname}"] + d["unf"] + [cl]))
        else:
            # a helper
            binders = re.findall(r"\(([^():]+) : tie\.((?:After|Then|Else|At|In|Joined|Start)[^\s(){},;]*)", d["sig"])
            vars_ = {}
            for names_, place in binders:
                p = fn.by_norm.get(norm(place))
                for v in names_.split():
                    vars_[v] = (v, 0, p)
                if len(binders) == 1 and params and params[0] not in vars_:
                    vars_[params[0]] = (params[0], 0, p)
            places = [fn.new_place[v[2]] for v in vars_.values() if v[2] in fn.new_place]
            sig = t.paths(clean_sig(d["sig"]), vars_, places[0] if places else None)
            cl = nm + cite(t.paths(d["clauses"], vars_, places[0] if places else None)[len(nm):])
            ans.append("\n".join(d["comment"] + [f"{d['mods']}{nm} {d['gen']}: {sig}"] + d["unf"] + [cl]))
    # what stands in the theorem itself
    for arg, targets in goals.items():
        if arg in by_name:
            continue
        flat = re.sub(r"\s+", " ", arg)
        if SEARCH.match(flat):
            continue
        for goalname, place in targets:
            m = re.match(r"\(λ (\w+)((?: κs)?)\.\s+(.*)\)$", arg, re.S)
            if m:
                cl = cite(t.paths(m[3], {m[1]: (m[1], 0, place)}, goalname))
                ans.append("\n".join([f"pub {goalname} : goal.{goalname}"] + spec["unf"] + [f"{goalname} {m[1]} = {cl}"]))
            else:
                m = re.match(r"\((%s) (.*)\)$" % WORD, arg, re.S)
                cl = cite(t.paths(arg, {}))
                ans.append("\n".join([f"pub {goalname} : goal.{goalname}"] + spec["unf"] + [f"{goalname} c = {cl} c"]))
    made = {x for p in fn.d["places"] for x in p[2]} | {n[1] for n in needs} | set(fn.d["places_by_name"])

    def rust(m):
        w = m[1]
        return "." + (norm(w) if norm(w) in RUST and w not in made else w)

    ans = [re.sub(r"\.([a-z]\w*(?:-\w+)+)(?![\w-])", rust, a) for a in ans]
    inv = [re.sub(r"\.([a-z]\w*(?:-\w+)+)(?![\w-])", rust, a) for a in inv]
    mod = f"Rattle.{crate}.proofs.{path}"
    if inv:
        with open(folder + "/Invariants.antt", "w", encoding="utf-8") as f:
            f.write("\n".join(uses + [f"use {mod}.Given as goal"]) + "\n\n" + "\n\n".join(inv) + "\n")
    if ans:
        with open(folder + "/Answers.antt", "w", encoding="utf-8") as f:
            for name, mod_of in (("ap", "mathlib.Core.Path"), ("not", "mathlib.Core.Bool")):
                if t.nots and not any(re.search(r"[{ ,]%s[,}]" % name, u) for u in uses):
                    uses = uses + [f"use {mod_of}.{{{name}}}"]
            at = [f"use {mod}.Goals.{{{', '.join(sorted(t.used_places))}}}"] if t.used_places else []
            f.write("\n".join(head + uses + [f"use {mod}.Goals as goal"] + at) + "\n\n" + "\n\n".join(ans) + "\n")
    elif inv and head:
        p = folder + "/Invariants.antt"
        s = open(p, encoding="utf-8").read()
        open(p, "w", encoding="utf-8").write("\n".join(head) + "\n" + s)
    os.remove(folder + "/Proof.antt")
    return True


def main():
    crate, only = sys.argv[1], sys.argv[2:]
    where = os.path.join("crates", crate)
    for folder, _, files in os.walk(os.path.join(where, "src")):
        for f in files:
            RUST.update(re.findall(r"\w+", open(os.path.join(folder, f), encoding="utf-8").read()))
    tmp = tempfile.mkdtemp()
    d = tmp + "/n"
    r = subprocess.run(["rt", "check", "--generated", d, "--old-names"], cwd=where, capture_output=True, text=True)
    if not os.path.exists(d + "/names.json"):
        print(r.stdout[-1500:], r.stderr[-500:])
        raise SystemExit("no names")
    names = json.load(open(d + "/names.json"))
    shutil.rmtree(tmp)
    for key in sorted(names):
        m = re.match(r"Rattle-%s-proofs\.(.*)\.Lts$" % crate, key)
        if not m or (only and m[1] not in only):
            continue
        folder = os.path.join(where, "proofs", *m[1].split("."))
        if not os.path.exists(folder + "/Proof.antt"):
            continue
        log = []
        try:
            done = turn_function(crate, Function(names[key]), m[1], folder, log)
        except Exception as e:  # noqa: BLE001
            done = False
            log.append(f"{type(e).__name__}: {e}")
        print(("turned " if done else "LEFT ") + m[1], "; ".join(log))


main()
