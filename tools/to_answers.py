#!/usr/bin/env python3
"""Turns the Proof.antt files of functions into Invariants.antt and Answers.antt.

usage: python3 tools/to_answers.py NAMES CRATE..      at the top of the repository; NAMES is the folder that 'rt names' wrote

What a line of the old file cites is found by the names that rt lists: a goal, a place, a step, a field of a callee's clauses, a parameter. An answer that was only
'search rules' is left out: the check tries that by itself. What the script cannot turn stays as it is, and the check names it.
"""
import json
import os
import re
import sys

sys.dont_write_bytecode = True
sys.path.insert(0, os.path.dirname(os.path.abspath(__file__)))
import places as turned_places

WORD = r"[^\s(){}\[\],;.λ:]+"


def norm(name):
    return name.replace("_", "-")


def clauses_of(source, fn):
    """The names of the `requires` of a function, in order."""
    m = re.search(r"\bfn " + re.escape(fn) + r"\b", source)
    if not m:
        return []
    head = source[m.start():]
    end = head.find("\n{")
    head = head[:end if end >= 0 else None]
    return re.findall(r"^\s*requires ([a-z_0-9]+) \{", head, re.M)


class Function:
    def __init__(self, entry, requires):
        self.requires = requires
        self.needs = {}
        for old, new in entry["needs"]:
            self.needs[norm(old)] = new
            self.needs.setdefault("overflow-" + norm(old), new)
            self.needs.setdefault("nonzero-" + norm(old), new)
            if norm(old).startswith("part-"):
                self.needs.setdefault("slice-bounds-" + norm(old)[5:], new)
            if re.search(r"-t[0-9]+$", old):
                self.temps = getattr(self, "temps", []) + [(re.sub(r"-t[0-9]+$", "", norm(old)), new)]
        self.temps = getattr(self, "temps", [])
        self.asked = {}
        for old, fields in (entry.get("asked") or {}).items():
            new = self.needs.get(norm(old))
            if new and isinstance(fields, list):
                self.asked[new] = fields
        self.places = {}
        self.steps = {}
        for i, p in enumerate(entry["places"]):
            old, parent, step, callee, rest = p
            self.places[norm(old)] = entry["places_by_name"][i]
            if not step or not step[0]:
                continue
            if callee is None and not re.match(r"(if|loop|enum|match)", step[0]):
                continue
            fields = None
            cl = entry["clauses"][i]
            if isinstance(cl, dict):
                fields = cl.get("fields")
            self.steps[norm(step[0])] = (step[1], callee, fields)
        self.typed = {}
        for row in entry["typed"]:
            for var, step in row:
                self.typed[norm(step)] = var
        self.arms = []
        for arm in entry["arms"]:
            if arm:
                for field, step, path in arm[2]:
                    if not field.endswith("-own"):
                        t = (norm(step), tuple(path), f"{arm[0]}.{field}")
                        if t not in self.arms:
                            self.arms.append(t)
        self.arms.sort(key=lambda a: -len(a[1]))
        self.params = entry["params"]
        self.loops = entry["loops"]
        self.changed = entry["changed"]

    def index(self, path, n):
        """The index that a path of nested pairs .1.1.0 leads to, of n parts, and how many projections it takes."""
        i = 0
        for k, p in enumerate(path):
            if p == "0":
                return i, k + 1
            if p == "1":
                i += 1
                if i == n - 1:
                    if k + 1 < len(path) and path[k + 1] == "0":
                        pass
                    return i, k + 1
            else:
                return int(p), k + 1
        return None, 0

    def chain(self, segs):
        """Turns the projections after a place: a list of names."""
        out = []
        i = 0
        while i < len(segs) and segs[i] == "before":
            out.append("before")
            i += 1
        if i >= len(segs):
            return out
        s = segs[i].strip("«»")
        segs = segs[:i] + [s] + segs[i + 1:]
        if s.endswith("_lem") and norm(s[:-4]) in self.steps:
            s = s[:-4]
        if s in ("pre", "requires"):
            out.append("requires")
            i += 1
            nums = []
            while i + len(nums) < len(segs) and re.fullmatch(r"[0-9]+", segs[i + len(nums)]):
                nums.append(segs[i + len(nums)])
            if nums and len(self.requires) > 1:
                at, used = self.index(nums, len(self.requires))
                if at is not None and at < len(self.requires):
                    out.append(self.requires[at])
                    i += used
            return out + segs[i:]
        for step, path, new in self.arms:
            if norm(s) == step and tuple(segs[i + 1:i + 1 + len(path)]) == path:
                return out + new.split(".") + segs[i + 1 + len(path):]
        if norm(s) in self.typed and i + 1 < len(segs) and segs[i + 1] == "given":
            return out + ["type_inv", self.typed[norm(s)]] + segs[i + 2:]
        if norm(s) in self.steps:
            new, callee, fields = self.steps[norm(s)]
            out.append(new)
            i += 1
            if i < len(segs):
                t = segs[i]
                t = {"inv": "invariant", "taken": "true", "left": "false"}.get(t, t) if (new.startswith("loop") or new.startswith("if")) else t
                if new.startswith("if") or new.endswith("-test"):
                    out.append(t)
                    return out + segs[i + 1:]
                if new.startswith("loop"):
                    if t == "auto" and any("kept" in vs for _, vs in self.loops):
                        t = "kept"
                    if t == "new" and any("last" in vs for _, vs in self.loops):
                        t = "last"
                    out.append(t)
                    return out + segs[i + 1:]
                if callee and t in ("ensures", "new", "auto", "last", "kept"):
                    t = {"last": "new", "kept": "auto"}.get(t, t)
                    out.append(t)
                    i += 1
                    nums = []
                    while i + len(nums) < len(segs) and re.fullmatch(r"[0-9]+", segs[i + len(nums)]):
                        nums.append(segs[i + len(nums)])
                    if nums:
                        names = fields if t == "ensures" else self.params.get(callee)
                        if names:
                            at = 0
                            used = 0
                            if t == "ensures":
                                at, used = self.index(nums, len(names))
                            else:
                                for k, p in enumerate(nums):
                                    used = k + 1
                                    if p == "1":
                                        at += 1
                                    else:
                                        break
                            if at is not None and at < len(names):
                                out.append(names[at])
                                i += used
                    return out + segs[i:]
            return out + segs[i:]
        return out + segs[i:]

    def paths(self, text):
        def turn(m):
            root, rest = m.group(1), m.group(2)
            segs = [s for s in rest.split(".") if s]
            segs = self.chain(segs)
            k = 0
            while k < len(segs) and segs[k] == "before":
                k += 1
            if 0 < k < len(segs):
                segs = segs[k:]
            return root + "".join("." + s for s in segs)

        return re.sub(r"(\b[\w'₀-₉-]+|[)»])((?:\.«?[\w'₀-₉-]+»?)+)", lambda m: turn(m) if not re.match(r"^(Rattle|tie|goal|mathlib|native|borrow|lib|Prim|denote|mir)$", m.group(1)) else m.group(0), text)


def _aliases(self, text):
    """`let known = c.requires in known.1.0`: a name that stands for clauses, with its projections by their names."""
    by_new = {}
    for step, (new, callee, fields) in self.steps.items():
        if fields:
            by_new[new] = fields
    out = []
    for ch in text.split("\n\n"):
        for m in list(re.finditer(r"let ([\w'-]+) = [^\n]*?\b([\w-]+)\.(requires|ensures) in\b", ch)) + list(re.finditer(r"let ([\w'-]+) = ([\w-]+)\.(requires) in\b", ch)):
            names = (self.requires if len(self.requires) > 1 else None) if m.group(3) == "requires" else by_new.get(m.group(2))
            if not names:
                continue

            def turn(q):
                nums = q.group(1)[1:].split(".")
                at, used = self.index(nums, len(names))
                if at is None or at >= len(names):
                    return q.group(0)
                rest = nums[used:]
                return m.group(1) + "." + names[at] + "".join("." + r for r in rest)

            head, tail = ch[:m.end()], ch[m.end():]
            tail = re.sub(r"(?<![\w.-])" + re.escape(m.group(1)) + r"((?:\.[0-9]+)+)", turn, tail)
            ch = head + tail
        out.append(ch)
    return "\n\n".join(out)


Function.aliases = _aliases


def split_tuple(text):
    """The parts of a text '(a, b, c)', or None."""
    t = text.strip()
    if not (t.startswith("(") and t.endswith(")")):
        return None
    depth = 0
    parts = [""]
    for k, ch in enumerate(t):
        if ch in "([{":
            depth += 1
            if depth == 1:
                continue
        if ch in ")]}":
            depth -= 1
            if depth == 0:
                if k != len(t) - 1:
                    return None
                continue
        if ch == "," and depth == 1:
            parts.append("")
        else:
            parts[-1] += ch
    if parts and not parts[-1].strip():
        parts.pop()
    return [p.strip("\n") for p in parts] if len(parts) > 1 else None


def to_record(body, fields):
    """A body that ends in a tuple, as a record of the fields."""
    b = body.rstrip()
    whole = body
    if len(fields) == 2:
        whole = f"\n    let both = ({b.strip()}) in record {{ {fields[0]} = both.0; {fields[1]} = both.1 }}\n"
    if not b.endswith(")"):
        return whole
    depth = 0
    start = None
    for k in range(len(b) - 1, -1, -1):
        if b[k] in ")]}":
            depth += 1
        elif b[k] in "([{":
            depth -= 1
            if depth == 0:
                start = k
                break
    if start is None:
        return whole
    before = b[:start].rstrip()
    if before and not before.endswith(("in", "=", ".")):
        return whole
    parts = split_tuple(b[start:])
    if parts is None:
        return whole
    while len(parts) < len(fields):
        more = split_tuple(parts[-1])
        if more is None:
            return whole
        parts = parts[:-1] + more
    if len(parts) != len(fields):
        return whole
    inner = "\n".join(f"      {f} = {p.strip()};" for f, p in zip(fields, parts))
    return b[:start] + "record {\n" + inner + "\n    }\n"


def group_end(text, k):
    """Where the parenthesised group that begins at k ends."""
    depth = 0
    for j in range(k, len(text)):
        if text[j] in "([{":
            depth += 1
        elif text[j] in ")]}":
            depth -= 1
            if depth == 0:
                return j + 1
    return None


def branches(text, cases):
    """⊎_elim (λ w. A) (λ w. B) c.STEP.branch as an elim with the names of the branches."""
    at = 0
    while True:
        k = text.find("⊎_elim", at)
        if k < 0:
            return text
        at = k + 6
        m1 = re.compile(r"\s*\(").match(text, at)
        if not m1:
            continue
        e1 = group_end(text, m1.end() - 1)
        m2 = e1 and re.compile(r"\s*\(").match(text, e1)
        if not m2:
            continue
        e2 = group_end(text, m2.end() - 1)
        m3 = e2 and re.compile(r"\s*((?:[\w'-]+|\([\w' -]+\))\.(if-[^\s.]+)\.branch)").match(text, e2)
        if not m3:
            continue
        step = m3.group(2)
        what = step[3:]
        arms = []
        for g, side in ((text[m1.end():e1 - 1], "then"), (text[m2.end():e2 - 1], "else")):
            b = re.match(r"λ ([\w']+)((?: [\w']+)*)\. ?", g)
            if not b:
                arms = None
                break
            w = b.group(1)
            rest = g[b.end():]
            rest = re.sub(r"\b" + w + r"\.0\.(taken|true)\b", f"{w}.{step}.true", rest)
            rest = re.sub(r"\b" + w + r"\.0\.(left|false)\b", f"{w}.{step}.false", rest)
            more = b.group(2).strip()
            arms.append(f"{side}-{what} {w} ↦ " + (f"λ {more}. " if more else "") + rest)
            cases.add(f"{side}-{what}")
        if arms is None:
            continue
        new = f"(elim {m3.group(1)} [\n          | {arms[0]}\n          | {arms[1]}\n        ])"
        text = text[:k] + new + text[m3.end():]
        at = k + 4


def convert(crate, fn_path, text, entry, source):
    fn = fn_path.split("/")[-1]
    f = Function(entry, clauses_of(source, fn))
    mod = f"Rattle.{crate}.proofs." + fn_path.replace("/", ".")
    lines = text.split("\n")
    # declarations
    head = []
    uses = []
    decls = []
    i = 0
    cur = None
    n = len(lines)
    while i < n:
        L = lines[i]
        if L.startswith("use "):
            uses.append(L)
            i += 1
            continue
        decls.append(L)
        i += 1
    body = "\n".join(decls)
    # the last declaration
    body = re.sub(r"\n *pub " + WORD + r"spec : \{M : Type 1\} → statement M\n(?:.*\n?)*$", "\n", body)
    # split into chunks at blank lines that are followed by a line of column 0..2 that begins a declaration
    chunks = re.split(r"\n\s*\n", body)
    index = {}
    for k, (old, new) in enumerate(entry["needs"]):
        index[norm(old)] = k

    def find(old):
        for pre in ("", "overflow-", "nonzero-", "slice-bounds-"):
            if old.startswith(pre) and old[len(pre):] in index:
                return old[len(pre):]
            if pre == "slice-bounds-" and old.startswith(pre) and "part-" + old[len(pre):] in index:
                return "part-" + old[len(pre):]
        return None

    def needs_new(old):
        k = find(old)
        return entry["needs"][index[k]][1] if k else None

    def needs_at(old):
        k = find(old)
        return norm(entry["asked_at"][index[k]][0]) if k else None

    pf = turned_places.File(turned_places.Places(entry), needs_at, needs_new)
    chunks = pf.turn(chunks)
    inv_chunks = []
    ans_chunks = []
    inv_names = [x for lp in f.loops for x in [lp]]
    for ch in chunks:
        m = re.search(r"^(?: *)abbrev (" + WORD + r") : tie\.((?:invariant|decreases)-[A-Za-z0-9_-]+)[^\n]*\n", ch, re.M)
        if m:
            name, kind = m.group(1), m.group(2)
            lname = kind.split("-", 1)[1]
            k = [norm(lp[0][0]) for lp in f.loops].index(norm(lname))
            (old, new), vs = f.loops[k][0], f.loops[k][1]
            changed = f.changed[k] if k < len(f.changed) else [True] * len(vs)
            want = ("invariant-" if kind.startswith("inv") else "decreases-") + new
            d = re.search(r"^" + re.escape(name) + r"((?: " + WORD + r")*) =", ch[m.end():], re.M)
            ch2 = ch
            if d:
                ps = d.group(1).split()
                full = [(v, "initial" if c else "now") for v, c in zip(vs, changed)] + [(v, "now") for v, c in zip(vs, changed) if c]
                sub = {}
                extra = len(full) - len(ps)
                for p, (v, w) in zip(ps, full):
                    sub[p] = f"l.initial.{v}" if w == "initial" else f"l.{v}"
                rest = ch[m.end() + d.end():]
                if extra:
                    rest = " -- look: %d parameters, %d variables" % (len(ps), len(full)) + rest
                rest = re.sub(r"(?<![\w'₀-₉.-])([\w'₀-₉-]+)(?! = )(?![\w'-])", lambda q: sub.get(q.group(1), q.group(1)), rest)
                unf = re.search(r"^unfolding.*\n", ch[m.end():m.end() + d.start()], re.M)
                lead = ch[:m.start()]
                ch2 = f"{lead}abbrev pub {want} : goal.{want}\n" + (unf.group(0) if unf else "") + f"{want} l ={rest}"
            inv_chunks.append(ch2)
            continue
        m = re.search(r"^( *)(" + WORD + r") : tie\.Need-(" + WORD + r")[^\n]*\n", ch, re.M)
        if m:
            ind, name, old = m.group(1), m.group(2), norm(m.group(3))
            new = f.needs.get(old)
            if new is None and re.search(r"-t[0-9]+$", old):
                verb = re.sub(r"^(overflow|nonzero)-|-t[0-9]+$", "", old)
                for k, (v, w) in enumerate(f.temps):
                    if v == verb:
                        new = w
                        del f.temps[k]
                        break
            after = ch[m.end():]
            if new is None and after.strip().endswith("= search rules"):
                continue
            if new is None:
                ans_chunks.append("-- look: no goal for `%s`\n" % old + re.sub(r"^", "-- ", ch, flags=re.M))
                continue
            unf = ""
            mu = re.match(r" *unfolding[^\n]*\n", after)
            if mu:
                unf = mu.group(0)
                after = after[mu.end():]
            d = re.match(r" *" + re.escape(name) + r"((?: " + WORD + r"| _)*) =", after)
            if not d:
                ans_chunks.append("-- look: not read\n" + ch)
                continue
            args = [a for a in d.group(1).split() if a != "κs"]
            rest = after[d.end():]
            if re.fullmatch(r"\s*search rules\s*", rest) and not unf:
                continue
            if new in f.asked:
                rest = to_record(rest, f.asked[new])
            lead = ch[:m.start()]
            ans_chunks.append(f"{lead}{ind}pub {new} : goal.{new}\n{unf}{ind}{new} {' '.join(args) or 'c'} ={rest}")
            continue
        ans_chunks.append(ch)
    ans = "\n\n".join(c.strip("\n") for c in ans_chunks if c.strip())
    inv = "\n\n".join(c.strip("\n") for c in inv_chunks if c.strip())
    places = set(pf.used)

    def place(m):
        w = f.places.get(norm(m.group(1)))
        if w is None:
            return m.group(0)
        places.add(w)
        return w

    ans = re.sub(r"tie\.([A-Za-z0-9_«»-]+)((?: (?:invariant|decreases)-[A-Za-z0-9_-]+)*)", place, ans)
    ans = f.paths(ans)
    ans = f.aliases(ans)
    words = {v for _, vs in f.loops for v in vs} | {v for ps in f.params.values() for v in ps}
    words |= set(re.findall(r"\b([a-z][a-z0-9_]*):", source))
    ans = re.sub(r"\.([a-z0-9]+(?:-[a-z0-9]+)+)(?![\w-])", lambda m: "." + m.group(1).replace("-", "_") if m.group(1).replace("-", "_") in words and m.group(1) not in {x[0] for x in f.steps.values()} else m.group(0), ans)
    ans = re.sub(r"\((\w+(?:\.[\w-]+)+)\)", r"\1", ans)
    if any("kept" in vs for _, vs in f.loops):
        ans = re.sub(r"\.auto(?![.\w-])", ".kept", ans)
    ans = re.sub(r"\.inv\b(?!-)", ".invariant", ans)
    ans = re.sub(r"\.taken\b(?!-)", ".true", ans)
    ans = re.sub(r"\.pre\b(?!-)", ".requires", ans)
    ans = re.sub(r"\(\(([^()]*)\)\)", r"(\1)", ans)
    cases = set()
    ans = branches(ans, cases)
    places |= cases
    drop = re.compile(r"\.(Tie as tie|Statement\.\{statement\})$")
    uses = [u for u in uses if not drop.search(u)]
    for u in list(uses):
        m = re.search(r"\.(?:Reads|Lts) as ([^\s]+)$", u)
        if m and not re.search(r"(?<![\w-])" + re.escape(m.group(1)) + r"\.", ans + inv):
            uses.remove(u)
    out = {}
    if inv:
        out["Invariants.antt"] = "\n".join(uses + [f"use {mod}.Given as goal"]) + "\n\n" + inv.strip() + "\n"
    # comments before the first use
    rest = ans.strip()
    top = ""
    m = re.match(r"((?:--[^\n]*\n)+)", rest + "\n")
    if m and text.startswith("--"):
        n_lead = 0
        for L in text.split("\n"):
            if L.startswith("--"):
                n_lead += 1
            else:
                break
        lead_lines = rest.split("\n")[:n_lead]
        top = "\n".join(lead_lines) + "\n"
        rest = "\n".join(rest.split("\n")[n_lead:]).strip()
    if rest:
        more = [f"use {mod}.Goals as goal"]
        if places:
            more.append(f"use {mod}.Goals.{{{', '.join(sorted(places))}}}")
        out["Answers.antt"] = top + "\n".join(uses + more) + "\n\n" + rest + "\n"
    return out


def main():
    names, crates = sys.argv[1], sys.argv[2:]
    for crate in crates:
        entries = json.load(open(f"{names}/crates/{crate}/names.json"))
        for folder, _, files in os.walk(f"crates/{crate}/proofs"):
            if "Proof.antt" not in files:
                continue
            fn_path = os.path.relpath(folder, f"crates/{crate}/proofs")
            key = f"Rattle-{crate}-proofs." + fn_path.replace("/", ".") + ".Lts"
            if key not in entries:
                print("no names:", fn_path)
                continue
            src = ""
            for r, _, fs in os.walk(f"crates/{crate}/src"):
                for x in sorted(fs):
                    stem = x[:-3]
                    parts = fn_path.split("/")
                    if len(parts) > 1 and stem != parts[0]:
                        continue
                    if len(parts) == 1 and stem not in ("lib", "main"):
                        continue
                    src += open(os.path.join(r, x)).read()
            text = open(os.path.join(folder, "Proof.antt")).read()
            try:
                out = convert(crate, fn_path, text, entries[key], src)
            except Exception as e:
                print("failed:", crate, fn_path, repr(e))
                continue
            for k, v in out.items():
                open(os.path.join(folder, k), "w").write(v)
            os.remove(os.path.join(folder, "Proof.antt"))
            if not out:
                os.rmdir(folder)


if __name__ == "__main__":
    main()
