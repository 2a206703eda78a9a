"""What a proof file says of the places of a function: `c.before.before` and helpers such as `start c`, as today's goals name them."""
import re

from_old = lambda s: s.replace("_", "-")
IDC = r"A-Za-z0-9_'₀-₉⁰-⁹α-κμ-ωΑ-Ω«»?!⁻⊎≡∷"
IDENT = re.compile(r"[A-Za-zα-κμ-ω«_][" + IDC + r"-]*")
INV = r"(?:(?: (?:invariant|decreases)-[A-Za-z0-9_-]+)*)"
PLACE = r"tie\.([A-Z][A-Za-z0-9_«»-]*)" + INV


class Places:
    def __init__(self, entry):
        self.parent = {}
        self.new = {}
        self.typed = {}
        self.arm = {}
        self.step_new = {}
        for i, p in enumerate(entry["places"]):
            o = from_old(p[0])
            self.parent[o] = from_old(p[1]) if p[1] else None
            self.new[o] = entry["places_by_name"][i]
            self.typed[o] = entry["typed"][i] if i < len(entry["typed"]) else []
            arm = entry["arms"][i]
            if arm:
                self.arm[o] = arm[1]
            if p[2] and p[2][0]:
                self.step_new[p[2][0]] = p[2][1]

    def up(self, p, n):
        for _ in range(n):
            if p is None:
                return None
            p = self.parent.get(p)
        return p

    def dist(self, p, q):
        k = 0
        while p is not None and p != q:
            p = self.parent.get(p)
            k += 1
        return k if p == q else None


class File:
    def __init__(self, places, needs_at, needs_new):
        self.pl = places
        self.needs_at = needs_at
        self.needs_new = needs_new
        self.domain = {}
        self.result = {}
        self.arg_at = {}
        self.used = set()
        self.inline = {}

    def inlined(self, name, root):
        binder, text = self.inline[name]
        new = re.sub(r"(?<![" + IDC + r".-])" + re.escape(binder) + r"\.", lambda m: root + ".", text)
        return f"({new})" if " " in new else new

    # ---- signatures
    def collect(self, chunks):
        mod = None
        self.modules = []
        for ch in chunks:
            m = re.search(r"^module _ (.*?) where", ch, re.M | re.S)
            if m:
                b = re.search(r"\(([^\s()]+) : " + PLACE + r"\)", m.group(1))
                mod = (b.group(1), from_old(b.group(2))) if b else None
            first = next((L for L in ch.split("\n") if L.strip() and not L.startswith("--")), "")
            if first and not first.startswith((" ", "module")):
                mod = None
            self.modules.append(mod)
            for d in re.finditer(r"^( *)(?:abbrev )?(?:pub )?([^\s(){}\[\],;.λ:]+) : (.*)$", ch, re.M):
                name, typ = d.group(2), d.group(3)
                rest = ch[d.start(3):]
                if mod and d.group(1):
                    r = re.match(PLACE + r" *$", typ)
                    if r:
                        self.result[name] = from_old(r.group(1))
                    self.domain[name] = mod[1]
                    continue
                r = re.match(PLACE + r" → " + PLACE + r" *$", typ)
                if r:
                    self.domain[name] = from_old(r.group(1))
                    self.result[name] = from_old(r.group(2))
                    continue
                r = re.match(r"\(([^\s()]+) : " + PLACE + r"\)", typ) or re.match(r"()" + PLACE + r" →", typ)
                if r:
                    self.domain[name] = from_old(r.group(2))

    # ---- one text
    def atom(self, place, root, rplace, goal):
        """The text of the place as an argument."""
        if place == rplace:
            return root
        if place is None:
            return root + "?"
        q = self.pl.new.get(place, place)
        if goal:
            self.used.add(q)
            return f"(goal.at.{goal} {root}).{q}"
        d = self.pl.dist(rplace, place)
        k = (d or 0) + (1 if self.pl.typed.get(rplace) else 0)
        if rplace in self.pl.arm and self.pl.typed.get(rplace) and (d or 0) >= self.pl.arm[rplace]:
            k += 1 - self.pl.arm[rplace]
        raw = root + ".before" * k
        if not self.pl.typed.get(place):
            return raw
        fields = " ".join(f"{v} = {root}.{self.pl.step_new.get(s, s)}.given;" for v, s in self.pl.typed[place])
        return f"(record {{ before = {raw}; type_inv = record {{ {fields} }} }})"

    def run(self, text, env, goal):
        env = dict(env)
        out = []
        i = 0
        n = len(text)

        def parse_pe(k):
            """A place expression at k: (end, place, root, root's place) or None."""
            m = re.compile(r"\s*").match(text, k)
            k = m.end()
            if k < n and text[k] == "(":
                r = parse_pe(k + 1)
                if not r:
                    return None
                e = re.compile(r"\s*\)").match(text, r[0])
                if not e:
                    return None
                b = re.compile(r"(?:\.before\b)*").match(text, e.end())
                return (b.end(), self.pl.up(r[1], b.group(0).count("before")), r[2], r[3])
            m = IDENT.match(text, k)
            if not m:
                return None
            w = m.group(0)
            if w in env:
                p, root, rp = env[w]
                b = re.compile(r"(?:\.before\b)*").match(text, m.end())
                return (b.end(), self.pl.up(p, b.group(0).count("before")), root, rp)
            if w in self.result and w in self.domain:
                r = parse_atom(m.end())
                if not r:
                    return None
                root, rp = r[2], r[3]
                q = self.result[w]
                return (r[0], q, root, rp)
            return None

        def parse_atom(k):
            m = re.compile(r"\s*").match(text, k)
            k = m.end()
            if k < n and text[k] == "(":
                r = parse_pe(k)
                return r
            m = IDENT.match(text, k)
            if m and m.group(0) in env:
                return parse_pe(k)
            return None

        while i < n:
            ch = text[i]
            prev = text[i - 1] if i else " "
            if text.startswith("--", i) and (i == 0 or text[i - 1] in " \n"):
                j = text.find("\n", i)
                j = n if j < 0 else j
                out.append(text[i:j])
                i = j
                continue
            if ch == "(":
                r = parse_pe(i)
                if r:
                    e, p, root, rp = r
                    f = re.compile(r"\.[A-Za-z0-9«]").match(text, e)
                    if f:
                        out.append(root)
                    else:
                        out.append(self.atom(p, root, rp, goal))
                    i = e
                    continue
            m = IDENT.match(text, i) if not re.match(r"[" + IDC + r".-]", prev) else None
            if m:
                w = m.group(0)
                if w == "let":
                    b = re.compile(r"let\s+([^\s(){}:=]+)\s*=\s*").match(text, i)
                    if b:
                        r = parse_pe(b.end())
                        if r:
                            e = re.compile(r"\s+in\b[ \n]?").match(text, r[0])
                            if e:
                                env[b.group(1)] = (r[1], r[2], r[3])
                                # what follows takes the place of the let
                                i = e.end()
                                sp = re.compile(r"[ \n]*").match(text, i)
                                i = sp.end()
                                continue
                        env.pop(b.group(1), None)
                if w in env or (w in self.result and w in self.domain):
                    r = parse_pe(i)
                    if r:
                        e, p, root, rp = r
                        f = re.compile(r"\.[A-Za-z0-9«]").match(text, e)
                        out.append(root if f else self.atom(p, root, rp, goal))
                        i = e
                        continue
                if w in self.inline:
                    if w in self.local:
                        out.append(self.inlined(w, self.local[w]))
                        i = m.end()
                        continue
                    r = parse_atom(m.end())
                    if r:
                        f = re.compile(r"\.[A-Za-z0-9«]").match(text, r[0])
                        if not f:
                            out.append(self.inlined(w, r[2]))
                            i = r[0]
                            continue
                if w in self.domain and w not in self.result:
                    sp = re.compile(r"(\s*)").match(text, m.end())
                    r = parse_atom(m.end()) if sp.group(1) else None
                    if r:
                        e, p, root, rp = r
                        f = re.compile(r"\.[A-Za-z0-9«]").match(text, e)
                        if not f:
                            d = self.domain[w]
                            if self.pl.dist(rp, d) is not None:
                                p = d
                            out.append(w + sp.group(1) + self.atom(p, root, rp, goal))
                            i = e
                            continue
                out.append(w)
                i = m.end()
                continue
            out.append(ch)
            i += 1
        return "".join(out)

    def chunk(self, ch, mod):
        """A chunk of declarations, turned."""
        env0 = {}
        self.local = {}
        if mod:
            for name in self.modlocal.get(mod, ()):
                if name in self.inline:
                    self.local[name] = mod[0]
            env0[mod[0]] = (mod[1], mod[0], mod[1])
            for name, q in self.result.items():
                if self.domain.get(name) == mod[1] and name in self.modlocal.get(mod, ()):
                    env0[name] = (q, mod[0], mod[1])
        # one declaration
        m = re.search(r"^( *)(?:abbrev )?(?:pub )?([^\s(){}\[\],;.λ:]+) : ", ch, re.M)
        if not m:
            return ch
        name = m.group(2)
        ind = m.group(1)
        if name in self.result:
            return ""
        g = re.match(r"tie\.Need-([^\s]+)", ch[m.end():])
        d = re.search(r"^" + ind + re.escape(name) + r"((?: +(?:\{[^{}]*\}|[^\s(){}=]+|_))*) =(?=[ \n])", ch[m.end():], re.M)
        if not d:
            return ch
        head = ch[:m.start()]
        sig = ch[m.start():m.end() + d.start()]
        deff = ch[m.end() + d.start():m.end() + d.end()]
        body = ch[m.end() + d.end():]
        args = re.sub(r"\{[^{}]*\}", "", d.group(1)).split()
        goal = None
        env = dict(env0)
        if g:
            old = from_old(g.group(1))
            goal = self.needs_new(old)
            p = self.needs_at(old)
            if goal is None or p is None or not args:
                return ch
            env[args[0]] = (p, args[0], p)
        elif not mod or name not in self.modlocal.get(mod, ()):
            if name in self.domain and args:
                p = self.domain[name]
                env[args[0]] = (p, args[0], p)
                b = re.search(r"\(([^\s()]+) : " + PLACE + r"\)", sig)
                senv = dict(env0)
                if b:
                    senv[b.group(1)] = (from_old(b.group(2)), b.group(1), from_old(b.group(2)))
                k = b.end() if b else 0
                sig = sig[:k] + self.run(sig[k:], senv, None) if b else sig
        else:
            k = sig.find(" : ") + 3
            sig = sig[:k] + self.run(sig[k:], env0, None)
        new = self.run(body, env, goal)
        if not g and ch[m.start():].lstrip().startswith("abbrev") and "\n" not in new.strip() and "--" not in new:
            root = None
            if mod and name in self.modlocal.get(mod, ()) and not args:
                root = mod[0]
            elif name in self.domain and len(args) == 1 and not mod:
                root = args[0]
            if root and ".before" not in new and not re.search(r"(?<![" + IDC + r".-])" + re.escape(root) + r"(?![" + IDC + r".-])", new):
                self.inline[name] = (root, new.strip())
                return "\n".join(L for L in head.split("\n") if L.startswith("--"))
        return head + sig + deff + new

    def turn(self, chunks):
        self.collect(chunks)
        self.modlocal = {}
        for ch, mod in zip(chunks, self.modules):
            if mod:
                for d in re.finditer(r"^ +(?:abbrev )?(?:pub )?([^\s(){}\[\],;.λ:]+) : ", ch, re.M):
                    self.modlocal.setdefault(mod, set()).add(d.group(1))
        out = []
        for ch, mod in zip(chunks, self.modules):
            mm = re.match(r"((?:--[^\n]*\n)*module _ [^\n]*where\n)(.*)$", ch, re.S)
            if mm:
                rest = self.chunk(mm.group(2), mod)
                out.append(mm.group(1) + rest)
            else:
                out.append(self.chunk(ch, mod))
        return out
