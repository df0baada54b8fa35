#!/usr/bin/env python3
"""Turns proofs that walk from place to place (proofs/F/Proof.antt) to answers by name (Invariants.antt and Answers.antt).

usage: answers.py CRATE [F ..]      at the top of the repository, where the crates below CRATE are built

It asks `rt check --generated DIR --old-names` for the names of CRATE's goals and steps, old and new. In an answer every known fact is a
field of `c`, so each way back (`c.before.before`, `at_start c`) is `c` itself. A file that has what is not understood stays as it is.
"""
import json
import os
import re
import subprocess
import sys
import tempfile

IDENT = r"[^\s(){}\[\].;,:=→×λ∷]+"


def norm(s):
    s = s.replace("_", "-")
    return s[len("overflow-"):] if s.startswith("overflow-") else s


class Odd(Exception):
    pass


def items(text):
    """The file's head of comments and uses, and its definitions: (comment, flags, name, type, unfolding, equations)."""
    uses, out, comment = [], [], []
    lines = text.split("\n")
    i = 0
    blocks = []
    while i < len(lines):
        l = lines[i]
        if not l.strip():
            i += 1
            continue
        if l.startswith("--"):
            comment.append(l)
            i += 1
            continue
        j = i + 1
        while j < len(lines) and (lines[j].startswith((" ", "\t")) or (lines[j].strip() == "" and False) or re.match(r"^[)\]}]", lines[j])):
            j += 1
        blocks.append((comment, "\n".join(lines[i:j])))
        comment = []
        i = j
    head = []
    k = 0
    defs = []
    first = True
    for com, b in blocks:
        if b.startswith(("use ", "pub use ")):
            if first:
                head = com
                first = False
            uses.append(b)
            continue
        if first:
            head = com
            first = False
        if re.match(r"(module|open|record|data|private|mutual|infix)\s", b):
            raise Odd("block " + b.split("\n")[0])
        m = re.match(r"unfolding (.*)", b, re.S)
        if m:
            defs[-1]["unfolding"] = m.group(1).split()
            continue
        m = re.match(rf"((?:(?:abbrev|unfoldable|opaque|pub) )*)({IDENT})((?: \{{[^}}]*\}})*) : (.*)", b, re.S)
        if m and not (defs and re.match(rf"{re.escape(defs[-1]['name'])}(\s|$)", b) and defs[-1]["eqs"] == [] and False):
            defs.append({"comment": com, "flags": m.group(1).split(), "name": m.group(2), "type": m.group(4), "unfolding": [], "eqs": []})
            continue
        if defs and b.split()[0] == defs[-1]["name"]:
            defs[-1]["eqs"].append(b)
            continue
        raise Odd("line " + b.split("\n")[0])
    return head, uses, defs


def split_top(s, sep=" "):
    """The words of s at depth 0."""
    out, depth, cur = [], 0, ""
    for ch in s:
        if ch in "([{":
            depth += 1
        if ch in ")]}":
            depth -= 1
        if ch.isspace() and depth == 0:
            if cur:
                out.append(cur)
            cur = ""
        else:
            cur += ch
    if cur:
        out.append(cur)
    return out


PATH = re.compile(r"(?<![\w'.\-₀-₉])([A-Za-z_][\w'\-₀-₉]*)((?:\.[\w'\-₀-₉]+)*)")


def word(name):
    return re.compile(r"(?<![\w'.\-₀-₉◌])" + re.escape(name) + r"(?![\w'\-₀-₉])")


def erase(body, aliases, cursors):
    """Every way back to a place becomes `c`."""
    def cur_path(m):
        name, rest = m.group(1), m.group(2)
        if name in cursors:
            fields = rest.split(".")[1:]
            while fields and fields[0] == "before":
                fields = fields[1:]
            return "c" + "".join("." + f for f in fields)
        return m.group(0)

    for _ in range(60):
        old = body
        body = PATH.sub(cur_path, body)
        body = re.sub(r"(?<![\w'\-₀-₉])\(c\)", "c", body)
        body = re.sub(r"(?<![\w'\-₀-₉])c\.before(?![\w'\-₀-₉])", "c", body)
        for a in aliases:
            body = re.sub(word(a).pattern + r"\s+c(?![\w'\-₀-₉.])", "c", body)
        # a let of a place, or of a field of one
        m = re.search(r"\blet\s+(" + IDENT + r")\s*=\s*(c(?:\.[\w'\-₀-₉]+)*)\s+in\s", body)
        if m:
            name, path = m.group(1), m.group(2)
            rest = body[m.end():]
            rest = re.sub(word(name).pattern.replace(r"(?![\w'\-₀-₉])", r"(?![\w'\-₀-₉])"), path, rest)
            body = body[: m.start()] + rest
            rest = None
        if body == old:
            break
    return body


class Fn:
    def __init__(self, crate, path, data, mutables):
        self.crate, self.path, self.d, self.mutables = crate, path, data, mutables
        self.needs = {}
        for o, n in data["needs"]:
            self.needs.setdefault(norm(o), n)
        self.needs_list = [n for o, n in data["needs"]]
        self.steps, self.callee, self.clauses = {}, {}, {}
        for k, (place, before, (o, n), callee, _) in enumerate(data["places"]):
            if o:
                self.steps.setdefault(norm(o), n)
                if callee:
                    self.callee[n] = callee
                if data["clauses"][k]:
                    self.clauses[n] = data["clauses"][k]
        self.typed = {}
        for row in data["typed"]:
            for var, step in row:
                self.typed.setdefault(norm(step), var)

    def nested(self, fields, names):
        """The clause of a chain of clauses that .1.1.0 leads to."""
        i = 0
        while i < len(names) - 1:
            if not fields:
                return None
            if fields[0] == "0":
                return [names[i]] + fields[1:]
            if fields[0] == "1":
                i, fields = i + 1, fields[1:]
                continue
            return None
        return [names[-1]] + fields

    def fields(self, f):
        """The fields of c, under their new names."""
        if not f:
            return f
        head, rest = f[0], f[1:]
        if head == "pre":
            head = "requires"
        if head == "requires":
            pre = self.d.get("pre")
            if pre:
                if rest and rest[0] in pre["fields"]:
                    return [head] + rest
                n = self.nested(rest, pre["fields"])
                if n is None:
                    self.odd.append("requires." + ".".join(rest))
                    return [head] + rest
                return [head] + n
            return [head] + rest
        if head in ("args", "ranges", "lifetimes", "well_formed", "type_inv"):
            return f
        key = norm(head)
        if rest and rest[0] == "given" and key in self.typed:
            return ["type_inv", self.typed[key]] + rest[1:]
        new = self.steps.get(key, head)
        if rest:
            r = {"inv": "invariant", "taken": "true", "left": "false", "kept": "auto", "pre": "requires"}.get(rest[0], rest[0])
            rest = [r] + rest[1:]
            if r == "auto" and new in self.callee:
                muts = self.mutables.get(self.callee[new])
                if muts:
                    n = self.nested_auto(rest[1:], muts)
                    if n is not None:
                        rest = ["auto"] + n
            if r == "ensures" and new in self.clauses:
                names = self.clauses[new]
                if isinstance(names, dict):
                    names = names.get("fields")
                if names and not (len(rest) > 1 and rest[1] in names):
                    n = self.nested(rest[1:], names)
                    if n is not None:
                        rest = ["ensures"] + n
        return [new] + rest

    def nested_auto(self, fields, muts):
        i = 0
        while True:
            if not fields or i >= len(muts):
                return None
            if fields[0] == "0":
                return [muts[i]] + fields[1:]
            if fields[0] == "1":
                i, fields = i + 1, fields[1:]
                continue
            return None

    def paths(self, body):
        def f(m):
            if m.group(1) != "c" or not m.group(2):
                return m.group(0)
            return "c" + "".join("." + x for x in self.fields(m.group(2).split(".")[1:]))

        return PATH.sub(f, body)


def is_search(b):
    return re.fullmatch(r"\(?λ[^.]*\.\s*search rules\)?|search rules", b.strip()) is not None


def as_record(body, names):
    """The answer for several clauses: a tuple, behind its lets, becomes a record of them."""
    depth, i, last = 0, 0, 0
    for m in re.finditer(r"[(\[{]|[)\]}]|(?<![\w'\-])in(?=\s)", body):
        s = m.group(0)
        if s in "([{":
            depth += 1
        elif s in ")]}":
            depth -= 1
        elif depth == 0:
            last = m.end()
    lets, rest = body[:last], body[last:].strip()
    parts = tuple_parts(rest)
    if parts and len(parts) >= len(names):
        head, tail = parts[: len(names) - 1], parts[len(names) - 1 :]
        end = tail[0] if len(tail) == 1 else "(" + ", ".join(tail) + ")"
        fields = head + [end]
        # a pair nested to the right
        return lets + (" " if lets else "") + "record { " + "; ".join(f"{n} = {f}" for n, f in zip(names, fields)) + " }"
    if parts and len(parts) == 2 and tuple_parts(parts[1]) and len(tuple_parts(parts[1])) >= len(names) - 1:
        return as_record(lets + " (" + parts[0] + ", " + ", ".join(tuple_parts(parts[1])) + ")", names)
    if re.fullmatch(r"c(\.[\w'\-]+)*", rest):
        return lets + rest
    way = ["both" + ".1" * k + (".0" if k < len(names) - 1 else "") for k in range(len(names))]
    return lets + (" " if lets else "") + f"let both = {rest} in record {{ " + "; ".join(f"{n} = {w}" for n, w in zip(names, way)) + " }"


def tuple_parts(s):
    if not (s.startswith("(") and s.endswith(")")):
        return None
    depth, parts, cur = 0, [], ""
    for k, ch in enumerate(s):
        if ch in "([{":
            depth += 1
            if depth == 1:
                continue
        if ch in ")]}":
            depth -= 1
            if depth == 0:
                if k != len(s) - 1:
                    return None
                continue
        if ch == "," and depth == 1:
            parts.append(cur.strip())
            cur = ""
        else:
            cur += ch
    if cur.strip():
        parts.append(cur.strip())
    return parts if len(parts) > 1 else None


def convert(fn, text):
    fn.odd = []
    head, uses, defs = items(text)
    aliases, helpers, answers, invs, plain = [], [], [], [], []
    spec = None
    for d in defs:
        t = d["type"]
        if "statement M" in t or re.search(r"-spec$|_spec$", d["name"]) and "tie.spec" in " ".join(d["eqs"]):
            spec = d
        elif re.match(r"tie\.(invariant|decreases)-", t):
            invs.append(d)
        elif re.match(r"tie\.Need-", t):
            answers.append(d)
        elif re.match(r"(\([^()]*: )?tie\.", t) and re.search(r"→\s*tie\.[A-Z][^→]*$", t):
            aliases.append(d["name"])
        elif "tie." in t:
            helpers.append(d)
        elif any("tie." in e for e in d["eqs"]):
            raise Odd("definition " + d["name"])
        else:
            plain.append(d)
    # arguments of tie.spec
    named = {}
    if spec:
        e = spec["eqs"][0]
        m = re.search(r"tie\.spec\s*(.*)$", e, re.S)
        args = m.group(1) if m else ""
        # drop the closing bracket of tie.close (
        depth, out = 0, ""
        for ch in args:
            if ch == "(":
                depth += 1
            if ch == ")":
                if depth == 0:
                    break
                depth -= 1
            out += ch
        args = split_top(out)
        n_inv = len([a for a in args if re.match(r"(invariant|decreases)-", a)])
        rest = args[n_inv:]
        if len(rest) == len(fn.needs_list):
            for a, n in zip(rest, fn.needs_list):
                if a.startswith("(") and not is_search(a) and not re.fullmatch(r"\(?λ[^.]*\.\s*omega arith\)?", a):
                    m = re.fullmatch(r"\(λ\s+([^.]*)\.\s*(.*)\)", a, re.S)
                    if m:
                        answers.append({"comment": [], "name": n, "type": "tie.Need-" + n, "unfolding": [], "eqs": [f"{n} {m.group(1)} = {m.group(2)}"], "need": n})
                elif not a.startswith("("):
                    named[a] = n
        else:
            fn.odd.append(f"{len(rest)} arguments for {len(fn.needs_list)} goals")
    keep_uses = [u for u in uses if not re.search(r"\.Statement\.\{statement\}|\.Tie as tie", u)]
    own = f"Rattle.{fn.crate}.proofs.{fn.path}"
    done = {}

    # invariants and measures
    inv_text = ""
    plain_text = ""
    for d in plain:
        plain_text += "\n".join(d["comment"]) + ("\n" if d["comment"] else "")
        plain_text += "".join(f + " " for f in d["flags"]) + f"{d['name']} : {d['type']}\n"
        if d["unfolding"]:
            plain_text += "unfolding " + " ".join(d["unfolding"]) + "\n"
        plain_text += "\n".join(d["eqs"]) + "\n\n"
    loops = {norm(o): (n, vs, ch) for ((o, n), vs), ch in zip(fn.d["loops"], fn.d["changed"])}
    for d in invs:
        m = re.match(r"(invariant|decreases)-(.*)", d["name"])
        kind, loop = m.group(1), norm(m.group(2))
        tm = re.match(r"tie\.(invariant|decreases)-(\S+)", d["type"])
        loop = norm(tm.group(2))
        if loop not in loops:
            raise Odd(f"no loop {loop}")
        new, vs, ch = loops[loop]
        e = d["eqs"][0]
        lhs, body = e.split("=", 1)
        ps = lhs.split()[1:]
        to = [("l.initial." + v if c else "l." + v) for v, c in zip(vs, ch)] + ["l." + v for v, c in zip(vs, ch) if c]
        if len(ps) != len(to):
            raise Odd(f"{d['name']} has {len(ps)} parameters for {len(to)}: {' '.join(ps)} / {' '.join(to)}")
        for p, q in zip(ps, to):
            if p != "_":
                body = re.sub(word(p).pattern, "\0" + q.replace("l.", "\1", 1) + "\2", body)
        body = body.replace("\0\1", "l.").replace("\2", "")
        name = f"{kind}-{new}"
        inv_text += ("\n".join(d["comment"]) + "\n" if d["comment"] else "")
        inv_text += f"abbrev pub {name} : goal.{name}\n"
        if d["unfolding"]:
            inv_text += "unfolding " + " ".join(d["unfolding"]) + "\n"
        inv_text += f"{name} l ={body.rstrip()}\n\n"

    def body_of(b):
        return fn.paths(erase(b, aliases, {"c"}))

    # helpers become lets
    hs = {}
    for h in helpers:
        if len(h["eqs"]) != 1:
            raise Odd("helper " + h["name"])
        lhs, rhs = h["eqs"][0].split("=", 1)
        params = lhs.split()[1:]
        t = h["type"]
        m = re.match(r"\((\S+) : tie\.[^()]*?\)\s*→\s*(.*)$", t, re.S)
        m2 = re.match(r"tie\.[^→]*→\s*(.*)$", t, re.S)
        if m:
            v, ty = m.group(1), m.group(2)
        elif m2:
            v, ty = None, m2.group(1)
        else:
            raise Odd("helper " + h["name"] + " : " + t[:60])
        if "tie." in ty:
            raise Odd("helper of two places " + h["name"])
        if v and v != "c":
            ty = re.sub(word(v).pattern, "c", ty)
        if params and params[0] != "c":
            rhs = re.sub(word(params[0]).pattern, "c", rhs)
        rest = params[1:]
        rhs = rhs.strip()
        if rest:
            rhs = "λ " + " ".join(rest) + ". " + rhs
        hs[h["name"]] = (ty.strip(), rhs, h["unfolding"])

    def with_lets(body, unf):
        used = []

        def need(b):
            for n, (ty, rhs, u) in hs.items():
                if word(n).search(b) and n not in used:
                    need(ty + " " + rhs)
                    if n not in used:
                        used.append(n)
                        for x in u:
                            if x not in unf:
                                unf.append(x)

        need(body)
        lets = ""
        for n in used:
            ty, rhs, u = hs[n]
            lets += f"let {n} : {ty} = {rhs} in\n    "
        b = lets + body
        b = erase(b, aliases, {"c"})
        for n in used:
            b = re.sub(r"\(" + word(n).pattern + r"\s+c\)", n, b)
            b = re.sub(word(n).pattern + r"\s+c(?![\w'\-₀-₉.])", n, b)
        return b

    ans_text = ""
    for d in answers:
        if not d["eqs"]:
            raise Odd("no equation for " + d["name"])
        need = d.get("need") or named.get(d["name"])
        if not need:
            label = re.match(r"tie\.Need-(\S+)", d["type"]).group(1)
            need = fn.needs.get(norm(label))
            if not need:
                if norm(label) in [norm(x) for x in fn.d["settled"]]:
                    continue
                fn.odd.append("no goal " + label)
                continue
        if need in fn.d["settled"]:
            continue
        if len(d["eqs"]) != 1:
            raise Odd("several equations for " + d["name"])
        lhs, rhs = d["eqs"][0].split("=", 1)
        ps = lhs.split()[1:]
        if rhs.strip() == "search rules":
            continue
        if "κs" in ps:
            ps.remove("κs")
        if ps and ps[0] != "c":
            rhs = re.sub(word(ps[0]).pattern, "c", rhs)
            ps[0] = "c"
        unf = list(d["unfolding"])
        rhs = with_lets(rhs.strip(), unf)
        rhs = fn.paths(rhs)
        rhs = re.sub(r"\bκs\b", "_", rhs)
        asked = fn.d["asked"].get(need)
        if asked:
            rhs = as_record(rhs.strip(), asked)
        ans_text += ("\n".join(d["comment"]) + "\n" if d["comment"] else "")
        ans_text += f"pub {need} : goal.{need}\n"
        if unf:
            ans_text += "unfolding " + " ".join(unf) + "\n"
        ans_text += f"{need} {' '.join(ps)} = {rhs.strip()}\n\n"
    headtext = "\n".join(head) + "\n" if head else ""
    out = {}
    if inv_text:
        out["Invariants.antt"] = headtext + "\n".join(keep_uses) + f"\nuse {own}.Given as goal\n\n" + plain_text + inv_text.rstrip() + "\n"
    if ans_text:
        out["Answers.antt"] = headtext + "\n".join(keep_uses) + f"\nuse {own}.Goals as goal\n\n" + plain_text + ans_text.rstrip() + "\n"
    return out, fn.odd


def mutables(root):
    """For each function, as the check names it, its parameters that are `&mut` of a slice."""
    out = {}
    base = os.path.join(root, "crates")
    for c in os.listdir(base):
        src = os.path.join(base, c, "src")
        for folder, _, files in os.walk(src):
            for f in files:
                if not f.endswith(".rt"):
                    continue
                mod = os.path.relpath(os.path.join(folder, f), src)[:-3].replace("/", "::")
                pre = c if mod in ("lib", "main") else f"{c}::{mod}"
                t = open(os.path.join(folder, f), encoding="utf-8").read()
                for m in re.finditer(r"\bfn (\w+)(?:<[^>]*>)?\s*\(([^)]*)\)", t):
                    ps = []
                    for p in re.split(r",\s*", m.group(2)):
                        pm = re.match(r"\s*(?:mut )?(\w+)\s*:\s*&(?:'\w+ )?mut \[", p)
                        if pm:
                            ps.append(pm.group(1))
                    out[f"{pre}::{m.group(1)}"] = ps
    return out


def main(argv):
    if not argv:
        print(__doc__)
        return 2
    crate, only = argv[0], argv[1:]
    root = os.getcwd()
    where = os.path.join(root, "crates", crate)
    with tempfile.TemporaryDirectory() as tmp:
        r = subprocess.run(["rt", "check", "--generated", tmp + "/n", "--old-names"], cwd=where, capture_output=True, text=True)
        p = tmp + "/n/names.json"
        if not os.path.exists(p):
            print(r.stdout[-1500:], r.stderr[-500:])
            return 1
        with open(p) as f:
            names = json.load(f)
    muts = mutables(root)
    turned = kept = 0
    for folder, _, files in sorted(os.walk(os.path.join(where, "proofs"))):
        if "Proof.antt" not in files:
            continue
        path = os.path.relpath(folder, os.path.join(where, "proofs")).replace("/", ".")
        if only and path not in only:
            continue
        key = f"Rattle-{crate}-proofs.{path}.Lts"
        data = names.get(key)
        old = os.path.join(folder, "Proof.antt")
        if not data or "needs" not in data:
            print(f"{path}: no names ({[k for k in names if path in k][:3]})")
            kept += 1
            continue
        with open(old, encoding="utf-8") as f:
            text = f.read()
        try:
            out, odd = convert(Fn(crate, path, data, muts), text)
        except Odd as e:
            print(f"{path}: left as it is: {e}")
            kept += 1
            continue
        os.remove(old)
        for name, t in out.items():
            with open(os.path.join(folder, name), "w", encoding="utf-8") as f:
                f.write(t)
        if not os.listdir(folder):
            os.rmdir(folder)
        turned += 1
        for o in odd:
            print(f"{path}: look: {o}")
    print(f"answers: {turned} turned, {kept} left")
    return 0


if __name__ == "__main__":
    raise SystemExit(main(sys.argv[1:]))
