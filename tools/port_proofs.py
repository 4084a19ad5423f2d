#!/usr/bin/env python3
"""Turns proofs that go through `Tie` (the older form, with `c.before.before.args`) into Invariants.antt and Answers.antt.

usage: python3 tools/port_proofs.py NAMES.json CRATE [FUNCTION-PATH ..]    at the top

NAMES.json is what 'rt check --generated DIR --old-names', run in crates/CRATE, writes into DIR.
Each crates/CRATE/proofs/F/Proof.antt with a line 'Tie as tie' is replaced by proofs/F/Invariants.antt (invariants and measures)
and proofs/F/Answers.antt (answers to goals). Answers that only call a tactic are left out, since the check tries these itself.
What it can't place it leaves as it is and says so: 'look: FILE: ..'.
"""

import glob
import json
import os
import re
import sys

PLAIN = re.compile(r"^\(?\s*(omega arith|search rules|tt|refl|omega \(arith,? *\)|grind arith)\s*\)?$")
SIG = re.compile(r"^((?:abbrev |unfoldable )?(?:pub )?)([^\s:(){}]+) :(?=\s)")


def norm(s):
    s = s.replace("-", "_")
    s = re.sub(r"_lem$", "", s)
    return re.sub(r"_+", "_", s).lower()


def blocks(text):
    """The header's comments, the use lines, and the items: (comment, kind, name, signature text, body text)."""
    lines = text.split("\n")
    items, uses, comment, cur = [], [], [], None
    head = []
    i = 0
    while i < len(lines):
        line = lines[i]
        if line.startswith("use ") or line.startswith("pub use "):
            while line.count("{") > line.count("}"):
                i += 1
                line += "\n" + lines[i]
            uses.append(line)
            if comment and not head:
                head = comment
                comment = []
            cur = None
        elif line.startswith("--"):
            comment.append(line)
            cur = None
        elif SIG.match(line) and (cur is None or not line.startswith(" ")):
            m = SIG.match(line)
            cur = {"comment": comment, "mark": m.group(1), "name": m.group(2), "lines": [line]}
            comment = []
            items.append(cur)
        elif not line.strip():
            if cur is not None:
                cur["lines"].append(line)
        elif cur is not None:
            cur["lines"].append(line)
        else:
            items.append({"comment": comment, "mark": "", "name": None, "lines": [line]})
            comment = []
            cur = items[-1]
        i += 1
    return head, uses, items


class Function:
    def __init__(self, data, said):
        self.places = {}
        self.parent = {}
        self.step = {}
        for p in data["places"]:
            name, parent, step = p[0], p[1], p[2]
            self.places[name] = p
            self.parent[name] = parent
            self.step[name] = step
        self.by_new = dict(zip([p[0] for p in data["places"]], data["places_by_name"]))
        self.arms = dict(zip([p[0] for p in data["places"]], data["arms"]))
        self.needs = data["needs"]
        self.asked = data["asked"]
        self.pre = (data["pre"] or {}).get("fields", [])
        # the names of what a call ensures, and of the buffers that it is lent, by the step's name
        self.ensured, self.lent = {}, {}
        for p, cl in zip(data["places"], data["clauses"]):
            if cl and len(cl["fields"]) > 1:
                self.ensured[p[2][1]] = cl["fields"]
            if p[3]:
                self.lent[p[2][1]] = LENT.get(p[3], [])
        self.asked_at = data["asked_at"]
        self.loops = data["loops"]
        self.changed = data["changed"]
        self.settled = set(data["settled"])
        self.said = said
        # a receiver and other parameters had numbers for names: '.args .t1' is '.args .self'
        self.renamed = {a.split(".")[-1].strip(): b.split(".")[-1].strip() for a, b in data["args"] if a.startswith((".args", ".ranges"))}

    def chain(self, place):
        out = []
        while place is not None:
            out.append(place)
            place = self.parent[place]
        return out

    def up(self, place, n):
        for _ in range(n):
            if place is None:
                return None
            place = self.parent.get(place)
        return place

    def arm(self, place, words):
        """`h.given.1` behind an arm of a match is `in-Number.is` now: the new path, and what follows it."""
        p = place
        while p is not None:
            arm = self.arms.get(p)
            if arm:
                for field, step, path in arm[2]:
                    if path and norm(step) == norm(words[0]) and words[1 : 1 + len(path)] == path:
                        return f"{arm[0]}.{field}", words[1 + len(path) :]
            p = self.parent[p]
        bare = re.sub(r"\d+$", "", norm(words[0]))
        arm = self.arms.get(place)
        if arm:
            for field, step, path in arm[2]:
                if path and re.sub(r"\d+$", "", norm(step)) == bare and words[1 : 1 + len(path)] == path:
                    return f"{arm[0]}.{field}", words[1 + len(path) :]
        return None

    def new_step(self, place, word, goal):
        """The new name of the step that `word` names at `place`, on the way to the goal's place `goal`."""
        if word in ("args", "requires", "ranges", "type-inv", "well-formed", "clauses", "signature", "utf8"):
            return {"well-formed": "type_inv", "type-inv": "type_inv"}.get(word, word)
        chain = self.chain(goal)
        at = chain.index(place) if place in chain else len(chain) - 1
        bare = re.sub(r"\d+$", "", norm(word))
        old, new = self.step[chain[at]]
        if old and re.sub(r"\d+$", "", norm(old)) == bare:
            return new
        best = None
        for test in (norm, lambda x: re.sub(r"\d+$", "", norm(x))):
            for i, p in enumerate(chain):
                old, new = self.step[p]
                if old and test(old) == test(word) and (best is None or abs(i - at) < best[0]):
                    best = (abs(i - at), new)
            if best:
                return best[1]
        return None


LENT = {}


def lent_parameters(root):
    """The parameters of each function of the repository that are lent to be written, by its path."""
    for path in sorted(glob.glob("crates/*/src/**/*.rt", recursive=True)):
        parts = path.split("/")
        crate, rest = parts[1], "/".join(parts[3:])[: -len(".rt")]
        module = [] if rest in ("lib", "main") else rest.split("/")
        with open(path, encoding="utf-8") as f:
            text = f.read()
        for m in re.finditer(r"^(impl(?:<[^>]*>)? (\w+)[^\n]*\{)|^( *)(?:pub(?:\(\w+\))? )?(?:unsafe )?(?:extern \"C\" )?fn (\w+)(?:<[^>]*>)?\(([^)]*)\)", text, re.M):
            if m.group(1):
                kind = m.group(2)
                continue
            owner = [kind] if m.group(3) else []
            names = [n for n, t in re.findall(r"(?:mut )?(\w+): (&(?:'\w+ )?mut)", m.group(5))]
            if "&mut self" in m.group(5):
                names.insert(0, "self")
            LENT["::".join([crate] + module + owner + [m.group(4)])] = names


def parts_of(text):
    """The parts of a tuple in parentheses."""
    parts, depth, cur = [], 0, ""
    for ch in text[1:-1]:
        depth += ch in "({["
        depth -= ch in ")}]"
        if ch == "," and depth == 0:
            parts.append(cur)
            cur = ""
        else:
            cur += ch
        if depth < 0:
            return []
    if cur.strip():
        parts.append(cur)
    return [p.strip() for p in parts]


def by_name(body, fn, new, old):
    """What had a number among several clauses has a name now."""
    paths = {}
    if len(fn.pre) > 1:
        paths["c.requires"] = fn.pre
    for step, fields in fn.ensured.items():
        paths[f"c.{step}.ensures"] = fields
    for step, names in fn.lent.items():
        if names:
            paths[f"c.{step}.new"] = names
    for x, p in re.findall(r"let (" + NAME + r") = (c(?:\.[^\s(){}\[\],;.@\"]+)+) in", body):
        for full, fields in list(paths.items()):
            if full == p:
                paths[x] = fields
            elif full.startswith(p + "."):
                paths[x + full[len(p) :]] = fields
    def walk(full, fields, closed):
        """`.1.0` of clauses that stood one in the other is the second of them; a list that is closed ends in a unit."""
        def one(m):
            digits = m.group(1)[1:].split(".")
            i = 0
            while digits and i < len(fields):
                last = i == len(fields) - 1
                if last and not closed:
                    break
                d = digits.pop(0)
                if d == "0":
                    return ".".join([full + "." + fields[i]] + digits)
                i += 1
            if i < len(fields) and i == len(fields) - 1 and not closed:
                return ".".join([full + "." + fields[i]] + digits)
            return "(" + ", ".join(full + "." + f for f in fields[i:]) + ")" if i < len(fields) else m.group(0)

        return one

    for full, fields in sorted(paths.items(), key=lambda it: -len(it[0])):
        closed = full.endswith(".new")
        body = re.sub(r"(?<![\w.'-])" + re.escape(full) + r"((?:\.\d+)+)(?![\w'-])", walk(full, fields, closed), body)
    fields = fn.asked.get(new) or fn.asked.get(old)
    if fields and len(fields) > 1 and body.rstrip().endswith(")"):
        end = len(body.rstrip())
        depth = 0
        for i in range(end - 1, -1, -1):
            depth += body[i] in ")}]"
            depth -= body[i] in "({["
            if depth == 0:
                break
        before = body[:i].rstrip()
        if body[i] == "(" and (not before or before.endswith(" in") or before.endswith("\nin")):
            parts = parts_of(body[i:end])
            while 1 < len(parts) < len(fields) and parts[-1].startswith("(") and len(parts_of(parts[-1])) > 1:
                parts[-1:] = parts_of(parts[-1])
            if len(parts) == len(fields):
                body = body[:i] + "record {\n" + ";\n".join(f"      {f} = {q.strip()}" for f, q in zip(fields, parts)) + ";\n    }"
    return body


NAME = r"[^\s(){}\[\],;.@\"]+"


def underscored(rest):
    """`.max-len.0` behind a step: names of the source have underscores."""
    parts = rest.split(".")
    out = []
    for q in parts:
        q = re.sub(r"₀$", "", q)
        out.append(q.replace("-", "_") if re.match(r"[a-z]", q) else q)
    return ".".join(out)


def turn_body(body, fn, place, binder, said, where):
    alias = {binder: place}
    goal = place
    # let X = alias(.before)* in
    pattern = re.compile(r"let (" + NAME + r") = (" + NAME + r")((?:\.before)*) in\s*")
    again = True
    while again:
        again = False
        for m in pattern.finditer(body):
            if m.group(2) in alias:
                alias[m.group(1)] = fn.up(alias[m.group(2)], m.group(3).count(".before")) or "Start"
                body = body[: m.start()] + body[m.end() :]
                again = True
                break
    # let X = c.before.x.given in: what an arm gives is named by its parts now
    given = re.compile(r"let (" + NAME + r") = (" + NAME + r"(?:\.before)*\.[^\s(){}\[\],;.@\"]+\.given(?:\.\d)*) in\s*")
    while True:
        m = given.search(body)
        if not m:
            break
        body = body[: m.start()] + body[m.end() :]
        body = re.sub(r"(?<![\w.'-])" + re.escape(m.group(1)) + r"(?![\w'-])", lambda _: m.group(2), body)
    names = "|".join(re.escape(a) for a in sorted(alias, key=len, reverse=True))
    path = re.compile(r"(?<![\w.'-])(" + names + r")((?:\.before)*)((?:\.[^\s(){}\[\],;.@\"]+)*)(?![\w'-])")

    def one(m):
        place = fn.up(alias[m.group(1)], m.group(2).count(".before"))
        rest = m.group(3)
        if not rest:
            if m.group(2) or m.group(1) != binder:
                return binder
            return binder
        words = rest[1:].split(".")
        word = words[0]
        arm = fn.arm(place or "Start", words)
        if arm:
            return ".".join([binder, arm[0]] + ([underscored(".".join(arm[1]))] if arm[1] else []))
        step = fn.new_step(place or "Start", word, goal)
        if step is None:
            said.append(f"look: {where}: no step {word} at {place}")
            step = word
        if step in ("args", "ranges", "type_inv") and len(words) > 1:
            words[1] = fn.renamed.get(words[1], words[1])
        more = "." + underscored(".".join(words[1:])) if len(words) > 1 else ""
        return f"{binder}.{step}{more}"

    body = path.sub(one, body)
    for x in set(re.findall(r"let (" + NAME + r") = c\.", body)):
        body = re.sub(r"(?<![\w.'-])" + re.escape(x) + r"((?:\.[^\s(){}\[\],;.@\"]+)+)", lambda m: x + underscored(m.group(1)), body)
    return body


def turn_loop(item, fn, index, said, where):
    """The body of an invariant or a measure, over the record l."""
    (old, new), names = fn.loops[index]
    changed = fn.changed[index]
    text = "\n".join(item["lines"][1:])
    m = re.match(r"\s*(?:unfolding [^\n]*\n)?" + re.escape(item["name"]) + r"((?:\s+" + NAME + r")*?)\s*=\s", text)
    if not m:
        said.append(f"look: {where}: an invariant that is not read: {item['name']}")
        return text
    params = m.group(1).split()
    body = text[m.end() :].rstrip()
    want = [f"l.initial.{v}" if ch else f"l.{v}" for v, ch in zip(names, changed)] + [f"l.{v}" for v, ch in zip(names, changed) if ch]
    if len(params) != len(want):
        said.append(f"look: {where}: {item['name']} takes {len(params)} parameters, and {len(want)} are known: {params} {want}")
    table = {}
    for p, w in zip(params, want):
        if p != "_":
            table[p] = w
    token = re.compile(r"(?<![\w.'₀-₉-])(" + "|".join(re.escape(p) for p in sorted(table, key=len, reverse=True)) + r")(?![\w'₀-₉-])") if table else None
    if token:
        body = token.sub(lambda k: table[k.group(1)], body)
    return body


def used(name, text):
    if "◌" in name:
        return all(part.strip() in text for part in re.split("◌", name) if part.strip())
    return re.search(r"(?<![\w'-])" + re.escape(name) + r"(?![\w'-])", text) is not None


def without_not(body, source):
    """A test of `!f(x)` says now what the other outcome of a test of `f(x)` says; one of a field `!x.f` is as it was."""
    fields = set(re.findall(r"!(\w+)\.\w+\b(?!\()", source))

    def one(m):
        path = m.group(m.lastindex)
        step = re.search(r"if-not-([\w-]+)", path)
        if not step:
            bound = re.search(r"let " + re.escape(path.split(".")[0]) + r" = c\.if-not-([\w-]+) in", body)
            step = bound
        if step and step.group(1) in fields:
            return m.group(0)
        return path

    body = re.sub(r"\(not-(?:true|false) _ ([^\s(){},]+)\)", one, body)
    return re.sub(r"(?<!\()\bnot-(?:true|false) _ ([^\s(){},]+)", one, body)


def uses_for(uses, text):
    out = []
    for u in uses:
        if re.search(r"\.(Statement\.\{statement\}|Tie as tie)", u):
            continue
        m = re.match(r"((?:pub )?use [^\s{]+?)\.\{([^}]*)\}$", u, re.S)
        if not m:
            name = u.split(" as ")[-1].strip() if " as " in u else u.split(".")[-1]
            if used(name, text):
                out.append(u)
            continue
        keep = []
        for n in [x.strip() for x in m.group(2).split(",") if x.strip()]:
            shown = n.split(" as ")[-1].strip()
            if used(shown, text):
                keep.append(n)
        if keep:
            out.append(m.group(1) + ".{" + ", ".join(keep) + "}")
    return out


def convert(path, data, crate, sub, said):
    where = path
    with open(path, encoding="utf-8") as f:
        head, uses, items = blocks(f.read())
    source = ""
    names = sub.split(".")
    for n in range(len(names) - 1, 0, -1):
        q = "/".join(["crates", crate, "src"] + names[:n]) + ".rt"
        if os.path.exists(q):
            with open(q, encoding="utf-8") as f:
                source = f.read()
            break
    fn = Function(data, said)
    spec = re.search(r"tie\.spec\b(.*)", "\n".join("\n".join(i["lines"]) for i in items if i["name"] and i["name"].endswith("-spec") or i["name"] and i["name"].endswith("_spec")), re.S)
    by_norm = {}
    for k, (old, new) in enumerate(fn.needs):
        by_norm.setdefault(norm(old), k)
    needs_of = []
    for it in items:
        m = re.search(r"tie\.Need-(" + NAME + r")", it["lines"][0] if it["lines"] else "")
        if not m:
            m = re.search(r":\s*tie\.Need-(" + NAME + r")", "\n".join(it["lines"]))
        it["need"] = m.group(1) if m else None
    order = [it["need"] for it in items if it["need"]]
    positional = len(order) == len(fn.needs)
    place_of = {}
    if spec:
        called = [w for w in re.findall(r"[^\s(){}\[\],;]+", spec.group(1))]
        mine = {it["name"] for it in items if it["need"]}
        called = [w for w in called if w in mine]
        place_of = {w: n for n, w in enumerate(called)}
        positional = positional and len(called) == len(order)
    if not positional:
        said.append(f"note: {where}: {len(order)} goals were answered, {len(fn.needs)} are known")
    inv, ans, k = [], [], -1
    kept_plain = 0
    for it in items:
        text = "\n".join(it["lines"]).rstrip()
        name = it["name"]
        m = re.search(r":\s*tie\.(invariant|decreases)-(" + NAME + r")", text)
        if name and m:
            kind, loop = m.group(1), m.group(2)
            index = next((i for i, ((old, new), _) in enumerate(fn.loops) if norm(old) == norm(loop)), None)
            if index is None:
                said.append(f"look: {where}: no loop {loop}")
                continue
            new = fn.loops[index][0][1]
            body = turn_loop(it, fn, index, said, where)
            inv.append((it["comment"], f"abbrev pub {kind}-{new} : goal.{kind}-{new}\n{kind}-{new} l =" + (" " + body if "\n" not in body and len(body) < 90 else "\n    " + body.lstrip())))
            continue
        if it["need"]:
            k += 1
            old = it["need"]
            i = None
            if positional:
                i = place_of[name]
            else:
                cands = [norm(old), norm(re.sub(r"^(overflow|nonzero)-", "", old)), norm(re.sub(r"^slice-bounds-", "part-", old)), norm(re.sub(r"^slice-bounds-", "", old))]
                i = next((by_norm[c] for c in cands if c in by_norm), None)
            if i is None:
                said.append(f"look: {where}: no goal for {old}")
                ans.append((it["comment"], "-- (no goal found) " + text.replace("\n", "\n-- ")))
                continue
            new = fn.needs[i][1]
            place = fn.asked_at[i][0]
            rest = it["lines"][1:]
            lead = ""
            # skip the rest of a signature of several lines
            while rest and not re.match(re.escape(name) + r"(\s|$)", rest[0]):
                if rest[0].startswith("unfolding"):
                    lead += rest[0] + "\n"
                rest = rest[1:]
            body = "\n".join(rest).rstrip()
            m = re.match(re.escape(name) + r"((?:\s+(?!=)" + NAME + r")*)\s*=\s+", body)
            if not m:
                said.append(f"look: {where}: an answer that is not read: {name}")
                ans.append((it["comment"], text))
                continue
            params = [q for q in m.group(1).split() if q != "κs"]
            binder = params[0] if params else "c"
            body = body[m.end() :]
            if PLAIN.match(re.sub(r"\s+", " ", body).strip()) and not lead:
                kept_plain += 1
                continue
            if "well-formed" in body and re.match(r"\s*(let .*? in\s*)*omega", body, re.S):
                kept_plain += 1
                continue
            body = turn_body(body, fn, place, binder, said, f"{where} {name}")
            body = body.strip()
            if new.startswith("shape_of") and re.match(r"c\.[^\s]+\.auto\.\d+$", body):
                kept_plain += 1
                continue
            if PLAIN.match(re.sub(r"\s+", " ", body).strip()) and not lead:
                kept_plain += 1
                continue
            for a, b in fn.renamed.items():
                body = re.sub(r"(?<![\w'-])(\w[\w-]*)\." + re.escape(a) + r"(?![\w'-])", r"\1." + b, body)
            body = by_name(body, fn, new, fn.needs[i][0])
            body = without_not(body, source)
            one = "\n" not in body and len(new) + len(body) < 100
            ans.append((it["comment"], f"pub {new} : goal.{new}\n{lead}{new} {binder} =" + (" " + body if one else "\n    " + body)))
            continue
        if name and (name.endswith("-spec") or name.endswith("_spec")) and "statement" in text:
            continue
        # an item of the file's own
        if "tie." in text:
            said.append(f"look: {where}: {name} speaks of a place: mend by hand")
        ans.append((it["comment"], text))
    folder = os.path.dirname(path)
    goal = f"use Rattle.{crate}.proofs.{sub}"
    wrote = []
    own = [t for _, t in ans if not t.startswith("pub ")]
    inv_text = "\n\n".join(t for _, t in inv)
    # an item of the file's own that an invariant uses stands beside it
    moved = []
    for pair in list(ans):
        m = SIG.match(pair[1])
        if m and "goal." not in pair[1] and used(m.group(2), inv_text):
            moved.append(pair)
            ans.remove(pair)
            text = pair[1] if pair[1].startswith("abbrev") or pair[1].startswith("pub") else pair[1]
            inv_text += "\n" + text
    if inv:
        texts = []
        for c, t in moved + inv:
            t2 = re.sub(r"^abbrev (?!pub)", "abbrev pub ", t)
            texts.append("\n".join(c + [t2]) if c else t2)
        body = "\n\n".join(texts)
        lines = head + uses_for(uses, body) + [goal + ".Given as goal", ""]
        with open(os.path.join(folder, "Invariants.antt"), "w", encoding="utf-8") as f:
            f.write("\n".join(lines) + "\n" + body + "\n")
        wrote.append("Invariants")
    if ans:
        texts = ["\n".join(c + [t]) if c else t for c, t in ans]
        body = "\n\n".join(texts)
        extra = []
        if moved:
            names = [SIG.match(t).group(2) for _, t in moved]
            names = [n for n in names if used(n, body)]
            if names:
                extra = [goal + ".Invariants.{" + ", ".join(names) + "}"]
        lines = ([] if inv else head) + uses_for(uses, body) + extra + [goal + ".Goals as goal", ""]
        with open(os.path.join(folder, "Answers.antt"), "w", encoding="utf-8") as f:
            f.write("\n".join(lines) + "\n" + body + "\n")
        wrote.append("Answers")
    os.remove(path)
    return wrote, len(ans), kept_plain


def main():
    names, crate, only = sys.argv[1], sys.argv[2], sys.argv[3:]
    with open(names, encoding="utf-8") as f:
        data = json.load(f)
    said = []
    lent_parameters(".")
    total = [0, 0, 0]
    root = f"crates/{crate}/proofs"
    for folder, _, files in sorted(os.walk(root)):
        if "Proof.antt" not in files:
            continue
        path = os.path.join(folder, "Proof.antt")
        with open(path, encoding="utf-8") as f:
            if "Tie as tie" not in f.read():
                said.append(f"look: {path}: a walk by hand, left as it is")
                continue
        sub = os.path.relpath(folder, root).replace("/", ".")
        if only and sub not in only:
            continue
        key = f"Rattle-{crate}-proofs.{sub}.Lts"
        if key not in data:
            said.append(f"look: {path}: {key} is not among the names")
            continue
        wrote, n, plain = convert(path, data[key], crate, sub, said)
        total[0] += 1
        total[1] += n
        total[2] += plain
    for s in said:
        print(s)
    print(f"{total[0]} proofs, {total[1]} answers kept, {total[2]} left to the check")


if __name__ == "__main__":
    main()
