#!/usr/bin/env python3
"""Turns proof files that walk the code by the older kit's names (Proof.antt over Tie) into Invariants.antt and Answers.antt.

usage: rt names NAMES; answers.py NAMES CRATE..      at the top of the repository

NAMES is the folder that `rt names` wrote: it has each goal's and each step's old and new name. What could not be told is printed, and the check decides.
"""

import json
import os
import re
import sys

W = r"[^\s(){}.;,@\"«»\[\]]+"
DECL = re.compile(r"^((?:abbrev |unfoldable |opaque |pub )*)(%s)((?: \{[^}]*\})*) :(?= |\n|$)(.*)$" % W)
norm = lambda s: re.sub(r"-lem$", "", s.replace("_", "-")).lower()


def clauses(root):
    """path of a function -> (names of its requires, names of its ensures); None for a clause with no name"""
    found = {}
    for crate in sorted(os.listdir(os.path.join(root, "crates"))):
        base = os.path.join(root, "crates", crate, "src")
        for folder, dirs, names in os.walk(base):
            for n in sorted(names):
                if not n.endswith(".rt"):
                    continue
                rel = os.path.relpath(os.path.join(folder, n), base)[:-3].replace("/", "::")
                module = crate if rel in ("lib", "main") else crate + "::" + rel
                owner, fn = "", None
                for line in open(os.path.join(folder, n), encoding="utf-8"):
                    m = re.match(r"^impl(?:<[^>]*>)? ([A-Za-z0-9]+)", line)
                    if m:
                        owner = m.group(1) + "::"
                    if line.startswith("}"):
                        owner = ""
                    m = re.match(r'^\s*(?:pub(?:\([a-z]+\))? )?(?:const )?(?:unsafe )?(?:extern "C" )?fn ([a-z0-9_]+)', line)
                    if m:
                        fn = module + "::" + owner + m.group(1)
                        found[fn] = ([], [])
                        found[fn + "!"] = []
                        signature = True
                    if fn and re.match(r"^\s*\{|.*\{$", line) and "fn " not in line:
                        signature = False
                    if fn:
                        for m in re.finditer(r"(\w+): &mut \[", line):
                            found[fn + "!"].append(m.group(1))
                    m = re.match(r"^\s+(requires|ensures)\*?(?: ([a-z0-9_]+))? \{", line)
                    if m and fn:
                        found[fn][m.group(1) == "ensures"].append(m.group(2))
    return found


def blocks(text):
    out, pending = [], []
    for line in text.split("\n"):
        if DECL.match(line) and not line.startswith("use "):
            if pending and out and not out[-1][0].strip():
                pass
            # comments right above belong to the declaration below
            above = []
            if out:
                while out[-1] and (out[-1][-1].startswith("--")):
                    above.insert(0, out[-1].pop())
            out.append(above + [line])
        elif out:
            out[-1].append(line)
        else:
            out.append([line])
    return out


class Turn:
    def __init__(self, root, crate, rel, names, clause):
        self.root, self.crate, self.rel, self.clause = root, crate, rel, clause
        self.said = []
        self.fn = crate + "::" + rel.replace("/", "::")
        self.it = names.get("Rattle-%s-proofs.%s.Lts" % (crate, rel.replace("/", ".")))
        self.goals = {norm(o): n for o, n in self.it["needs"]}
        self.steps, self.callee = {}, {}
        self.places = {}
        for place in self.it["places"]:
            self.places[place[0]] = place
        self.arms = dict(zip([p[0] for p in self.it["places"]], self.it["arms"]))
        self.facts = {}
        for place in self.it["places"]:
            old, new = place[2]
            if old:
                self.steps.setdefault(norm(old), new)
                if place[3]:
                    self.callee[new] = place[3]
        self.where = {norm(o): at[0] for (o, _), at in zip(self.it["needs"], self.it["asked_at"])}
        self.chain = {}
        self.loops = {norm(l[0][0]): (l[0][1], l[1]) for l in self.it["loops"]}

    def say(self, what):
        self.said.append(what)

    def path(self, segs, contexts):
        """a path from a context variable"""
        head, rest = segs[0], segs[1:]
        if head not in contexts:
            return ".".join(segs)
        rest = [s for s in rest if s != "before"]
        if not rest:
            return "c"
        for n in (4, 3, 2, 1):
            fact = self.facts.get((norm(rest[0]), tuple(rest[1:1 + n])))
            if fact and len(rest) > n:
                return ".".join(["c"] + fact + rest[1 + n:])
        step = self.chain.get(norm(rest[0])) or self.steps.get(norm(rest[0]))
        if step is None and rest[0] not in ("args", "requires", "ranges", "auto", "type-inv", "type_inv"):
            # a step may have its port's name already
            self.say("no step %s" % rest[0])
        new = [step or rest[0]] + rest[1:]
        def named(names, segs):
            """a clause's name for its place: the older kit had three clauses as a pair and a pair behind it"""
            if len(names) < 2 or not names[0]:
                return segs
            k = 0
            while segs and segs[0] in ("0", "1"):
                if segs[0] == "0":
                    return [names[k]] + segs[1:]
                segs = segs[1:]
                k += 1
                if k == len(names) - 1:
                    return [names[k]] + segs
            return ["?"] + segs

        if step and step in self.callee and len(new) > 2 and new[1] == "ensures":
            new[2:] = named(self.clause.get(self.callee[step], ([], []))[1], new[2:])
        if step and step in self.callee and len(new) > 2 and new[1] == "auto" and new[2] == "0":
            out = self.clause.get(self.callee[step] + "!", [])
            if out:
                new[2] = out[0]
        if new[0] == "requires" and len(new) > 1:
            new[1:] = named(self.clause.get(self.fn, ([], []))[0], new[1:])
        return ".".join(["c"] + new)

    def expression(self, text):
        contexts = {"c"}
        let = re.compile(r"let (%s) = (%s(?:\.%s)*) in" % (W, W, W))

        # aliases of contexts go
        def drop(m):
            segs = m.group(2).split(".")
            if segs[0] in contexts and all(s == "before" for s in segs[1:]):
                contexts.add(m.group(1))
                return "\0"
            return m.group(0)

        while True:
            new = let.sub(drop, text)
            if new == text:
                break
            text = new
        text = re.sub(r"[ ]*\0\n?[ ]*", " ", text) if "\0" in text else text
        text = re.sub(r"%s(?:\.%s)+|(?<![^\s(,])%s(?![^\s),;])" % (W, W, W), lambda m: self.path(m.group(0).split("."), contexts), text)
        return text

    def tuple_to_record(self, text, names):
        """the last tuple of a body, of as many parts as there are clauses"""
        body = text.rstrip()
        if not body.endswith(")"):
            return None
        depth, i = 0, len(body) - 1
        while i >= 0:
            depth += {")": 1, "]": 1, "}": 1, "(": -1, "[": -1, "{": -1}.get(body[i], 0)
            if depth == 0:
                break
            i -= 1
        inner, parts, depth, last = body[i + 1:-1], [], 0, 0
        for j, ch in enumerate(inner):
            depth += {"(": 1, "[": 1, "{": 1, ")": -1, "]": -1, "}": -1}.get(ch, 0)
            if ch == "," and depth == 0:
                parts.append(inner[last:j])
                last = j + 1
        parts.append(inner[last:])
        # a pair of a pair is three
        while len(parts) < len(names) and parts[-1].strip().startswith("(") and parts[-1].strip().endswith(")"):
            more, depth, last = [], 0, 0
            tail = parts[-1].strip()[1:-1]
            for j, ch in enumerate(tail):
                depth += {"(": 1, "[": 1, "{": 1, ")": -1, "]": -1, "}": -1}.get(ch, 0)
                if ch == "," and depth == 0:
                    more.append(tail[last:j])
                    last = j + 1
            more.append(tail[last:])
            if len(more) < 2:
                break
            parts[-1:] = more
        if len(parts) != len(names):
            return None
        if i and not re.search(r"(=|\bin|^)\s*$", body[:i]):
            return None
        return body[:i] + "record { " + " ".join("%s = %s;" % (n, p.strip()) for n, p in zip(names, parts)) + " }"

    def turn(self):
        path = os.path.join(self.root, "crates", self.crate, "proofs", self.rel, "Proof.antt")
        text = open(path, encoding="utf-8").read()
        if "proofs.%s.Tie as tie" % self.rel.replace("/", ".") not in text:
            print("%s: no walk by Tie: left" % self.fn)
            return
        bs = blocks(text)
        head = [l for l in bs[0] if l.startswith("--")]
        uses = [l for l in bs[0] if l.startswith("use ")]
        answers, invariants, helpers, helper_names = [], [], [], []
        for b in bs[1:]:
            comments = [l for l in b if l.startswith("--") and b.index(l) < 3]
            k = next(i for i, l in enumerate(b) if DECL.match(l))
            marks, name, implicit, type_ = DECL.match(b[k]).groups()
            body = "\n".join(b[k + 1:]).rstrip()
            whole_type = type_
            while not re.search(r"\S", whole_type) or (body and re.match(r"^\s+\S", body) and not re.match(r"^\S", body.split("\n")[0])):
                first, _, body = body.partition("\n")
                whole_type += " " + first.strip()
            m = re.match(r"\s*tie\.(invariant|decreases)-(\S+)", whole_type)
            if m:
                self.invariant(m.group(1), m.group(2), name, body, comments, invariants)
                continue
            m = re.match(r"\s*tie\.Need-(\S+)", whole_type)
            if m:
                self.answer(m.group(1), name, body, comments, answers)
                continue
            if re.search(r"\bstatement M\s*$", whole_type):
                continue
            helpers.append("\n".join(b).rstrip())
            helper_names.append(name)
        folder = os.path.dirname(path)
        module = "Rattle.%s.proofs.%s" % (self.crate, self.rel.replace("/", "."))
        made = []
        if invariants:
            self.write(os.path.join(folder, "Invariants.antt"), head, uses, module + ".Given", [h for n, h in zip(helper_names, helpers) if any(n in i for i in invariants)], invariants)
            made.append("Invariants")
        if answers:
            self.write(os.path.join(folder, "Answers.antt"), head if not invariants else head, uses, module + ".Goals", helpers, answers)
            made.append("Answers")
        os.remove(path)
        if not made:
            os.rmdir(folder)
        print("%s: %s%s" % (self.fn, " ".join(made) or "no file", "".join("\n    " + s for s in self.said)))

    def write(self, path, head, uses, module, helpers, items):
        text = "\n\n".join(helpers + items)
        lines = []
        for u in uses:
            if ".Tie as tie" in u or ".Statement.{statement}" in u:
                continue
            m = re.match(r"use (\S+)\.\{(.*)\}$", u)
            if not m:
                lines.append(u)
                continue
            keep = []
            for n in [x.strip() for x in m.group(2).split(",")]:
                short = n.split(" as ")[-1]
                marks = [p for p in re.split("◌", short) if p]
                if all(re.search(r"(?<![^\s(){}.;,@\[\]])%s(?![^\s(){}.;,@\[\]])" % re.escape(p), text) or (p in "[]" and p in text) for p in marks):
                    keep.append(n)
            if keep:
                lines.append("use %s.{%s}" % (m.group(1), ", ".join(keep)))
        lines.append("use %s as goal" % module)
        with open(path, "w", encoding="utf-8") as f:
            f.write("\n".join(head + lines) + "\n\n" + text + "\n")

    def invariant(self, kind, loop, name, body, comments, out):
        new = self.loops.get(norm(loop)) or self.loops.get(norm(loop).replace("loop", "loop", 1))
        if new is None:
            self.say("no loop %s" % loop)
            return
        label, variables = new
        lines = body.split("\n")
        unfolding = [l for l in lines if l.startswith("unfolding ")]
        rest = "\n".join(l for l in lines if not l.startswith("unfolding "))
        m = re.match(r"^%s((?: (?!= )%s)*) =(?=\s)(.*)$" % (re.escape(name), W), rest, re.S)
        if not m:
            self.say("an invariant in cases: %s" % loop)
            return
        params = m.group(1).split()
        changed = self.it["changed"][[norm(l[0][0]) for l in self.it["loops"]].index(norm(loop))]
        order = [("initial." + v if ch else v) for v, ch in zip(variables, changed)] + [v for v, ch in zip(variables, changed) if ch]
        stripped = [re.sub(r"[₀0]$", "", p) for p in params]
        table = {}
        if len(params) == len(order):
            table = {p: "l." + o for p, o in zip(params, order) if p != "_"}
        else:
            self.say("loop %s: %s for %s" % (loop, " ".join(params), " ".join(order)))
            for p, s in zip(params, stripped):
                table[p] = "l.initial." + s if s != p else "l." + p
        expr = re.sub(W, lambda t: table.get(t.group(0), t.group(0)) if m.group(2)[t.start() - 1:t.start()] != "." and not re.match(r" = ", m.group(2)[t.end():]) else t.group(0), m.group(2))
        goal = kind + "-" + label
        out.append("\n".join(comments + ["abbrev pub %s : goal.%s" % (goal, goal)] + unfolding + ["%s l =%s" % (goal, expr)]))

    def answer(self, old, name, body, comments, out):
        old = norm(old)
        new = self.goals.get(old)
        key = old
        for prefix in ("overflow-", "nonzero-", "nonzero-div-"):
            if new is None and old.startswith(prefix):
                key = old[len(prefix):]
                new = self.goals.get(key)
        self.chain, self.facts, place = {}, {}, self.where.get(key)
        while place in self.places:
            it = self.places[place]
            arm = self.arms.get(place)
            for field, step, path in (arm[2] if arm else []):
                if path:
                    self.facts.setdefault((norm(step), tuple(path)), [arm[0], field])
            self.chain.setdefault(norm(it[2][0]), it[2][1])
            place = it[1]
        lines = body.split("\n")
        unfolding = [l for l in lines if l.startswith("unfolding ")]
        rest = "\n".join(l for l in lines if not l.startswith("unfolding "))
        m = re.match(r"^%s((?: (?!= )%s)*) =(?=\s)(.*)$" % (re.escape(name), W), rest, re.S)
        if m and (m.group(2).strip() == "search rules" or m.group(2).strip() == "tt" and old.endswith("-requires")):
            return
        if new is None:
            self.say("no goal %s: %s" % (old, " ".join(body.split())[:100]))
            return
        if not m:
            self.say("cases: %s" % new)
            out.append("\n".join(comments + ["pub %s : goal.%s" % (new, new), body]))
            return
        text = re.sub(r", %s\.well[-_]formed(\.\d)+" % W, "", self.expression(m.group(2)))
        text = text.replace(".type-inv", ".type_inv")
        text = re.sub(r"not-(?:true|false) (?:_|\([^()]*\)) (c\.if-not[^\s().]*\.(?:true|false))", r"\1", text)
        text = re.sub(r"\((c\.if-not[^\s().]*\.(?:true|false))\)", r"\1", text)
        more = "".join(" " + x for x in m.group(1).split()[1:] if x != "κs")
        names = self.it["asked"].get(key) or self.it["asked"].get(key.replace("-", "_"))
        for asked, listed in self.it["asked"].items():
            if norm(asked) == key:
                names = listed
        if names and len(names) > 1:
            as_record = self.tuple_to_record(text, names)
            if as_record is None and len(names) == 2:
                # one term proves both clauses, behind its lets
                depth, last = 0, 0
                for j, ch in enumerate(text):
                    depth += {"(": 1, "[": 1, "{": 1, ")": -1, "]": -1, "}": -1}.get(ch, 0)
                    if depth == 0 and text.startswith(" in", j) and re.match(r" in\s", text[j:] + " "):
                        last = j + 3
                both = " ".join(text[last:].split())
                passed = re.fullmatch(r"(?:rw (\((?:[^()]|\([^()]*\))*\)|\S+) )?c\.([^\s.]+)\.ensures", both)
                if not passed:
                    tactic = re.match(r"rw (\((?:[^()]|\([^()]*\))*\)|\S+) (?=\()", both)
                    pair = self.tuple_to_record("= " + both[tactic.end():], names) if tactic else None
                    if pair:
                        inside = re.fullmatch(r"= record \{ %s = (.*); %s = (.*); \}" % tuple(names), pair)
                        if inside:
                            parts = [tactic.group(0) + "(" + x + ")" for x in inside.groups()]
                            text = text[:last] + " record { " + " ".join("%s = %s;" % (n, x) for n, x in zip(names, parts)) + " }"
                            out.append("\n".join(comments + ["pub %s : goal.%s" % (new, new)] + unfolding + ["%s c%s =%s" % (new, more, text)]))
                            return
                inner = self.clause.get(self.callee.get(passed.group(2)), ([], []))[1] if passed else []
                if len(inner) == 2:
                    parts = [both + "." + n for n in inner]
                else:
                    parts = ["(%s).%d" % (both, k) for k in range(2)]
                text = text[:last] + " record { " + " ".join("%s = %s;" % (n, p) for n, p in zip(names, parts)) + " }"
            elif as_record is None:
                self.say("%s: no tuple for %s" % (new, " ".join(n or "?" for n in names)))
            else:
                text = as_record
        out.append("\n".join(comments + ["pub %s : goal.%s" % (new, new)] + unfolding + ["%s c%s =%s" % (new, more, text)]))


def main(argv):
    root = os.getcwd()
    clause = clauses(root)
    for crate in argv[1:]:
        names = json.load(open(os.path.join(argv[0], "crates", crate, "names.json"), encoding="utf-8"))
        base = os.path.join(root, "crates", crate, "proofs")
        for folder, dirs, files in sorted(os.walk(base)):
            if "Proof.antt" in files:
                rel = os.path.relpath(folder, base)
                if "Rattle-%s-proofs.%s.Lts" % (crate, rel.replace("/", ".")) not in names:
                    print("%s::%s: no names: left" % (crate, rel))
                    continue
                Turn(root, crate, rel, names, clause).turn()
    return 0


if __name__ == "__main__":
    sys.exit(main(sys.argv[1:]))
