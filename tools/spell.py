#!/usr/bin/env python3
"""Spells this repository's own definitions and lemmas as today's Rattle does: words in snake case, types in upper camel case.

usage: spell.py [--check] [--table FILE]      at the top of the repository, once, behind the kit's port.py

What turns: each name that a file of crates/*/specs or crates/*/proofs declares (a definition, a lemma, a record, a data type, a field, a constructor),
wherever it stands as a whole word: in specs/, proofs/, the clauses, `ghost use` lines and comments of src/, in must-fail edits, and between back ticks in papers.
What stays: names of src/ (functions, fields, constants, types), strings, the labels that Rattle makes in Proof.antt (tie.Need-..), names of the kit,
and S₀ and S₁, which are the standard's. Two names that would fall together, or meet a name of src/ or of the kit in one file, are told, and the second gets what OTHER says.
--check writes nothing and prints the table. --table FILE writes the table, old and new.
"""

import os
import re
import sys

WORD = r"[^\s(){}.;,@\"«»`\[\]|]+"
NAME = re.compile(WORD)
DECLARED = re.compile(r"^( *)((?:abbrev |unfoldable |opaque |pub )*)(record |data |mod )?(%s)((?: \{[^}]*\}| \([^)]*\))*) :(.*)$" % WORD)
# old: new, where the rule's name is taken: by a field of src/ that clauses name, or by another name of ours
OTHER = {
    "editsAt": "edit_list_at",
    "left-clip": "left_clip_bases",
    "right-clip": "right_clip_bases",
    "is-refused": "signed_refused",
    "decodeECigarMismatches": "decode_ecigar_mismatches",
}
# names that port.py had in snake case already, and that a definition now takes: these are laws, and turn only where they stand behind no dot
LAWS = {"count_at": "count_at_lem", "goes_on": "goes_on_lem", "head_bytes": "head_bytes_lem", "keep_run": "keep_run_lem", "no_record": "no_record_lem", "no_room": "no_room_lem"}
KEEP = {"S₀", "S₁"}


def files(root, *suffixes):
    for top in ("crates", "tests/edits"):
        for folder, dirs, names in os.walk(os.path.join(root, top)):
            dirs[:] = sorted(d for d in dirs if d not in ("out", "target", ".git"))
            for n in sorted(names):
                if n.endswith(suffixes):
                    yield os.path.join(folder, n)


def read(path):
    with open(path, encoding="utf-8") as f:
        return f.read()


def logical_lines(text):
    """A declaration's signature with the lines that go on with it, which stand further in."""
    lines = text.split("\n")
    for i, line in enumerate(lines):
        if not DECLARED.match(line):
            continue
        indent = len(line) - len(line.lstrip())
        whole = [line]
        for more in lines[i + 1:]:
            if more.strip() and len(more) - len(more.lstrip()) > indent and re.match(r"\s*(→|\(|\{|:)", more):
                whole.append(more.strip())
            else:
                break
        yield " ".join(whole)


def is_type(kind, signature):
    """A record, a data type, or a definition whose last result is a Type."""
    if kind in ("record ", "data "):
        return True
    depth, last = 0, 0
    for i, c in enumerate(signature):
        if c in "({":
            depth += 1
        elif c in ")}":
            depth -= 1
        elif c == "→" and depth == 0:
            last = i + 1
    return re.match(r"\s*Type(\s+\S+)?\s*$", signature[last:]) is not None


def parts(name):
    name = name.replace("·", "_")
    return [p for p in re.split(r"[-_]|(?<=[a-z0-9₀-₉])(?=[A-Z])", name) if p]


def snake(name):
    # a fact keeps its capital at the head of a name, as in All-append
    head = parts(name)
    return "_".join(p if (i == 0 and p[0].isupper()) else p.lower() for i, p in enumerate(head))


def camel(name):
    return "".join(p[0].upper() + p[1:] for p in parts(name))


def declared(root):
    """old -> (new, where it is declared)"""
    table = {}
    for path in files(root, ".antt"):
        generated_labels = path.endswith("/Proof.antt")
        for line in logical_lines(read(path)):
            indent, marks, kind, name, binders, signature = DECLARED.match(line).groups()
            if kind == "mod " or name.startswith(("λ", "--")):
                continue
            if generated_labels and (re.match(r"\s*tie\.", signature) or re.search(r"\bstatement M\s*$", signature)):
                continue
            if name in ("let", "in", "use", "where") or not re.match(r"[^\W\d]", name):
                continue
            if indent and kind is None and not marks and "Proof.antt" in path:
                continue
            kind_is_type = is_type(kind, signature) and not indent
            new = camel(name) if kind_is_type or re.fullmatch(r"[A-Z][A-Za-z0-9]*", name) else snake(name)
            table.setdefault(name, set()).add((new, path, kind_is_type))
    return table


def rust_names(root):
    """Names that a clause can mean: parameters, fields, locals and constants of src/."""
    names = {}
    for path in files(root, ".rt"):
        text = re.sub(r"//[^\n]*", "", read(path))
        text = re.sub(r"ghost use[^;]*;", "", text)
        for m in re.finditer(r"\b([a-z_][a-z0-9_]*)\s*:(?!:)|\blet (?:mut )?([a-z_][a-z0-9_]*)|\b(?:const|static) ([A-Z0-9_]+)\b|\bfor ([a-z_][a-z0-9_]*) in", text):
            n = next(g for g in m.groups() if g)
            names.setdefault(n, set()).add(path)
    return names


def main(argv):
    root = os.getcwd()
    check = "--check" in argv
    found = declared(root)
    rename, said = {}, []
    for old, places in sorted(found.items()):
        news = {n for n, _, _ in places}
        if old in KEEP or old in LAWS:
            continue
        if len(news) > 1:
            # the same word is a type in one file and a word in another
            said.append("two: %s: %s" % (old, "; ".join(sorted("%s in %s" % (n, os.path.relpath(p, root)) for n, p, _ in places))))
        new = OTHER.get(old) or sorted(news, key=lambda n: (n != old, n))[0]
        if new != old:
            rename[old] = new
    # names that fall together: the definition keeps the name, and its law gets `_lem` behind it
    rename.update(LAWS)
    by_new = {}
    for old in found:
        by_new.setdefault(rename.get(old, old), set()).add(old)
    for new, olds in list(by_new.items()):
        laws = sorted(o for o in olds if "-" in o)
        if len(olds) > 1 and len(laws) < len(olds):
            for o in laws:
                rename[o] = new + "_lem"
                by_new[new].discard(o)
                by_new.setdefault(new + "_lem", set()).add(o)
    for new, olds in sorted(by_new.items()):
        if len(olds) > 1:
            said.append("together: %s: %s" % (new, "; ".join("%s in %s" % (o, ", ".join(sorted({os.path.relpath(p, root) for _, p, _ in found[o]}))) for o in sorted(olds))))
    # a word of src/ that a clause could mean in its place
    rust = rust_names(root)
    for old, new in sorted(rename.items()):
        if new in rust:
            said.append("src: %s -> %s: %s" % (old, new, ", ".join(sorted(os.path.relpath(p, root) for p in rust[new]))))
    # the new name stands in a file already, where its old one stands too
    for path in files(root, ".antt", ".rt", ".edit"):
        words = set(NAME.findall(read(path)))
        for old in words & rename.keys():
            new = rename[old]
            if new in words:
                said.append("meets: %s -> %s in %s" % (old, new, os.path.relpath(path, root)))
    if "--table" in argv:
        with open(argv[argv.index("--table") + 1], "w", encoding="utf-8") as f:
            for old, new in sorted(rename.items()):
                f.write("%s\t%s\n" % (old, new))
    print("\n".join(said))
    print("spell: %d names, %d said" % (len(rename), len(said)))
    if check:
        return 0
    return turn(root, rename)


def words(text, rename):
    def one(m):
        w = m.group(0)
        if w in LAWS and text[m.start() - 1:m.start()] == ".":
            return w
        return rename.get(w, w)

    return NAME.sub(one, text)


def spans(text, rename):
    """Names between back ticks, as a comment or a paper has them."""
    return re.sub(r"`[^`\n]+`", lambda m: words(m.group(0), rename), text)


def turn_antt(text, rename):
    out = []
    for m in re.finditer(r"--[^\n]*(?=\n|$)|\"[^\"\n]*\"|(?:(?!(?<![^\s(){}.;,])--)[^\"])+", text):
        t = m.group(0)
        out.append(t if t.startswith('"') else spans(t, rename) if t.startswith("--") else words(t, rename))
    return "".join(out)


RUST = re.compile(r"//[^\n]*|[bc]?\"(?:\\.|[^\"\\])*\"|[^/\"bc]+|.", re.S)


def turn_rust(text, rename):
    return "".join(spans(t, rename) if t.startswith("//") else t if '"' in t else t for t in RUST.findall(turn_clauses(text, rename)))


def turn_clauses(text, rename):
    """The text of `ghost use` items and of clauses: each ends at its brace."""
    out, at = [], 0
    head = re.compile(r"(?m)^[ \t]*(?:ghost use [^;]*;|(?:requires|ensures|ghost)\*?(?: [a-z_0-9]+)?(?:: ?| = | )?\{)")
    while True:
        m = head.search(text, at)
        if not m:
            return "".join(out) + text[at:]
        end = m.end()
        if text[m.end() - 1] == "{":
            depth = 1
            while depth:
                depth += {"{": 1, "}": -1}.get(text[end], 0)
                end += 1
        out += [text[at:m.start()], words(text[m.start():end], rename)]
        at = end


def turn(root, rename):
    changed = 0
    for path in files(root, ".antt", ".rt"):
        text = read(path)
        new = turn_antt(text, rename) if path.endswith(".antt") else turn_rust(text, rename)
        if new != text:
            changed += 1
            with open(path, "w", encoding="utf-8") as f:
                f.write(new)
    print("spell: %d files turned" % changed)
    return modules(root)


def modules(root):
    """The module `code` of specs/, its file and its folder: a module is in upper camel case."""
    for path in list(files(root, ".antt", ".rt")):
        text = read(path)
        new = text.replace(".specs.code.", ".specs.Code.").replace(".specs.code\n", ".specs.Code\n")
        if re.search(r"/specs/Lib\.antt$", path):
            new = re.sub(r"(?m)^(pub mod|mod) code$", r"\1 Code", new)
        if new != text:
            with open(path, "w", encoding="utf-8") as f:
                f.write(new)
    for crate in sorted(os.listdir(os.path.join(root, "crates"))):
        for name in ("code", "code.antt"):
            old = os.path.join(root, "crates", crate, "specs", name)
            if os.path.exists(old):
                os.rename(old, os.path.join(root, "crates", crate, "specs", name.capitalize()))
    return 0


if __name__ == "__main__":
    sys.exit(main(sys.argv[1:]) or 0)
