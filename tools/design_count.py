#!/usr/bin/env python3
"""Counts the places of docs/DESIGN-PASS.md: what in src/ (and, for point 8, in proofs/) is written in an older form.

usage: design_count.py [--page] [--near] [FOLDER [POINT..]]

FOLDER holds the crates, `crates` where none is given, and crates.txt stands beside it; POINT is 1a, 1b, 1c, 2 to 8. For each point: the number of its
places, by crate (lowest first), and each place as file:line. In points 2 and 5 a place is a group, and the second number is that of its functions and types.
What stands behind a - is shown and not counted: it follows from what is counted, or was looked at and is none. --page writes the places without their lines, as the page has them. --near prints pairs of
functions that are alike but for names, types and constants, which is the other way to look for point 2.

What can be told by its form is found by its form. What only a reader can tell (twins, flags, lengths beside buffers) is named below, and counts for as long
as what is named stands in src/.
"""

import difflib
import os
import re
import sys

FAILURES = "Refused|Malformed|Short|NoRoom|UsedUp|TooLong|NoEnd|Failed|Unread|Bad"


class Fn:
    def __init__(self, crate, path, line, owner, name, public):
        self.crate, self.path, self.line, self.owner, self.name, self.public = crate, path, line, owner, name, public
        self.params, self.answer, self.requires, self.ensures, self.body = [], "", [], [], []

    @property
    def title(self):
        return (self.owner + "::" if self.owner else "") + self.name

    def text(self):
        return "\n".join(t for _, t in self.body)


class Type:
    def __init__(self, crate, path, line, kind, name):
        self.crate, self.path, self.line, self.kind, self.name = crate, path, line, kind, name
        self.members = []  # (line, text)


def bare(line):
    """the line without its comment"""
    at = re.search(r"(^|\s)//", line)
    return (line[: at.start()] if at else line).rstrip()


def split_top(text, sign):
    """the parts of a text between signs that stand in no bracket"""
    parts, depth, last = [], 0, 0
    for i, c in enumerate(text):
        if c in "([{<":
            depth += c != "<" or text[i + 1 : i + 2] != " "
        elif c in ")]}>":
            depth -= c != ">" or text[i - 1 : i] not in " -"
        elif c == sign and depth <= 0:
            parts.append(text[last:i])
            last = i + 1
    return [p.strip() for p in parts + [text[last:]] if p.strip()]


HEAD = re.compile(r'^( *)(pub(?:\([a-z]+\))? )?(?:unsafe )?(?:extern "C" )?fn ([a-z0-9_]+)')


def read_file(crate, path):
    """the functions, the types and the lines (without comments) of a file"""
    lines = [bare(l.rstrip("\n")) for l in open(path, encoding="utf-8")]
    fns, types, owner, i = [], [], "", 0
    while i < len(lines):
        line = lines[i]
        of = re.match(r"^impl(?:<[^>]*>)? (?:\w+(?:<[^>]*>)? for )?(\w+)", line)
        if of:
            owner = of[1]
        elif line == "}":
            owner = ""
        kind = re.match(r"^(?:pub(?:\([a-z]+\))? )?(struct|enum|trait) (\w+)", line)
        if kind:
            made = Type(crate, path, i + 1, kind[1], kind[2])
            while line.endswith("{") and lines[i] != "}" and kind[1] != "trait":
                i += 1
                made.members.append((i + 1, lines[i].strip()))
            made.members = [m for m in made.members if m[1] and m[1] != "}"]
            types.append(made)
        head = HEAD.match(line)
        if head and not line.endswith(";"):
            fn = Fn(crate, path, i + 1, owner, head[3], bool(head[2]))
            end, text = head[1] + "}", line
            opens = lambda l: l.endswith(("{", "{}")) and not re.match(r"^ *(requires|ensures)\b", l)
            while not opens(lines[i]) and not lines[i].endswith(";") and i + 1 < len(lines):
                i += 1
                clause = re.match(r"^ *(requires|ensures)(?: \w+)? \{ (.*) \};?$", lines[i])
                if clause:
                    getattr(fn, clause[1]).append(clause[2])
                else:
                    text += " " + lines[i].strip()
            open_at = head.end()
            if text[open_at] == "<":  # past the type parameters
                depth = 0
                while depth or text[open_at] != "(":
                    depth += (text[open_at] == "<") - (text[open_at] == ">" and text[open_at - 1] not in "-=")
                    open_at += 1
            depth, at = 0, open_at
            while True:
                depth += (text[at] == "(") - (text[at] == ")")
                if depth == 0:
                    break
                at += 1
            for p in split_top(text[open_at + 1 : at], ","):
                name, _, of = p.partition(":")
                fn.params.append((name.replace("mut ", "").strip(), of.strip()))
            fn.answer = text[at + 1 :].replace("{", "").replace("->", "").strip()
            if lines[i].endswith("{"):
                i += 1
                while i < len(lines) and lines[i] != end:
                    fn.body.append((i + 1, lines[i]))
                    i += 1
            fns.append(fn)
        i += 1
    return fns, types, lines


class Source:
    def __init__(self, root):
        self.root = root
        order = os.path.join(os.path.dirname(os.path.abspath(root)), "crates.txt")
        here = sorted(c for c in os.listdir(root) if os.path.isdir(os.path.join(root, c)))
        listed = []
        if os.path.exists(order):
            listed = [l.split(":")[0].split()[0] for l in open(order) if l.strip() and not l.startswith("#")]
        self.crates = [c for c in listed if c in here] + [c for c in here if c not in listed]
        self.fns, self.types, self.lines = [], [], {}
        for crate in self.crates:
            for folder, _, names in sorted(os.walk(os.path.join(root, crate, "src"))):
                for n in sorted(names):
                    if n.endswith(".rt"):
                        path = os.path.join(folder, n)
                        fns, types, lines = read_file(crate, path)
                        self.fns += fns
                        self.types += types
                        self.lines[path] = (crate, lines)

    def fn(self, crate, file, name):
        owner, _, short = name.rpartition("::")
        return [f for f in self.fns if f.crate == crate and self.file(f.path) == file and f.name == short and (not owner or f.owner == owner)]

    def file(self, path):
        return os.path.relpath(path, os.path.join(self.root, path[len(self.root) :].strip("/").split("/")[0], "src"))

    def grep(self, pattern):
        """(crate, path, line number, text) of each line that has the pattern"""
        for path, (crate, lines) in self.lines.items():
            for i, l in enumerate(lines):
                if re.search(pattern, l):
                    yield crate, path, i + 1, l.strip()

    def at(self, path, line):
        """the function that a line stands in"""
        for f in self.fns:
            if f.path == path and f.line <= line <= (f.body[-1][0] if f.body else f.line):
                return f.title
        return ""


# ---- what a reader has to tell: CRATE FILE NAME.., a group a line; FILE is FILE.rt of src/

TWINS = """
a field of k bytes, from digits or from bytes | frame bytes read_wide; frame field read_wide
a field by its width | frame bytes read_u8 read_u16 read_u32; frame field read_u8 read_u16 read_u32
the lower or the higher of two numbers | frame bytes least; frame line lower higher; bases lent least higher; found lib least
a small number, wider | frame field wide; state head wide; edits edit wide; splices mapping wide; splices walk wide; bases lent wide; block symbols wide; resuming last wide
a number of k bytes, laid | writing lay put_u8 put_u16 put_u32
two bytes as a number | state head word_at; edits edit offset_at; splices walk length_at
what stands at a place, or 0 | frame field byte_at; splices walk byte_at; splices mapping symbol_at
a symbol's letter, laid | alphabet five put_five; alphabet letter put_letter
letters of symbols, laid | bases letters put_fives put_sixteens
bytes laid as a whole line | front unit_line write; listing close write_refused write_done
a value as the numbers of C, and back | state numbers read lay; lampbuckle numbers read_unit lay_unit read_keep lay_keep
a refusal beside the state that was given | taking lib none_left; pairing rows refused; splices take refused; block head refused; plan read refused; plan segments refused; record lib refused
a value beside the state behind it | pairing rows linked; splices take went; block head whole
a fresh state beside an answer | state head no_back; resuming last bare; resuming place bare
a symbol that fits 16 bits, taken | pairing rows half_mapped same_rec; splices take take_short
a symbol of a splice, taken | splices take take_short take_long
an edit of a class, read | edits edit substitution_at edit_at
the edits of a run, checked | ecigar check check_edits check_piece_edits check_substitutions
the limits of a run | ecigar check check check_piece
the text of a run's edits | ecigar text put_edits put_substitutions
the bases of a run's edits | bases lib put_edits put_piece_edits put_substitutions
the reference under a run | bases lib check_reference check_piece
the reference at once, then match by match | pieces check under_piece; segment lib under_matches
a read's bases with its soft clips | bases lib write; segment spliced put_bases
a read's text with its clips | ecigar text write; segment spliced put_ecigar
a field within its values | block checked read_length read_rcomp read_number read_count
an aligned and an unaligned block behind a length | block aligned from_soft; block unaligned from_length
the first and the second segment | plan segments first_segment second_segment
bytes of the head, laid | record write put_head put_link
the bytes of a last line | listing close bytes_05 bytes_06
the listing's end | decoder lib refuse finish
a line of the buffer, or all of it | stream source take piece pass_piece
a line more in the sink | program sink with_refused; opening first with_first
a program's start | list main usage list list_named main; resume main usage resume resume_named main
how a line is answered | answers main unit_answer pair_answer reference_answer
"""
ALIKE = """
- alike, but what they do differs: the highest of many | frame line has_other; bases lent highest
- alike, but what they do differs: one byte behind the other | writing lay put_bytes; bases lent put_padding
- alike, but what they do differs: a line's kind, and what stands behind it | front pair_line read_count; front reference_line read_count; front unit_line read
- alike, but what they do differs: a run by its form | bases lib put_run write_piece; ecigar text put_run
- alike, but what they do differs: one piece or many | segment write put_read put_text
- alike, but what they do differs: a length, and what has it | writing decimal decimal_len put_decimal; ecigar check count_len matches_len closed_len gap_len text_by; ecigar text put_count put_matches put_closed put_gap put_edit; ecigar clip clip_len put_clip; ecigar splice splice_len put_splice
- alike, but what they do differs: the values of a unit, tested together or as they are read | unit lib Unit::refusal; front unit_line read_class read_template read_ends
- alike, but what they do differs: how a flank goes on | edits flank Flank::past_base Flank::past_deleted
- alike, but what they do differs: what is listed of a mate | pairing lib Link::mate_sequence Link::mate_position
- alike, but what they do differs: bases or text of the pieces | pieces write write_bases write_text
"""
TWIN_TYPES = """
an answer beside a state | taking Taken; pairing Paired; splices SymbolsMoved; block HeadMoved; plan SegmentMoved Reading; record Recorded; decoder Turned; state Back; resuming Said WhereTo
a value, or Refused(u32) | front PairLine ReferenceLine UnitLine; pairing LinkRead; ecigar EditsChecked; block CheckedField Clipped HeadRead AlignedRead UnalignedRead; segment SegmentRead; plan Planned; record Answer
a value, or nothing | frame Field Line; writing Wrote; taking NextSymbol
a value, or the error of a file | stream Got; opening Based BaseLine; found Edge
what was read beside the source that is handed back | stream LineAt LinesPassed; opening AddedLine PairTaken; found Scanned
how far a listing has come | rest UnderWay LineAdded
"""
FLAGS = """
bool | state head Back.known; kept keep Keep.done; stream source Source.ended; program sink Sink.failed; rest lib UnderWay.over; rest lib LineAdded.over
a refusal's number, 0 for none | splices take SymbolsMoved.refusal; pieces check PieceFound.refusal; pieces check PiecesFound.refusal
an error beside values | stream source Source.failed; found lib Found.failed
an answer beside a state that means something only with some answers | taking lib Taken.found; pairing lib Paired.answer; block head HeadMoved.answer; plan read Reading.planned; plan segments SegmentMoved.answer; record lib Recorded.answer; resuming last Said.says; resuming place WhereTo.go; decoder lib Turned.added; opening files OpenFiles.front
0 for none | kept keep Keep.first
"""
ANSWERS_BOOL = "whether it went well, as bool | program sink write; program args is_whole; found lib copy"
SENTINELS = "a value that stands for none | splices lib Splices::none; state numbers no_state; front pair_line symbol_at; pieces check splice_text; pieces write put_text"
BY_HAND = """
order: lower, higher, between | frame bytes least; frame line lower higher below outside window; bases lent least higher between; found lib least; edits lib mapped_length; rest lib turns
equality | resuming place same; state lib State::all_taken; program args asks_help
conversion: wider, or a number for a truth | frame field wide; state head wide; edits edit wide; splices mapping wide; splices walk wide; bases lent wide; block symbols wide; resuming last wide; lampbuckle numbers flag; pairing rows read_first
conversion: bytes to a number | frame bytes read_wide; frame field read_wide; state head word_at; edits edit offset_at; splices walk length_at
conversion: a type to a type | state numbers read lay; lampbuckle numbers read_unit lay_unit read_keep lay_keep; lampbuckle answer counted refused; lampbuckle write answered; lampbuckle resume settle; resuming place behind; decoder lib stopped; probe text value; reader lib place_behind; pieces check run_here; edits lib run_of; plan segments settle
what stands at a place, or 0 | frame field byte_at; splices walk byte_at; splices mapping symbol_at
conversion: a digit and its value | frame field nibble; writing lay digit_of
copying, field by field | kept keep Keep::stopped Keep::passed_by Keep::line_kept; stream source fill refill take piece pass_piece; program sink Sink::longer; rest lib step; splices mapping by_delta; bases places Places::past_match Places::past_substitution Places::past_insertion Places::past_deletion
a first value, 0 everywhere (Default) | state lib State::fresh; edits lib Clips::none; kept keep Keep::new; program sink Sink::new
printing | writing decimal decimal_len put_decimal; ecigar text put_count; program system say; list main usage; resume main usage
"""
BUFFERS = """
a buffer, and how much of it is used | program sink Sink.used; stream source Source.end; opening files OpenFiles.bases
from and to, in place of a slice | stream source LineAt.from; stream source Source.at
a place and a length in place of a slice | edits lib Block.edits_at; edits lib Block.soft_at; edits lib Run.edits_at; splices walk PieceWalk.edits_at; splices walk PieceWalk.lengths_at; splices lib Splices.lengths_at; block unaligned UnalignedBlock.at
parallel places in a table | splices lib Splices.codes; splices mapping Mapping.codes
numbers in place of a type | state numbers STATE; lampbuckle numbers UNIT; lampbuckle numbers KEEP
parallel arrays: symbols and counts | opening files OpenFiles.counts
"""
BUFFER_FNS = """
a local array, and how much of it is used | list main list_named; resume main resume_named; found lib look; program args asks_help; record sized within
a slice lent with a start and an end | bases lent highest check_lent; bases letters put_letters put_fives put_sixteens; bases lib put_soft; stream source shift
a slice lent with how much of it is used | front reference_line read add_bases lay_bases; front pair_line lay_symbols; rest lib bases_of; opening files add_bases; program sink Sink::flushed Sink::roomy Sink::longer Sink::with
"""
SWITCHES = """
a code says which function runs | pairing rows by_code; splices take take_piece
an alphabet's number says which loop runs | bases letters put_letters
a class says which loop runs | ecigar check check; ecigar text put_run; bases lib put_run
a number of pieces says which function runs | segment lib place_block; segment write put_read put_text
a length says which array is made | record sized of_line
- a test of what is there, and no step | block clips within; list main main; resume main main
"""
TOGETHER = [
    "out at", "out at frame", "symbols counts", "symbols counts state", "symbols counts state back", "unit reference", "unit reference symbols",
    "unit reference symbols counts state", "frame class", "frame class alphabet", "frame class alphabet run", "frame unit", "frame unit reference", "reference first alphabet",
    "class alphabet", "class alphabet length rcomp", "frame c", "start end", "block splices", "link pos", "position taken", "position start", "line count counts",
    "line c", "frame unit w", "length rcomp", "reference used", "reference first alphabet position", "buf reference symbols", "rt buf",
    "rt out", "buf out", "reference_path unit_path", "s buf", "class sequence", "next mapped", "number refusal",
]


def groups(text):
    for line in text.strip().split("\n"):
        title, _, rest = line.partition(" | ")
        yield title, [part.split() for part in rest.split(";")]


class Places:
    """the places of a point, each under a title"""

    def __init__(self, source):
        self.source, self.found = source, []

    def add(self, title, crate, path, line, name):
        self.found.append((title, crate, path, line, name))

    def fns(self, title, fns):
        for f in fns:
            self.add(title, f.crate, f.path, f.line, f.title)

    def listed(self, text, least=1):
        """functions that are named, where at least so many of a group stand"""
        for title, parts in groups(text):
            fns = [f for crate, file, *names in parts for n in names for f in self.source.fn(crate, file + ".rt", n)]
            if len(fns) >= least:
                self.fns(title, fns)

    def types(self, text, least=1):
        for title, parts in groups(text):
            types = [t for crate, *names in parts for n in names for t in self.source.types if (t.crate, t.name) == (crate, n)]
            if len(types) >= least:
                for t in types:
                    self.add(title, t.crate, t.path, t.line, t.name)

    def fields(self, text):
        for title, parts in groups(text):
            for crate, file, name in parts:
                of, _, field = name.partition(".")
                for t in self.source.types:
                    if field and (t.crate, t.name) == (crate, of):
                        for line, m in t.members:
                            if re.match(r"(pub )?%s:" % field, m):
                                self.add(title, crate, t.path, line, name)
                if not field:
                    for c, path, line, m in self.source.grep(r"const %s:" % name):
                        if c == crate and self.source.file(path) == file + ".rt":
                            self.add(title, crate, path, line, name)


def point_1a(s):
    p = Places(s)
    for t in s.types:
        cases = [re.match(r"(\w+)", m)[1] for _, m in t.members]
        if t.kind == "enum":
            if any(re.fullmatch(FAILURES, c) for c in cases):
                p.add("of the shape of %s" % ("Option" if len(cases) == 2 and any(re.fullmatch(r"\w+,", m) for _, m in t.members) else "Result"), t.crate, t.path, t.line, t.name)
            else:
                p.add("- not of that shape", t.crate, t.path, t.line, t.name)
    return p


def point_1b(s):
    p = Places(s)
    p.fields(FLAGS)
    p.listed(ANSWERS_BOOL)
    p.listed(SENTINELS)
    return p


def point_1c(s):
    p = Places(s)
    for crate, path, line, text in s.grep(r"\bconst \w+: (u8|u32|usize) = \d[\d_]*;"):
        name = re.search(r"const (\w+)", text)[1]
        file = s.file(path)
        if crate == "refusal":
            p.add("constants: refusals", crate, path, line, name)
        elif (crate, file) == ("unit", "kind.rt"):
            p.add("constants: kinds of lines", crate, path, line, "Kind::" + name)
        elif (crate, file) == ("unit", "lib.rt") and re.fullmatch("P|N|M|I|HM|U|ALPHABETS", name):
            p.add("constants: classes, and the last alphabet", crate, path, line, "Unit::" + name)
        elif (crate, file) == ("edits", "edit.rt"):
            p.add("constants: types of edits", crate, path, line, "Edit::" + name)
        elif (crate, file) == ("lampbuckle", "resume.rt") and name != "WANTED":
            p.add("constants: where to go on", crate, path, line, name)
    refuses = lambda f: re.search(r"\brefusal::[A-Z]", f.text()) or any(re.search(r"refusal|flank_end|open_end", e) for e in f.ensures)
    p.fns("functions that answer a refusal as u32, 0 for none", [f for f in s.fns if f.answer == "u32" and refuses(f)])
    p.fns("- functions that are given a refusal as u32", [f for f in s.fns if any(t == "u32" and (n == "refusal" or n in "n number k" and re.search("refus|out_of_place", f.name)) for n, t in f.params) and not f.name.startswith("tied")])
    for t in s.types:
        for line, m in t.members:
            if t.kind == "enum" and re.match(r"(Refused|Alone|Unpaired)\(.*u32\)", m):
                p.add("- cases that carry a refusal as u32", t.crate, t.path, line, t.name + "::" + re.match(r"\w+", m)[0])
    for crate, path, line, text in s.grep(r"[!=]= refusal::FINE|^if n != 0 \{"):
        p.add("- tests of a number for a refusal", crate, path, line, s.at(path, line))
    for crate, path, line, text in s.grep(r"\bRefused\(\w+\) =>"):
        p.add("- arms that only take a refusal apart", crate, path, line, s.at(path, line))
    for crate, path, line, text in s.grep(r"^ *let (\w+::)*[A-Z]\w*\(.*\) = .* else \{$"):
        p.add("- let .. else over an own enum, Option or Result", crate, path, line, s.at(path, line))
    seen = set()
    for crate, path, line, text in s.grep(r"^ *\d+ => \w+\(|if code == \d|if rcomp == \d|if alphabet == \d"):
        if (path, s.at(path, line)) not in seen:
            seen.add((path, s.at(path, line)))
            p.add("functions with bare numbers for codes, strands and alphabets", crate, path, line, s.at(path, line))
    for crate, path, line, text in s.grep(r"take\(symbols, counts, \w+, \d\)|symbol_at\(symbols, \d|^ *\d+ => \w+\(.*, \d\),"):
        p.add("- bare numbers for subsequences", crate, path, line, s.at(path, line))
    numbered = "class|alphabet|kind|rcomp"
    p.fns("- functions that are given a class, an alphabet, a kind or a strand as a number", [f for f in s.fns if any(re.fullmatch(numbered, n) and t in ("u32", "u8") for n, t in f.params)])
    for t in s.types:
        for line, m in t.members:
            if re.match(r"(pub )?(%s|split): u(8|32)" % numbered, m) and t.kind == "struct":
                p.add("fields that hold a class, an alphabet, a type, a strand or how a mate is split as a number", t.crate, t.path, line, "%s.%s" % (t.name, re.match(r"(?:pub )?(\w+)", m)[1]))
    return p


def point_2(s):
    p = Places(s)
    p.listed(TWINS, 2)
    p.listed(ALIKE, 2)
    p.fns("numbers tied to their names", [f for f in s.fns if f.name.startswith("tied")])
    exported = {f.name for f in s.fns if f.crate == "lampbuckle_c"}
    both = [f for f in s.fns if f.crate in ("lampbuckle", "lampbuckle_c") and f.name in exported]
    p.fns("the exports, and what they call", both if len(both) > len(exported) else [])
    p.types(TWIN_TYPES, 2)
    return p


def point_3(s):
    p = Places(s)
    for crate, path, line, text in s.grep(r"^(while\b.*|loop) \{$|^ *(while\b.*|loop) \{$"):
        kind = "up" if re.match(r"while \w+ < ", text) and not re.match(r"while [01] < ", text) else "down" if re.match(r"while ([01] < |\w+ > 0)", text) else "other"
        p.add("loops that count %s" % kind if kind != "other" else "- loops that count nothing", crate, path, line, s.at(path, line))
    return p


def point_4(s):
    p = Places(s)
    p.listed(BY_HAND)
    seen = set()
    for crate, path, line, text in s.grep(r"% 256\) as u8|/ 256\) as u8"):
        if (path, s.at(path, line)) not in seen:
            seen.add((path, s.at(path, line)))
            p.add("conversion: a number to bytes", crate, path, line, s.at(path, line))
    for t in s.types:
        before = [x for c, pa, ln, x in s.grep(r"^#\[derive") if pa == t.path and t.line - 2 <= ln < t.line]
        if before and "PartialEq" not in before[0]:
            p.add("- types with no derive of equality, order or printing", t.crate, t.path, t.line, t.name)
    for crate, path, line, text in s.grep(r"\bas (u8|u16|u32|u64|usize|i64)\b"):
        if not re.search(r"% 256\) as u8|^(pub )?use ", text):
            p.add("- lines with a cast (as)", crate, path, line, s.at(path, line))
    return p


def facts(clause):
    """the facts of a clause, without their brackets"""
    parts, queue = [], [clause]
    while queue:
        t = queue.pop().strip()
        while t.startswith("(") and t.endswith(")"):
            depth, whole = 0, True
            for i, c in enumerate(t):
                depth += (c == "(") - (c == ")")
                whole = whole and (depth > 0 or i == len(t) - 1)
            if not whole:
                break
            t = t[1:-1].strip()
        more = split_top(t, "×")
        if len(more) > 1:
            queue += more
        else:
            parts.append(re.sub(r"\bblock\.edits", "run.edits", re.sub(r"\b[ap]\.splices", "splices", t)))
    return parts


def point_5(s):
    p = Places(s)
    stand = {}
    for f in s.fns:
        if f.crate == "lampbuckle_c" or f.name.startswith("tied"):
            continue
        asked = [x for c in f.requires for x in facts(c)]
        told = [x for c in f.ensures for x in facts(c) if not re.search(r"^result\S* ≡|^\S+\.new ≡|^Laid |outcome result", x)]
        for x in dict.fromkeys(asked + told):
            stand.setdefault(x, []).append(f)
        if any("Laid out.old out.new" in c for c in f.ensures):
            stand.setdefault("Laid out.old out.new at result (..)", []).append(f)
        if any(re.match(r"at \+ .* ≤ length out.old$", x) for x in asked):
            stand.setdefault("at + .. ≤ length out.old", []).append(f)
    for fact, fns in sorted(stand.items(), key=lambda k: -len(k[1])):
        if len(fns) > 2:
            p.fns("fact: " + fact, fns)
    for names in TOGETHER:
        fns = [f for f in s.fns if set(names.split()) <= {n for n, _ in f.params}]
        if len(fns) > 2:
            p.fns("parameters: " + ", ".join(names.split()), fns)
    return p


def point_6(s):
    p = Places(s)
    p.fields(BUFFERS)
    p.listed(BUFFER_FNS)
    p.fns("- a buffer lent with a place in it (out, at), counted in point 5", [f for f in s.fns if {"out", "at"} <= {n for n, _ in f.params}])
    p.fns("- symbols and counts, lent side by side, counted in point 5", [f for f in s.fns if {"symbols", "counts"} <= {n for n, _ in f.params}])
    return p


def point_7(s):
    p = Places(s)
    p.listed(SWITCHES)
    for crate, path, line, text in s.grep(r"\bdyn\b|\bBox<|: fn\(|\[fn\("):
        p.add("tables of functions, dyn", crate, path, line, s.at(path, line))
    return p


def laws(text):
    """(line, name) of each public law or definition; the fields of records and the constructors of data are their type's own"""
    inside = None
    for i, l in enumerate(text.split("\n")):
        if not l.strip():
            continue
        depth = len(l) - len(l.lstrip())
        if inside is not None and depth > inside:
            continue
        inside = None
        if re.match(r" *(?:(?:abbrev|unfoldable|opaque|pub) )*(record|data) ", l):
            inside = depth
            continue
        of = re.match(r" *((?:(?:abbrev|unfoldable|opaque|pub) )*)([^\s(){}.;,:]+)(?: \{[^}]*\})* :(?: |$)", l)
        if of and "pub" in of[1].split():
            yield i + 1, of[2]


def point_8(s):
    p = Places(s)
    text = {}
    for crate in s.crates:
        for folder, _, names in sorted(os.walk(os.path.join(s.root, crate))):
            for n in sorted(names):
                part = os.path.relpath(folder, os.path.join(s.root, crate)).split(os.sep)[0]
                if part in ("src", "specs", "proofs") and n.endswith((".antt", ".rt")):
                    sign = "--" if n.endswith(".antt") else "//"
                    lines = open(os.path.join(folder, n), encoding="utf-8").read().split("\n")
                    text[os.path.join(folder, n)] = "\n".join(re.sub(r"(^|\s)%s.*" % sign, "", l) for l in lines)
    word = re.compile(r"[^\s(){}.;:,@\"«»\[\]∙]+")
    uses = {}  # a word: how many lines have it; own: how many of them begin with it, by file and indentation
    own = {}
    for path, t in text.items():
        for l in t.split("\n"):
            if re.match(r" *(pub )?(ghost )?use ", l):
                continue
            for w in set(word.findall(l)):
                uses[w] = uses.get(w, 0) + 1
            first = re.match(r"( *)(?:(?:abbrev|unfoldable|opaque|pub) )*([^\s(){}.;,]+)", l)
            if first:
                key = path, len(first[1]), first[2]
                own[key] = own.get(key, 0) + 1
    above = os.path.dirname(os.path.abspath(s.root))
    papers = [os.path.join(above, "README.md")]
    if os.path.isdir(os.path.join(above, "docs")):
        papers += [os.path.join(above, "docs", n) for n in sorted(os.listdir(os.path.join(above, "docs"))) if n.endswith(".md") and n not in ("PORT.md", "DESIGN-PASS.md")]
    named = {w for paper in papers if os.path.exists(paper) for w in re.findall(r"\w+", open(paper, encoding="utf-8").read())}
    for path, t in text.items():
        crate = os.path.relpath(path, s.root).split(os.sep)[0]
        name = os.path.basename(path)
        if name in ("Answers.antt", "Invariants.antt"):
            p.add("- " + name, crate, path, 1, os.path.basename(os.path.dirname(path)))
        elif os.path.join(s.root, crate, "proofs") == os.path.dirname(path):
            if name not in ("Lib.antt", "Unique.antt"):
                p.add("- files of laws (besides Lib.antt and Unique.antt)", crate, path, 1, name[:-5])
            for line, law in laws(t):
                l = t.split("\n")[line - 1]
                # the signature and the clauses of a law are no use of it
                used = uses.get(law, 0) - own.get((path, len(l) - len(l.lstrip()), law), 0)
                p.add("- public laws and definitions in proofs/", crate, path, line, law)
                if used:
                    continue
                if name == "Unique.antt":
                    p.add("- cited by nothing: that a contract has one answer (Unique.antt)", crate, path, line, law)
                elif law in named or name.startswith("Demand"):
                    p.add("- cited by nothing: theorems, which README or docs/ name or decoder lists as demands", crate, path, line, law)
                else:
                    p.add("cited by nothing, and named by no paper", crate, path, line, law)
    return p


POINTS = {"1a": point_1a, "1b": point_1b, "1c": point_1c, "2": point_2, "3": point_3, "4": point_4, "5": point_5, "6": point_6, "7": point_7, "8": point_8}


def alike(source):
    """pairs of functions whose bodies differ in names, types and constants alone, or nearly"""
    words = "if else return let mut while loop for in match as true false self".split()
    shape = lambda f: [w if w in words or not re.match(r"\w", w) else "0" if w[0].isdigit() else "T" if w[0].isupper() else "v" for w in re.findall(r"\w+|[^\s\w]", f.text())]
    shapes = [(f, shape(f)) for f in source.fns if f.crate != "lampbuckle_c"]
    for i, (f, a) in enumerate(shapes):
        for g, b in shapes[i + 1 :]:
            if min(len(a), len(b)) < 8 or max(len(a), len(b)) > 1.4 * min(len(a), len(b)):
                continue
            match = difflib.SequenceMatcher(None, a, b, autojunk=False)
            if match.quick_ratio() > 0.87 and match.ratio() > 0.87:
                yield match.ratio(), f, g


def show(source, point, page):
    found = POINTS[point](source).found
    counted = [x for x in found if not x[0].startswith("-")]
    by_crate = ", ".join("%s %d" % (c, n) for c in source.crates for n in [sum(x[1] == c for x in counted)] if n)
    titles = list(dict.fromkeys(x[0] for x in found))
    groups_of = "%d groups, " % len([t for t in titles if not t.startswith("-")]) if point in ("2", "5") else ""
    print("point %s: %s%d (%s)" % (point, groups_of, len(counted), by_crate))
    for title in titles:
        of = [x for x in found if x[0] == title]
        print("  %s: %d" % (title, len(of)))
        for crate in source.crates:
            places = [x for x in of if x[1] == crate]
            if not places:
                continue
            if page:
                files = {}
                for _, _, path, _, name in places:
                    files.setdefault(source.file(path) if "/src/" in path else "proofs", []).append(name)
                print("    %s: %s" % (crate, "; ".join("%s: %s" % (f, ", ".join(dict.fromkeys(n + (" (%d)" % ns.count(n) if ns.count(n) > 1 else "") for n in ns))) for f, ns in files.items())))
            else:
                for _, _, path, line, name in places:
                    print("    %s:%d %s" % (path, line, name))


def main():
    options = [a for a in sys.argv[1:] if a.startswith("--")]
    given = [a for a in sys.argv[1:] if not a.startswith("--")]
    source = Source(given[0].rstrip("/") if given else "crates")
    if "--near" in options:
        for ratio, f, g in sorted(alike(source), key=lambda x: -x[0]):
            print("%.2f %s:%d %s, %s:%d %s" % (ratio, f.path, f.line, f.title, g.path, g.line, g.title))
        return
    for point in given[1:] or POINTS:
        show(source, point, "--page" in options)


main()
