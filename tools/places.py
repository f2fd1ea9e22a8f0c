#!/usr/bin/env python3
"""Counts the places in crates/*/src that docs/DESIGN-PASS.md speaks of, one line for each place and a last line for each point.

Run at the top of the repository: python3 tools/places.py [-q]   (-q: the counts alone)
"""
import collections
import glob
import re
import sys

QUIET = "-q" in sys.argv[1:]
FILES = sorted(glob.glob("crates/*/src/**/*.rt", recursive=True))
TEXT = {name: open(name, encoding="utf-8").read() for name in FILES}
COUNT = collections.OrderedDict()


def place(point, name, line, what):
    COUNT[point] = COUNT.get(point, 0) + 1
    if not QUIET:
        print(f"{point}: {name[7:]}:{line}: {what}")


def line_of(text, at):
    return text.count("\n", 0, at) + 1


def functions(text):
    """Yields (name, line, head, clauses, body) of each function, by the layout of rt fmt."""
    for m in re.finditer(r"^( *)(?:pub(?:\(crate\))? )?(?:extern \"C\" )?fn (\w+)", text, re.M):
        indent = m.group(1)
        opened = re.compile(r"^" + indent + r"\{$|\{$", re.M)
        start = m.start()
        end = re.compile(r"^" + indent + r"\}$", re.M).search(text, start)
        if not end:
            continue
        whole = text[start:end.end()]
        cut = re.search(r"^" + indent + r"\{$", whole, re.M) or re.search(r"\{$", whole, re.M)
        if not cut:
            continue
        head, body = whole[:cut.start()], whole[cut.end():]
        parts = re.split(r"^ *(?=requires|ensures)", head, maxsplit=1, flags=re.M)
        yield m.group(2), line_of(text, start), parts[0], parts[1] if len(parts) > 1 else "", body


# 1. Own enums of the shape of Option or Result, a flag with a value beside it, numbers for kinds or refusals.
NOTHING = r"None|Not|Nothing|Ended|Sound|Empty|Wrong|Malformed|End|Unread"
for name, text in TEXT.items():
    for m in re.finditer(r"^ *(?:pub(?:\(crate\))? )?enum (\w+) \{(.*?)^ *\}", text, re.M | re.S):
        if re.search(r"^ +(?:" + NOTHING + r")\b", m.group(2), re.M):
            place("1 enums", name, line_of(text, m.start()), "enum " + m.group(1))
    for fn, line, head, clauses, body in functions(text):
        if re.search(r"-> bool\s*$", head.strip()) and "&mut" in head:
            place("1 flags", name, line, f"fn {fn} says by a bool whether it filled what is lent")
        number = re.search(r"-> [ui]32\s*\{?$", head.strip())
        if number and (fn.endswith("_number") or re.search(r"first_of|_number\b", clauses) or fn in ("judged_by", "fill", "write_beside", "write", "number_alone")):
            place("1 numbers", name, line, f"fn {fn} answers a number for a refusal or a kind")
    for m in re.finditer(r"^ *if [\w.]*(?:number|unfit|error|fault_number\(.*\)) != 0 \{", text, re.M):
        place("1 tests", name, line_of(text, m.start()), m.group(0).strip())
    for m in re.finditer(r"^ *if words\.\w+ [!=]= 0\b.*\{|^ *if .*&& !?takes\.\w+ \{", text, re.M):
        place("1 tests", name, line_of(text, m.start()), m.group(0).strip())

# 2. Functions that differ only in a name, a type, a size or a constant.
shapes = collections.defaultdict(list)
for name, text in TEXT.items():
    for fn, line, head, clauses, body in functions(text):
        flat = re.sub(r"//.*", "", head + body)
        flat = re.sub(r'b?"(?:[^"\\]|\\.)*"', "S", flat)
        flat = re.sub(r"\b(?:0x[0-9a-f]+|\d+)(?:u8|u16|u32|u64|usize)?\b", "N", flat)
        flat = re.sub(r"\b(?!fn\b|let\b|mut\b|if\b|else\b|match\b|return\b|for\b|in\b|while\b|as\b|pub\b|Err\b|Ok\b|Some\b|None\b)[A-Za-z_]\w*", "x", flat)
        flat = re.sub(r"\s+", " ", flat)
        if body.count("\n") >= 6:
            shapes[flat].append((name, line, fn))
for group in shapes.values():
    if len(group) > 1:
        for name, line, fn in group[1:]:
            place("2 twins", name, line, f"fn {fn} is {group[0][2]} of {group[0][0][7:]} but for names and constants")

# 3. Loops that count an index by hand.
for name, text in TEXT.items():
    for m in re.finditer(r"^( *)while (\w+) < .*\{$|^( *)while 0 < (\w+) \{$", text, re.M):
        place("3 loops", name, line_of(text, m.start()), m.group(0).strip())
    for m in re.finditer(r"^( *)for (\w+) in [\w.]+\.\..*\{$", text, re.M):
        body = text[m.end():re.compile("^" + m.group(1) + r"\}", re.M).search(text, m.end()).start()]
        if re.search(r"\w\[" + m.group(2) + r"\b[^\]]*\]|row_at\(\w+, " + m.group(2) + r"\)", body):
            place("3 loops", name, line_of(text, m.start()), m.group(0).strip())

# 4. Equality, order, copying, conversion and printing by hand.
for name, text in TEXT.items():
    for fn, line, head, clauses, body in functions(text):
        if re.match(r"same\w*$|is_clean$|eq$", fn) and "-> bool" in head:
            place("4 equality", name, line, f"fn {fn}")
        if re.match(r"flat_\w+$|found_by$|kind_of$|\w+_number$|number_of$|wear_of$|byte_of$|rows_of$|bytes_of$|one_if$", fn) and "->" in head and "Result" not in head:
            place("4 conversion", name, line, f"fn {fn}")
    for m in re.finditer(r"\bprint::\w+\(|\bio::(?:write_all|print_\w+|decimal)\(", text):
        place("4 printing", name, line_of(text, m.start()), m.group(0))

# 5. A fact in the contracts of three or more functions, and parameters that always travel together.
facts = collections.defaultdict(list)
groups = collections.defaultdict(list)
for name, text in TEXT.items():
    crate = name.split("/")[1]
    for fn, line, head, clauses, body in functions(text):
        for m in re.finditer(r"^ *requires [^{]*\{ (.*) \}$", "requires" + clauses.split("requires", 1)[1] if "requires" in clauses else "", re.M):
            for fact in m.group(1).split(" × "):
                facts[crate, fact.strip("()")].append((name, line, fn))
        types = tuple(re.findall(r"(\w+): &?(?:mut )?[\w<>\[\]; ]+", head[head.find("("):head.rfind(")") + 1]))
        for size in (3, 4):
            for k in range(len(types) - size + 1):
                groups[crate, types[k:k + size]].append((name, line, fn))
for (crate, fact), where in facts.items():
    if len(where) >= 3:
        for name, line, fn in where:
            place("5 facts", name, line, f"fn {fn} requires {fact}")
for (crate, names), where in groups.items():
    if len(where) >= 3:
        place("5 parameters", where[0][0], where[0][1], f"{', '.join(names)} go together in {len(where)} functions")

# 6. Buffers with a length beside them, parallel arrays.
for name, text in TEXT.items():
    for m in re.finditer(r"&\w+\[(?:0)?\.\.\w+\]|\bpart\(&?\w+, 0, ", text):
        place("6 buffers", name, line_of(text, m.start()), m.group(0))
    for fn, line, head, clauses, body in functions(text):
        if re.search(r"&?\[u(?:8|32); \w+\],\s*\w*(?:length|count|n)\w*: u(?:size|32)|Gathered, count", head):
            place("6 buffers", name, line, f"fn {fn} takes an array and its length")
    for m in re.finditer(r"struct (\w+) \{(.*?)^ *\}", text, re.M | re.S):
        arrays = re.findall(r": (?:\[\w+; \w+\]|Levels|Indexes|Flags)", m.group(2))
        if len(arrays) > 2:
            place("6 arrays", name, line_of(text, m.start()), f"struct {m.group(1)} has {len(arrays)} arrays side by side")

# 7. A switch on which step to run.
for name, text in TEXT.items():
    for m in re.finditer(r"^ *if (?:word::)?is\((?:&?rt|line), \w+, b\".*\{", text, re.M):
        place("7 switches", name, line_of(text, m.start()), m.group(0).strip())
    for m in re.finditer(r"^ *match stop \{", text, re.M):
        place("7 switches", name, line_of(text, m.start()), m.group(0).strip())

# 8. Proofs.
for pattern, what in (("crates/*/proofs/**/Answers.antt", "8 answers"), ("crates/*/proofs/**/Invariants.antt", "8 invariants")):
    for name in glob.glob(pattern, recursive=True):
        COUNT[what] = COUNT.get(what, 0) + 1
COUNT["8 lines"] = sum(open(name, encoding="utf-8").read().count("\n") for name in glob.glob("crates/*/proofs/**/*.antt", recursive=True))

print("; ".join(f"{point} {count}" for point, count in COUNT.items()))
