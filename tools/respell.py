#!/usr/bin/env python3
"""Brings the names of this repository's own definitions and lemmas to today's spelling: words in snake case, types in upper camel case.

Run once at the top, after the kit's port.py: python3 tools/respell.py. It renames what specs/ and proofs/ declare (definitions, lemmas,
fields, constructors), wherever specs, proofs, clauses and must-fail edits name it; functions of src/, exports, strings, inputs and outputs
keep their names. `if◌then◌else◌` of the crate answer is the library's own word today and is taken from there. With --names it prints each
old and new name and changes nothing. It ends with 1 where two names fall together in one file.
"""
import re
import sys
from pathlib import Path

ROOT = Path(__file__).resolve().parent.parent
DECLARED = re.compile(r"^\s*(?:(?:abbrev|unfoldable|pub|opaque|data|record|ruleset)\s+)*([^\s:(){};,.λ→]+)((?:\s+[^\s:(){};,.λ→=]+)*)(?:\s+\{[^}]*\}|\s+\([^)]*\))*\s+:(?=\s)")
TOKEN = re.compile(r"[^\s(){};,.λ→:=\[\]⟨⟩]+")
CAMEL = re.compile(r"[a-z][a-z0-9]*(?:[A-Z][a-z0-9]*)+")
# Lemmas that would take a word of the library's.
BY_HAND = {"bit-and": "bit_at-bit_and", "bit-or": "bit_at-bit_or", "bit-xor": "bit_at-bit_xor", "getD-in": "get_or-in"}
# Lemmas named as a definition beside them would be, file by file.
BESIDE = {"crates/lead/proofs/Ends.antt": "no_room", "crates/pieces/proofs/Ends.antt": "no_room"}
# Modules that Rattle makes itself today, and the name that each takes.
MODULES = {"Contracts": "Allowing"}


def is_lemma_file(path):
    """Whether a file holds definitions or lemmas, and not the proof of one function."""
    parts = path.relative_to(ROOT).parts
    return parts[2] == "specs" or parts[2] == "proofs" and len(parts) == 4


def snake(name):
    """The name in snake case, or a type's in upper camel case."""
    marks = name.split("◌")
    return "◌".join(it and snake_word(it) for it in marks)


def snake_word(word):
    if word[0].isupper():
        return re.sub(r"-([A-Za-z])", lambda m: m[1].upper(), word)
    word = re.sub(r"(?<=[a-z0-9])-(?=[A-Za-z0-9])", "_", word)
    word = re.sub(r"(?<=[a-z0-9])([A-Z])(?=[a-z0-9₀-₉]|$|_)", lambda m: "_" + m[1].lower(), word)
    return re.sub(r"(?<=[a-z])(?=[0-9]+$)", "", word)


def is_word(name):
    return re.fullmatch(r"[◌A-Za-z][◌A-Za-z0-9_'₀-₉-]*", name)


def declared(text):
    """Each name that a text of antt declares at the head of a line, also as a field, a constructor or a local lemma."""
    found = set()
    for line in text.splitlines():
        line = line.split("--")[0]
        match = DECLARED.match(line)
        if match and not re.match(r"\s*(let|in|use|λ|then|else)\b", line):
            found.update([match[1], *match[2].split()])
    return found


def code_and_comment(line, mark):
    """A line's code and its comment, of which the code may hold strings."""
    quoted = False
    for at, sign in enumerate(line):
        if sign == '"' and (at == 0 or line[at - 1] != "\\"):
            quoted = not quoted
        if not quoted and line.startswith(mark, at):
            return line[:at], line[at:]
    return line, ""


def turn(text, names):
    """The text in today's spelling; a variable in camel case turns too."""
    return TOKEN.sub(lambda m: names.get(m[0]) or (snake_word(m[0]) if CAMEL.fullmatch(m[0]) else m[0]), text)


def turn_antt(text, names):
    camel = {old: new for old, new in names.items() if "-" not in old}
    lines = []
    for line in text.split("\n"):
        at = line.find("--")
        code, said = (line, "") if at < 0 else (line[:at], line[at:])
        lines.append(turn(code, names) + turn(said, camel))
    return "\n".join(lines)


def turn_source(text, names):
    """Clauses and comments of a source: strings stay."""
    camel = {old: new for old, new in names.items() if "-" not in old}
    lines = []
    for line in text.split("\n"):
        parts = re.split(r'("(?:[^"\\]|\\.)*")', line)
        lines.append("".join(it if it.startswith('"') else turn(it, camel) for it in parts))
    return "\n".join(lines)


def module_paths(text):
    for old, new in MODULES.items():
        text = re.sub(rf"(?<=\.specs\.){old}(?=\b)", new, text)
    return text


def choice_of_std(text):
    """`if◌then◌else◌` comes from the library."""
    return text.replace("Rattle.answer.specs.Choice.{if◌then◌else◌}", "Rattle.std.specs.Prelude.{if◌then◌else◌}")


def main():
    files = [it for it in sorted(ROOT.glob("crates/*/*/**/*.antt")) if "/out/" not in str(it)]
    texts = {it: it.read_text() for it in files}
    for at, name in BESIDE.items():
        texts[ROOT / at] = turn(texts[ROOT / at], {name: f"{name}_lem"})
    names = {}
    for path, text in texts.items():
        if is_lemma_file(path):
            for name in declared(text):
                if is_word(name) and snake(name) != name:
                    names[name] = snake(name)
    taken = {new for old, new in names.items() if "-" not in old}
    for path, text in texts.items():
        if is_lemma_file(path):
            taken.update(it for it in declared(text) if it not in names)
    for old, new in names.items():
        names[old] = BY_HAND.get(old) or (f"{new}_lem" if "-" in old and new in taken else new)
    # the parts of an operator's name, where it is used
    for old, new in list(names.items()):
        for a, b in zip(old.split("◌"), new.split("◌")):
            if a and a != b:
                names[a] = b
    if "--names" in sys.argv:
        print("\n".join(f"{old} {new}" for old, new in sorted(names.items())))
        return 0
    clash = 0
    for path, text in texts.items():
        here = dict(names)
        if not is_lemma_file(path):
            for name in declared(text):
                if is_word(name) and snake(name) != name and not name[0].isupper() and name not in names:
                    here[name] = snake(name)
        tokens = set(TOKEN.findall("\n".join(line.split("--")[0] for line in text.split("\n"))))
        for old, new in here.items():
            if old in tokens and new in tokens and is_lemma_file(path):
                print(f"{path.relative_to(ROOT)}: {old} and {new} fall together")
                clash = 1
        path.write_text(choice_of_std(module_paths(turn_antt(text, here))))
    for path in sorted(ROOT.glob("crates/*/src/**/*.rt")):
        path.write_text(choice_of_std(module_paths(turn_source(path.read_text(), names))))
    for path in sorted(ROOT.glob("crates/*/must-fail/*.edit")):
        text = path.read_text()
        is_antt = ".antt" in text
        turned = [module_paths((turn_antt if is_antt else turn_source)(it, names)) if re.match(r"old: |new: ", it) else it for it in text.split("\n")]
        path.write_text("\n".join(turned))
    for old, new in MODULES.items():
        for path in list(ROOT.glob(f"crates/*/specs/{old}.antt")):
            path.rename(path.with_name(f"{new}.antt"))
            lib = path.with_name("Lib.antt")
            lib.write_text(lib.read_text().replace(f"pub mod {old}\n", f"pub mod {new}\n"))
    choice = ROOT / "crates/answer/specs/Choice.antt"
    if choice.exists():
        choice.unlink()
        lib = choice.with_name("Lib.antt")
        lib.write_text(lib.read_text().replace("pub mod Choice\n", ""))
    return clash


if __name__ == "__main__":
    sys.exit(main())
