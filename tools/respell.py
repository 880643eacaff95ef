#!/usr/bin/env python3
"""Brings the repository's own definitions and lemmas to today's spelling: types in upper camel case, all else in snake case.

usage: python3 tools/respell.py [FOLDER]    once, at the top, right after port.py

It reads which names crates/*/specs and crates/*/proofs declare and turns each where it stands as a whole word: in specs/, proofs/ and the clauses of src/, in
comments and pages only between backticks. A name that a file imports from another library keeps its spelling there. Names of src/, goals, strings and outputs stay.
"""

import collections
import glob
import os
import re
import sys

# Two names of one spelling: the second of each pair gets a name of its own.
APART = {
    "chunkSlice": "slice_of_entry",
    "endsInside": "span_ends_inside",
    "withIntro": "with_intro_at",
    "pieceCount": "entry_piece_count",
    "chunk-of": "chunk_from",
    "refusedBy": "change_refused_by",
    "rowEntry": "entry_of_row",
    "startsInside": "span_starts_inside",
    "code-of": "char_code_of",
    "frozenIn": "frozen_in_rows",
    "countIn": "count_in_entry",
    "startsIn": "entry_starts_in",
    "withText": "with_text_at",
    "rowsBelow": "used_rows_below",
    "bytesBelow": "used_bytes_below",
    "chunkRows": "chunk_row_count",
    "calls-of": "recorded_calls",
    "answersOf": "record_answers_of",
    "marksOf": "record_marks_of",
    "startsOf": "chunk_starts_of",
    "chunksAt": "chunks_of_rows",
    "textAt": "stored_text_at",
    "tailOf": "tail_part_of",
    "withSides": "with_side_places",
    "clearedText": "cleared_text_place",
    "chunkText": "text_of_chunk",
    "firstBytes": "first_bytes_of",
}
# A name that port.py gave to a crate's own definition and that another crate's gets.
BY_CRATE = {"indent_turns": {"left_of": "desk_left_of"}}

SIGNATURE = re.compile(r"^ *(?:(?:abbrev|unfoldable|pub) )*((?:[^\s:(){}]+ )*[^\s:(){}]+) : (.*)$")
WORD = re.compile(r"[^\s(){}\[\];,.\"|`@]+")
TYPE = re.compile(r"(→ |^)Type (0|1|ℓ\w*)$")
OWN = "crates"


def read(path):
    with open(path, encoding="utf-8") as f:
        return f.read()


def sources(root):
    crates = os.path.join(root, OWN)
    found = []
    for folder in ("specs", "proofs", "src"):
        for end in ("antt", "rt"):
            found += glob.glob(os.path.join(crates, "*", folder, "**", "*." + end), recursive=True)
    return sorted(found)


def declared(text, walk):
    """The names that a file declares, each with whether it is a type's. Of a walk by hand (Proof.antt) only its own lemmas."""
    for line in text.split("\n"):
        head = re.match(r"^ *(?:pub )?(?:data|record) (\S+)", line)
        if head:
            yield head.group(1), True
        elif line.lstrip().startswith("use ") and " as " in line and "{" not in line:
            yield line.split(" as ")[1].strip(), False
        elif not line.lstrip().startswith(("--", "let", "|", "use", "=")):
            m = SIGNATURE.match(line)
            if m and not (walk and re.search(r"\btie\.|\bstatement\b|^Need", m.group(2))):
                for name in m.group(1).split():
                    if name not in ("abbrev", "pub", "unfoldable"):
                        yield name, bool(TYPE.search(m.group(2)))


def snake(name, is_type):
    if name in APART:
        return APART[name]
    if not re.search(r"[A-Za-z0-9]", name):
        return name
    if is_type and re.match(r"^[A-Za-z]", name) and re.search(r"[-_]|^[a-z]", name):
        return "".join(p[:1].upper() + p[1:] for p in re.split("[-_]", name))
    new = name.replace("-", "_") if "◌" not in name else name
    if re.match(r"^[a-z]", new):
        new = re.sub(r"([a-z0-9])([A-Z])(?![A-Z_])", lambda m: m.group(1) + "_" + m.group(2).lower(), new)
    return new


def foreign(text, own):
    """The names that a file takes from other libraries."""
    names = set()
    for m in re.finditer(r"(?m)^ *(?:ghost )?(?:pub )?use ([^\s{;]+?)\.\{([^}]*)\}", text):
        if m.group(1).split(".")[:2] in own:
            continue
        for part in m.group(2).split(","):
            names.update(p.strip() for p in part.split(" as "))
    return names


def turn_code(text, table):
    return WORD.sub(lambda m: table.get(m.group(0), m.group(0)), text)


def turn_prose(text, table):
    return re.sub(r"`[^`\n]*`", lambda m: turn_code(m.group(0), table), text)


def turn_line(line, table, comment):
    if re.match(r'^\s*' + comment, line):
        return turn_prose(line, table)
    code, mark, rest = line.partition(" " + comment + " ")
    return turn_code(code, table) + mark + turn_prose(rest, table)


def main(root):
    files = sources(root)
    texts = {f: read(f) for f in files}
    kinds = collections.defaultdict(set)
    for f, text in texts.items():
        if f.endswith(".antt"):
            for name, is_type in declared(text, f.endswith("/Proof.antt")):
                kinds[name].add(is_type)
    table = {n: snake(n, True in k) for n, k in kinds.items()}
    table = {n: m for n, m in table.items() if m != n}
    together = collections.defaultdict(set)
    for n in kinds:
        together[table.get(n, n)].add(n)
    for m, ns in sorted(together.items()):
        if len(ns) > 1 and not any(m in by.values() or m in by for by in BY_CRATE.values()):
            print("fall together:", m, sorted(ns))
    own = [["Rattle", c] for c in os.listdir(os.path.join(root, OWN))]
    for f, text in texts.items():
        crate = os.path.relpath(f, os.path.join(root, OWN)).split(os.sep)[0]
        here = {n: m for n, m in (table | BY_CRATE.get(crate, {})).items() if n not in foreign(text, own)}
        words = set(WORD.findall(text))
        for n in sorted(words & set(here)):
            if here[n] in words and here[n] not in table and n not in BY_CRATE.get(crate, {}):
                print("look:", os.path.relpath(f, root), n, "becomes", here[n], "which stands there already")
        comment = "--" if f.endswith(".antt") else "//"
        new = "\n".join(turn_line(line, here, comment) for line in text.split("\n"))
        if new != text:
            with open(f, "w", encoding="utf-8") as out:
                out.write(new)
    pages = glob.glob(os.path.join(root, "**", "*.md"), recursive=True)
    for f in pages:
        if "/out/" in f or "/target/" in f or f.endswith("PORT.md"):
            continue
        text = read(f)
        new = turn_prose(text, table)
        if new != text:
            with open(f, "w", encoding="utf-8") as out:
                out.write(new)
    print(len(table), "names in", len(files), "files")


if __name__ == "__main__":
    main(sys.argv[1] if len(sys.argv) > 1 else ".")
