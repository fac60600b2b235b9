#!/usr/bin/env python3
"""snake_names: the repository's own names in today's spelling: definitions, members of data and records in snake case, a lemma that joins two names with a dash.

usage: python3 tools/snake_names.py     at the top, once, over what port.py left (docs/PORT.md)

It turns whole words in the .antt files, in the clauses, imports and comments of the .rt files, and in the edits of must-fail/; nothing in quotes, and no name of a function of src/.
1. A lemma whose dash port.py took, since the library has a word of that spelling, gets its dash back: it stood beside a definition that gets the underscore.
2. A word in camel case that begins small gets underscores: `sameOrigin` is `same_origin`.
3. A constructor, a field or a definition of specs/ gets underscores for dashes, unless another word of the repository has that spelling.
It prints each name of the third kind that stays."""
import collections
import glob
import os
import re

os.chdir(os.path.join(os.path.dirname(os.path.abspath(__file__)), ".."))
BACK = """ascii/proofs/Texts part_in same_bytes; ascii/proofs/part/Proof part_in; containers/proofs/Steps entry_in; decisions/proofs/Laws mask_below; declarations/proofs/Laws some_is
declarations/proofs/Meanings item_in; dictionaries/proofs/Laws some_is; dictionaries/proofs/Suffixes item_in; document_loads/proofs/Arriving rest_of; document_loads/proofs/Framing mask_below
document_loads/proofs/Written mask_below; document_model/proofs/Answering answer_at; document_model/proofs/Forecasts mask_below; document_model/proofs/Laws answer_at
document_model/proofs/Tables found_in; document_runs/proofs/Claims answer_at; document_runs/proofs/Existence mask_below; document_table/proofs/Prefixes same_number
documents/proofs/Answering bytes_of; documents/proofs/Loads bytes_of; features/proofs/Entries entry_at; features/proofs/Names same_bytes; features/proofs/Rules same_bytes
features/proofs/entry/Proof entry_at; items/proofs/Ranges part_in read_at; origins/proofs/Alike same_bytes; origins/proofs/ExpressionTexts part_in; origins/proofs/HostEnds ended_at
origins/proofs/HostParts part_in; origins/proofs/Laws part_in same_bytes; origins/proofs/ended/Proof ended_at; pieces/proofs/Cutting high_end part_in; pieces/proofs/Finding part_in
pieces/proofs/Laws entry_in same_bytes; pieces/proofs/Placing entry_in part_in; pieces/proofs/piece_at/Proof part_in; replay_lines/proofs/CutLines cut_at too_many
replay_lines/proofs/FieldReadings part_in; replay_lines/proofs/Slots part_in; settled/proofs/Reading byte_at part_in; settling/proofs/Documents entry_in same_bytes
settling/proofs/Listing item_in; settling/proofs/Members some_is; speed_exports/proofs/Codes part_in; tidying/proofs/RoundTrip same_by same_bytes"""
WORD = r"[^\s(){}.;,@\"«»:\[\]`|]+"
QUIET = re.compile(r'"(?:[^"\\\n]|\\.)*"')


def read(path):
    with open(path, encoding="utf-8") as f:
        return f.read()


def turned(text, of, pattern=re.compile(WORD)):
    """The text with each word turned, but for what stands in quotes."""
    out, at = [], 0
    for q in QUIET.finditer(text):
        out += [pattern.sub(lambda m: of(m[0]), text[at:q.start()]), q[0]]
        at = q.end()
    return "".join(out) + pattern.sub(lambda m: of(m[0]), text[at:])


def snake(w):
    if re.match(r"[a-z◌]", w) and re.search(r"[a-z0-9][A-Z]", w) and not re.search(r"[/<>=]", w):
        return re.sub(r"(?<=[a-z0-9])[A-Z]", lambda m: "_" + m[0].lower(), w)
    return w


def members(path):
    """The constructors and fields that a file declares, and the definitions of a file of specs/."""
    inside = False
    for line in read(path).split("\n"):
        if re.match(r"(pub )?(data|record) ", line):
            inside = True
        elif line and not line.startswith(" "):
            inside = False
        m = re.match(r"  (?:pub )?(" + WORD + r") : ", line) if inside else None
        m = m or (re.match(r"(?:(?:abbrev|unfoldable|pub) )*(" + WORD + r") : ", line) if "/specs/" in path else None)
        if m and "-" in m[1]:
            yield m[1]


antt = sorted(glob.glob("crates/*/specs/**/*.antt", recursive=True) + glob.glob("crates/*/proofs/**/*.antt", recursive=True))
rt = sorted(glob.glob("crates/*/src/**/*.rt", recursive=True))
edits = sorted(glob.glob("crates/*/must-fail/*.edit"))

new = {p: read(p) for p in antt + rt + edits}
for row in re.split(r"[;\n]\s*", BACK):
    name, *words = row.split()
    p = f"crates/{name}.antt"
    new[p] = turned(new[p], lambda w: w.replace("_", "-") if w in words else w)
for p in new:
    new[p] = turned(new[p], snake)

words = collections.Counter(w for p in antt + rt for w in re.findall(WORD, QUIET.sub("", new[p])))
table = {}
for p in antt:
    for w in members(p):
        to = snake(w).replace("-", "_")
        if to in words and to not in table.values():
            print("stays:", w, p)
        else:
            table[snake(w)] = to
for p in new:
    new[p] = turned(new[p], lambda w: table.get(w, w))
    if new[p] != read(p):
        with open(p, "w", encoding="utf-8") as f:
            f.write(new[p])
