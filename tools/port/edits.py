#!/usr/bin/env python3
"""Spells the words of the library in must-fail edits as today's Rattle does, once, after port.py and spell.py, which turn none of them.

usage: edits.py FOLDER      FOLDER is the top of a repository
"""
import glob
import re
import sys

WORDS = {
    "isTop": "is_top", "leZ": "le_z", "ltZ": "lt_z", "valueAt": "value_at", "rowOf": "row_of", "partCount": "part_count",
    "runOf": "run_of", "getD": "get_or", "numberAt": "number_at", "markOf": "mark_of", "inTurn": "in_turn", "bitOf": "bit_of",
    "byteOf": "byte_of", "negℤ": "neg_ℤ", "subℕ": "sub_ℕ", "⊎-elim": "⊎_elim", "planOf": "plan_of", "readingOf": "reading_of",
    "lastRow": "last_row", "rowAt": "row_at", "seenOf": "seen_of", "topsOf": "tops_of", "aheadOf": "ahead_of",
}


def turn(text):
    text = re.sub(r"Rattle·(\w+)·(specs|proofs)\.(?:specs|proofs)\.", r"Rattle.\1.\2.", text)
    text = text.replace("Iff·", "Iff.").replace("the-variants", "TheVariants")
    text = re.sub(r"(?<![\w.'-])(" + "|".join(WORDS) + r")(?![\w'-])", lambda m: WORDS[m.group(1)], text)
    if text.startswith("use "):
        text = re.sub(r"(?<=[{ ])_(\S+?)_(?=[,}])", r"◌\1◌", text)
    for _ in range(4):
        text = re.sub(r"\((\w[\w.']*(?: \.[\w-]+)+)\)", lambda m: m.group(1).replace(" .", "."), text)
        text = re.sub(r"(?<=[\w'])((?: \.[\w-]+)+)(?![\w-])", lambda m: m.group(1).replace(" .", "."), text)
    text = re.sub(r"ensures \{ λ (\w+)\. ⌜ (.*) ⌝ \}", lambda m: "ensures { " + re.sub(rf"\b{m.group(1)}\b", "result", m.group(2)) + " }", text)
    text = re.sub(r"requires \{ ⌜ (.*) ⌝ \}", r"requires { \1 }", text)
    text = re.sub(r"now \((\w+)\.entry\)", r"\1.now", text)
    text = re.sub(r"now \((\w+)\.entry\.(\w+)\)", r"\1.entry.\2.now", text)
    return text


for path in glob.glob(sys.argv[1] + "/crates/*/must-fail/**/*.edit", recursive=True):
    with open(path, encoding="utf8") as file:
        lines = file.read().split("\n")
    out = []
    for line in lines:
        found = re.match(r"(old|new):( ?)", line)
        if found:
            body = line[found.end():]
            lead = len(body) - len(body.lstrip())
            line = found.group(0) + body[:lead] + turn(body[lead:])
        out.append(line)
    if out != lines:
        with open(path, "w", encoding="utf8") as file:
            file.write("\n".join(out))
