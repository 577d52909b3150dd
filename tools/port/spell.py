#!/usr/bin/env python3
"""Spells the repository's own definitions, lemmas and fields in snake case, after port.py has turned the rest.

usage: spell.py FOLDER      FOLDER is the top of a repository; names.tsv beside this file has a line for each name, old and new

In .antt files each name of the table that stands as a whole word is turned, in .rt files those in ghost items and clauses; in comments
and must-fail edits too, in comments only where it is in backquotes or can't be read as a word of English. Where a lemma and a definition
would have fallen together, the lemma's new name ends in _lem.
"""
import os
import re
import sys

HERE = os.path.dirname(os.path.realpath(__file__))
NAME = re.compile(r'[^\s(){}.;,@"«»`]+')
# Lemmas that were in snake case already and would meet a definition's new name: the crate, the file's end, the words.
MET = [
    ("verdict", "", r"(?<![\w.-])shift_fits(?![\w'-])", "shift_fits_lem"),
    ("marks", "", r"(?<![\w.-])clear_of(?![\w'-])", "clear_of_lem"),
    ("worked_examples", "", r"(?<![\w.-])all_pass(?![\w'-])", "all_pass_lem"),
    ("endless_run", "LiveWords.antt", r"(?<![\w.-])answer_word(?![\w'-])", "answer_word_lem"),
    ("endless_run", "", r"(?<=law\.)answer_word(?![\w'-])", "answer_word_lem"),
]


def table():
    names = {}
    with open(os.path.join(HERE, "names.tsv"), encoding="utf8") as lines:
        for line in lines:
            old, new = line.rstrip("\n").split("\t")
            names[old] = new
    return names


def plain(word):
    """Snake case with no regard to what falls together."""
    word = word.replace("-", "_")
    word = re.sub(r"([a-z0-9])([A-Z])", lambda m: m.group(1) + "_" + m.group(2).lower(), word)
    return re.sub(r"_([A-Z])", lambda m: "_" + m.group(1).lower(), word)


def turn_code(text, names, walk):
    """Turns each whole word; in a function's proof a word behind a dot is mostly a label, and has no _lem."""
    aliases = set(re.findall(r"^\s*use \S+ as (\S+)", text, re.M))

    def word(match):
        old = match.group(0)
        if old not in names:
            return old
        new = names[old]
        if walk and new.endswith("_lem") and match.start() and match.string[match.start() - 1] == ".":
            head = re.search(r"([^\s(){}.;,@\"«»]+)\.$", match.string[:match.start()])
            if not head or head.group(1) not in aliases:
                return plain(old)
        return new

    return NAME.sub(word, text)


def turn_comment(text, names):
    text = re.sub(r"`([^`\n]*)`", lambda m: "`" + NAME.sub(lambda w: names.get(w.group(0), w.group(0)), m.group(1)) + "`", text)
    return re.sub(r"(?<![\w`-])[a-z]+[A-Z]\w*(?![\w-])", lambda m: names.get(m.group(0), m.group(0)), text)


def turn_antt(text, names, walk):
    out = []
    for line in text.split("\n"):
        at = re.search(r"(?:^|(?<=\s))--(?=\s|$)", line)
        if at:
            out.append((line[:at.start()], line[at.start():]))
        else:
            out.append((line, ""))
    code = turn_code("\n".join(c for c, _ in out), names, walk).split("\n")
    return "\n".join(c + turn_comment(k, names) for c, (_, k) in zip(code, out))


def turn_rt(text, names):
    """Ghost items and clauses, and in code whatever can't be Rust: a word in camel case."""
    lines = text.split("\n")
    out = []
    clause = False
    for line in lines:
        at = line.find("//")
        code, comment = (line, "") if at < 0 else (line[:at], line[at:])
        begins = re.match(r"\s*(pub )?ghost |\s*(requires|ensures|decreases)\b", code)
        if begins:
            clause = True
        if clause:
            code = turn_code(code, names, False)
            if re.search(r"[;}]\s*$", code):
                clause = False
        else:
            code = turn_comment(code, names)
        out.append(code + turn_comment(comment, names))
    return "\n".join(out)


def turn_edit(text, names):
    out = []
    target = ""
    for line in text.split("\n"):
        found = re.match(r"(old|new): ", line)
        if line.startswith("file: "):
            target = line[6:].strip()
        if found:
            turned = turn_rt(line[5:], names) if target.endswith(".rt") else turn_antt(line[5:], names, "Proof.antt" in target)
            line = found.group(0) + turned
        elif line.startswith("#"):
            line = turn_comment(line, names)
        out.append(line)
    return "\n".join(out)


def main(argv):
    names = table()
    top = argv[1]
    for folder, below, files in os.walk(os.path.join(top, "crates")):
        below[:] = [b for b in below if b != "out"]
        for name in files:
            path = os.path.join(folder, name)
            if not name.endswith((".antt", ".rt", ".edit")):
                continue
            with open(path, encoding="utf8") as file:
                text = file.read()
            walk = re.search(r"/proofs/.+/Proof\.antt$", path) is not None
            crate = os.path.relpath(path, os.path.join(top, "crates")).split(os.sep)[0]
            new = text
            if name.endswith(".antt"):
                for of, end, old, word in MET:
                    if of == crate and path.endswith(end):
                        new = re.sub(old, word, new)
                new = turn_antt(new, names, walk)
            elif name.endswith(".rt"):
                new = turn_rt(new, names)
            else:
                new = turn_edit(new, names)
            if new != text:
                with open(path, "w", encoding="utf8") as file:
                    file.write(new)


main(sys.argv)
