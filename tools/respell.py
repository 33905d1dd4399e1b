#!/usr/bin/env python3
"""The names of this repository in the spelling of rattle-kit-13f: words in snake case; types and modules keep theirs.

usage: python3 tools/respell.py        at the top, once, after the kit's port.py

It renames words of specs/ and proofs/ (clauses of .rt files, must-fail edits and names between ` in the pages too), specs/Contracts.antt,
whose name the kit now gives to a module that it makes, and the crate hex, since the kit has a library of that name. Where a definition
and a law of it would fall together, the law ends in _holds. It puts #![tactic(auto)] at the head of each crate, and makes plain structs
and enums Copy, as all were."""

import collections
import os
import re

TOKEN = re.compile(r"[^\s(){}\[\];,.\"`@]+")
WORD = re.compile(r"^[a-z][A-Za-z0-9₀-₉']*(-[A-Za-z0-9₀-₉']+)+$|^[a-z][a-z0-9₀-₉']*(?:[A-Z][A-Za-z0-9₀-₉']*)+$|^ACTION-(live|safe)$")
CRATES = "crates"
# laws, fields and variables whose name in snake case is that of a definition that the same file names
FALL_TOGETHER = {
    "all_digits", "board-words", "bounds-by", "buffer-proper", "buffer-words", "bytes-of-word", "dirty-at", "end-type", "export-answers",
    "form-as", "good-sizes", "good-work", "has-place", "held-at", "is-offered", "is-record", "line-checked", "most-entries", "most-lines",
    "most-slots", "new-reader", "proper-in", "proper-slot", "proper-tag", "reader-put", "recover-stores", "slot-form", "two_bytes", "with-bit",
    "with-buffer", "with-name", "work-words",
}
OTHERWISE = {"clean-slot": "clean_now", "in-capitals": "text_in_capitals"}


def snake(word):
    if word in OTHERWISE:
        return OTHERWISE[word]
    if word in FALL_TOGETHER:
        return word.replace("-", "_") + "_holds"
    word = re.sub(r"(?<=[a-z0-9₀-₉'])([A-Z])", lambda m: "_" + m.group(1).lower(), word.replace("-", "_"))
    return re.sub(r"_([A-Z])", lambda m: "_" + m.group(1).lower(), word)


def files(*endings):
    for folder, dirs, names in os.walk(CRATES):
        dirs[:] = sorted(d for d in dirs if d != "out")
        for name in sorted(names):
            if name.endswith(endings):
                yield os.path.join(folder, name)


def read(path):
    with open(path, encoding="utf-8") as f:
        return f.read()


def write(path, text):
    with open(path, "w", encoding="utf-8") as f:
        f.write(text)


def split_comment(line, mark):
    """The line's code, and its comment."""
    at = 0
    while True:
        at = line.find(mark, at)
        if at < 0:
            return line, ""
        if line[:at].count('"') % 2 == 0 and (at == 0 or line[at - 1].isspace()):
            return line[:at], line[at:]
        at += 1


def foreign(text):
    """The names that a file imports from elsewhere than this repository."""
    own = set(os.listdir(CRATES))
    names = set()
    for m in re.finditer(r"\buse ([^\s{;]+?)\.\{([^}]*)\}", text):
        path = m.group(1).split(".")
        if path[0] == "Rattle" and len(path) > 1 and path[1] in own:
            continue
        for name in m.group(2).split(","):
            names.update(name.strip().split(" as "))
    return names


def turned(text, mark, known, keep, also):
    """The text with its words renamed: everywhere in code, in comments between ` alone."""

    def word(token):
        if token in keep or token not in known:
            return token
        if token in also:
            return snake(token)
        return snake(token) if WORD.match(token) else token

    out = []
    for line in text.split("\n"):
        code, comment = split_comment(line, mark)
        code = TOKEN.sub(lambda m: word(m.group(0)), code)
        comment = re.sub(r"`[^`]*`", lambda m: TOKEN.sub(lambda n: word(n.group(0)), m.group(0)), comment)
        out.append(code + comment)
    return "\n".join(out)


def known_words():
    known = set()
    for path in files(".antt"):
        if os.path.basename(path) == "Proof.antt":
            continue
        text = read(path)
        keep = foreign(text)
        for line in text.split("\n"):
            for token in TOKEN.findall(split_comment(line, "--")[0]):
                if (WORD.match(token) or token in FALL_TOGETHER) and token not in keep:
                    known.add(token)
    return known


def main():
    # the crate and the files
    os.rename("crates/hex", "crates/intel_hex")
    text = read("crates.txt")
    write("crates.txt", re.sub(r"\bhex\b", "intel_hex", text))
    for path in files(".rt", ".antt"):
        text = new = read(path)
        new = new.replace("Rattle.hex.", "Rattle.intel_hex.")
        if path.endswith(".rt"):
            new = re.sub(r"(?<![\w:])hex::", "intel_hex::", new)
        new = re.sub(r"(Rattle\.\w+\.specs\.)Contracts\b", r"\1Promises", new)
        new = re.sub(r"(?m)^pub mod Contracts$", "pub mod Promises", new)
        if new != text:
            write(path, new)
    for path in list(files("Contracts.antt")):
        os.rename(path, path.replace("Contracts.antt", "Promises.antt"))
    # the words
    known = known_words()
    also = {w for w in FALL_TOGETHER if "_" in w}
    for path in files(".rt", ".antt"):
        text = read(path)
        if os.path.basename(path) == "Proof.antt":
            continue
        mark = "//" if path.endswith(".rt") else "--"
        in_rust = also if path.endswith(".antt") else set()
        new = turned(text, mark, known | in_rust, foreign(text) | (also if path.endswith(".rt") else set()), in_rust)
        if new != text:
            write(path, new)
    for path in files(".edit"):
        out = []
        for line in read(path).split("\n"):
            head = re.match(r"(old|new): ", line)
            out.append(line[:5] + TOKEN.sub(lambda m: snake(m.group(0)) if m.group(0) in known and WORD.match(m.group(0)) else m.group(0), line[5:]) if head else line)
        write(path, "\n".join(out))
    for page in ["README.md"] + [os.path.join(d, f) for d, _, fs in os.walk("docs") for f in fs if f.endswith(".md")] + ["bench/README.md"]:
        text = read(page)
        names = {snake(w) for w in known} | {snake(w) for w in also}

        def word(m):
            t = m.group(0)
            return snake(t) if WORD.match(t) and (t in known or snake(t) in names) else t

        new = re.sub(r"`[^`\n]*`", lambda m: TOKEN.sub(word, m.group(0)), text)
        new = re.sub(r"\bspecs/Contracts\b", "specs/Promises", new)
        new = re.sub(r"\bcrates/hex\b", "crates/intel_hex", new)
        new = re.sub(r"(?<=`)hex(?=[`/]|::)", "intel_hex", new)
        if new != text:
            write(page, new)
    # heads and derives
    for path in files(".rt"):
        text = new = read(path)
        new = new.replace("#[derive(Drop)]", "#[derive(Clone, Copy)]")
        if os.path.basename(path) in ("lib.rt", "main.rt") and "#![tactic(auto)]" not in new:
            lines = new.split("\n")
            at = 0
            while at < len(lines) and lines[at].startswith("//"):
                at += 1
            lines[at:at] = ["#![tactic(auto)]", ""]
            new = "\n".join(lines)
        if new != text:
            write(path, new)


if __name__ == "__main__":
    main()
