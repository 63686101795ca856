#!/usr/bin/env python3
"""Spells this repository's own definitions and lemmas as today's Rattle does: words in snake case, types and modules in camel case, a dash only
between the names of two definitions. What port.py had respelled, beside this file in port_names.tsv, is turned in must-fail edits and pages as well.
Usage, once, at the top, after port.py: python3 tools/port_names.py. It writes crates/, docs/ and README.md."""
import collections
import glob
import os
import re
import subprocess

TOKEN = re.compile(r"[A-Za-z_\u0370-\u03ff][\w'\u2032\u2080-\u2089]*(?:-[\w'\u2032\u2080-\u2089]+)*")
DECLARED = re.compile(r"^(\s*)((?:abbrev |unfoldable |pub |mutual )*)([A-Za-z_][\w'\u2032-]*) :(?:\s|$)")
BLOCK = re.compile(r"^(\s*)(?:abbrev |unfoldable |pub )*(record|data) ([A-Za-z]\w*)")
# Modules that Rattle now makes itself: `specs.contracts` is its own.
MOVED = {"Contracts": "Operations"}
# Words of the kit's library that a dash joins to another name.
LIBRARY = set("length take drop append replicate map fold get_or eqb leb ltb cond".split())
# Rust names have no dash and no capital inside: such a word in src/ is one of specs/.
RUST = re.compile(r"[A-Za-z_][A-Za-z0-9_]*$")


def read(path):
    with open(path, encoding="utf-8") as f:
        return f.read()


def snake(word):
    word = re.sub(r"([a-z0-9])([A-Z])", lambda m: m.group(1) + "_" + m.group(2).lower(), word)
    return word


def declared():
    """Each own name, and whether it is a 'word' (a definition or a type), a 'lemma' or a 'part' (a field or a constructor)."""
    names = collections.defaultdict(set)
    for path in sorted(glob.glob("crates/*/specs/*.antt") + glob.glob("crates/*/proofs/*.antt")):
        depth, kind = None, None
        for line in read(path).split("\n"):
            block = BLOCK.match(line)
            if block:
                depth, kind = len(block.group(1)), block.group(2)
                names[block.group(3)].add("word")
                continue
            m = DECLARED.match(line)
            if m:
                inside = depth is not None and len(m.group(1)) > depth
                if inside:
                    names[m.group(3)].add("part")
                elif "abbrev" in m.group(2) or "unfoldable" in m.group(2) or "/specs/" in path:
                    names[m.group(3)].add("word")
                else:
                    names[m.group(3)].add("lemma")
            if depth is not None and line.strip() and len(line) - len(line.lstrip()) <= depth:
                depth = None
    return names


def respelled(names):
    words = {n for n, kinds in names.items() if "word" in kinds} | LIBRARY
    words |= {snake(n) if n[0].islower() else n for n in words}
    table = {}
    for name, kinds in names.items():
        parts = [p if p[:1].isupper() else snake(p) for p in name.replace("\u2032", "'").split("-")]
        new = parts[0]
        for k in range(1, len(parts)):
            left = "-".join(name.split("-")[:k])
            joined = kinds == {"lemma"} and parts[k] in words and (parts[k - 1] in words or left in words or parts[0][:1].isupper())
            joined = joined or (kinds == {"lemma"} and k == 1 and parts[0][:1].isupper())
            new += ("-" if joined else "_") + parts[k]
        if new != name:
            table[name] = new
    for new, olds in clashes(names, table).items():
        words = [n for n in olds if "word" in names[n]] or [n for n in olds if names[n] == {"part"}][:1]
        for name in olds:
            if name in words:
                continue
            if "part" in names[name]:
                table.pop(name, None)
            else:
                table[name] = new + "_lem"
    return table


def clashes(names, table):
    by_new = collections.defaultdict(set)
    for name in names:
        by_new[table.get(name, name)].add(name)
    return {new: olds for new, olds in by_new.items() if len(olds) > 1}


def code(text, table, keep=(), rust=False):
    def turn(m):
        word = m.group(0)
        if word in keep or rust and RUST.match(word) and word == word.lower():
            return word
        return table.get(word, word)

    return TOKEN.sub(turn, text)


def antt(text, table, keep=(), steps=False):
    """Code outside comments and quotations; in a comment what stands between backticks. With steps, what a generated record calls a step stays."""
    out = []
    own = "|".join(sorted(os.listdir("crates")))
    for line in text.split("\n"):
        if re.match(rf"use (?!Rattle\.(?:{own})\.)", line):
            out.append(line)
            continue
        at = line.find("--")
        while at > 0 and line[at - 1] not in " \t(":
            at = line.find("--", at + 2)
        body, said = (line, "") if at < 0 else (line[:at], line[at:])
        pieces = re.split(r'("(?:[^"\\]|\\.)*")', body)
        for k in range(0, len(pieces), 2):
            if not steps:
                shut = re.split(r"(use Rattle\.[^{ ]*)", pieces[k])
                for j in range(0, len(shut), 2):
                    shut[j] = code(shut[j], table, keep)
                pieces[k] = "".join(shut)
            else:
                shut = re.split(r"((?<![\w-])(?:c|start|place|at-loop)(?:\.before)*\.[\w-]+|\btie\.[\w-]+|use Rattle\.[^{ ]*|\.[\w-]+(?=\.(?:ensures|true|false|invariant|given|new|result|requires)))", pieces[k])
                for j in range(0, len(shut), 2):
                    shut[j] = code(shut[j], table, keep)
                pieces[k] = "".join(shut)
        out.append("".join(pieces) + quoted(said, table))
    return "\n".join(out)


def foreign(text):
    """The names that a file imports from the kit's library."""
    own = "|".join(sorted(os.listdir("crates")))
    names = set()
    for m in re.finditer(r"^(?:ghost )?use ([^{\n]*)\{([^}]*)\}", text, re.M):
        if not re.match(rf"Rattle\.(?:{own})\.", m.group(1)):
            names |= {n.strip() for n in m.group(2).split(",") if " as " not in n}
    return names


def quoted(text, table):
    """A comment or a page: what stands between backticks, and words with a capital inside."""
    text = re.sub(r"(?<![\w`.-])[a-z][a-z0-9]*[A-Z]\w*(?![\w-])", lambda m: table.get(m.group(0), m.group(0)), text)
    return re.sub(r"`([^`\n]+)`", lambda m: "`" + code(m.group(1), table) + "`", text)


def rt(text, table):
    out = []
    for line in text.split("\n"):
        at = line.find("//")
        body, said = (line, "") if at < 0 else (line[:at], line[at:])
        pieces = re.split(r'(b?"(?:[^"\\]|\\.)*")', body)
        for k in range(0, len(pieces), 2):
            pieces[k] = code(pieces[k], table, (), True)
        out.append("".join(pieces) + quoted(said, table))
    return "\n".join(out)


def move_modules():
    for path in sorted(glob.glob("crates/*/specs/*.antt")):
        name = os.path.basename(path)[:-5]
        if name in MOVED:
            subprocess.run(["git", "mv", path, os.path.join(os.path.dirname(path), MOVED[name] + ".antt")], check=True)


def write(path, text):
    if read(path) != text:
        with open(path, "w", encoding="utf-8") as f:
            f.write(text)


def main():
    names = declared()
    table = respelled(names)
    for new, olds in sorted(clashes(names, table).items()):
        print("fall together:", new, sorted(olds), [sorted(names[o]) for o in sorted(olds)])
    move_modules()
    here = os.path.join(os.path.dirname(os.path.abspath(__file__)), "port_names.tsv")
    by_port = dict(line.split("\t") for line in read(here).splitlines())
    older = table | {old: table.get(new, new) for old, new in by_port.items()}
    paths = sorted(p for p in glob.glob("crates/**/*", recursive=True) if os.path.isfile(p) and "/out/" not in p)
    for path in paths:
        if path.endswith(".antt"):
            text = read(path)
            for old, new in MOVED.items():
                text = text.replace(f".specs.{old}.", f".specs.{new}.")
                text = text.replace(f"pub mod {old}\n", f"pub mod {new}\n") if path.endswith("specs/Lib.antt") else text
            if re.search(r"/proofs/.+/", path):
                own = foreign(text) | set(re.findall(r"^([\w'-]+) :", text, re.M)) | set(re.findall(r"^(?:abbrev |pub )+([\w'+-]+) :", text, re.M))
                write(path, antt(text, table, own, True))
            else:
                write(path, antt(text, table, foreign(text)))
        elif path.endswith((".rt", ".edit")):
            text = read(path)
            for old, new in MOVED.items():
                text = text.replace(f".specs.{old}.", f".specs.{new}.").replace(f"specs/{old}.antt", f"specs/{new}.antt")
            write(path, rt(text, table) if path.endswith(".rt") else edit(text, older))
    for path in ["README.md", *sorted(glob.glob("docs/*.md"))]:
        if path != "docs/PORT.md":
            write(path, quoted(read(path), older))
    print(len(names), "names,", len(table), "spelled anew")


def edit(text, table):
    """The texts of an edit; its first lines say in words what it does."""
    return "\n".join(code(l, table, (), True).replace("\u2032", "'") if l.startswith(("old:", "new:")) and '"' not in l else l for l in text.split("\n"))


if __name__ == "__main__":
    main()
