#!/usr/bin/env python3
"""Brings the repository's own definitions and lemmas to one spelling, once: words in snake case, types in upper camel case, a prime as an apostrophe.

usage: python3 tools/respell.py     at the top, after the library's own script

Names that begin with a letter and hold a dash or a prime are turned where they are declared in specs/ or proofs/, or bound in a proof, and wherever they are cited.
Names that the check makes (goals, and the facts a proof is given), names of the library, comments, strings and functions of src/ stay as they are.
A dash that joins two names one of which is an operator stays. It prints each name that falls together with another one.
"""
import os
import re
import sys

PATH = r"[\w'′₀-₉·-]"
NAME = re.compile(r"(?<![\w'′₀-₉·*+-])[^\W\d_][\w'′₀-₉]*(?:-[\w'′₀-₉]+)*")
DECLARED = re.compile(r"^\s*(?:pub )?(?:abbrev |unfoldable |opaque |private )*(?:pub )?(?:record |data |ruleset )?([^\W\d_][\w'′₀-₉-]*)\s*(?:\([^)]*\)\s*)*(?::|=|$)")
FIELD = re.compile(r"^\s+(?:pub )?([^\W\d_][\w'′₀-₉-]*) :")


def files(root):
    for folder, dirs, names in os.walk(os.path.join(root, "crates")):
        dirs[:] = sorted(d for d in dirs if d not in ("out", "must-fail", "data"))
        for n in sorted(names):
            if n.endswith((".antt", ".rt")):
                yield os.path.join(folder, n)


def code_and_rest(line, comment):
    """The line's code, and its comment. A string in Rust code is left to the caller."""
    i = line.find(comment)
    return (line, "") if i < 0 else (line[:i], line[i:])


def new(name):
    name = name.replace("′", "'")
    if "-" not in name:
        return name
    parts = name.split("-")
    if parts[0][0].isupper():
        return "".join(p[0].upper() + p[1:] for p in parts)
    return "_".join(parts)


def old_style(name):
    return "-" in name or "′" in name


def own(path):
    """Whether a `use` path is of this repository, and of a file that a person wrote."""
    return OWN.match(path) and not re.search(r"\.(Goals|Given|Start)\b", path)


def gather(paths):
    """The dashed names that are declared (words), those of them that are fields of records, and, by file, those bound in it alone."""
    words, fields, local = set(), set(), {}
    for p in paths:
        mine = local.setdefault(p, set())
        with open(p, encoding="utf-8") as f:
            lines = f.read().split("\n")
        if p.endswith(".rt"):
            for line in lines:
                for alias in re.findall(r"\bas ([^\W\d_][\w'′₀-₉-]*)", code_and_rest(line, "//")[0]):
                    if old_style(alias):
                        mine.add(alias)
            continue
        answers = p.endswith(("/Answers.antt", "/Invariants.antt"))
        made = set(re.findall(r"^pub (?:abbrev )?(\S+) : (?:goal|given)\.", "\n".join(lines), re.M))
        in_record = False
        for raw in lines:
            line = code_and_rest(raw, "--")[0]
            if re.match(r"^\s*(pub )?record |^\s*(pub )?data ", line):
                in_record = True
                indent = len(line) - len(line.lstrip())
            elif line.strip() and in_record and len(line) - len(line.lstrip()) <= indent:
                in_record = False
            m = FIELD.match(line)
            if in_record and m and old_style(m.group(1)):
                fields.add(m.group(1))
            m = DECLARED.match(line)
            if m and old_style(m.group(1)) and m.group(1) not in made and " : " in line + " ":
                (mine if answers and not line.startswith("pub") else words).add(m.group(1))
            for alias in re.findall(r"\bas ([^\W\d_][\w'′₀-₉-]*)", line):
                if old_style(alias):
                    mine.add(alias)
            for bound in re.findall(r"\blet ([^\W\d_][\w'′₀-₉-]*)", line):
                if old_style(bound):
                    mine.add(bound)
            for group in re.findall(r"λ ([^.]*?)\.", line) + re.findall(r"[({]([^(){}:]+?) :", line):
                for bound in NAME.findall(group):
                    if old_style(bound):
                        mine.add(bound)
            head = line.split(" = ")[0] if " = " in line else (line[:-2] if line.rstrip().endswith(" =") else "")
            if head and " : " not in head and not line.lstrip().startswith(("let ", "use ", "pub ", "abbrev ")):
                toks = NAME.findall(head)
                for bound in toks[1:]:
                    if old_style(bound) and not re.search(r"\." + re.escape(bound), head):
                        mine.add(bound)
    return words, fields, local


def turn_code(text, names, fields, aliases):
    def one(m):
        name, before = m.group(0), text[: m.start()]
        if not old_style(name) or name not in names:
            return name
        if before.endswith("."):
            head = re.search(r"([\w'′₀-₉-]+)\.$", before)
            qualified = head and head.group(1) in aliases
            if name not in fields and not qualified:
                return name
        return new(name)

    return NAME.sub(one, text)


def turn(p, words, fields, local, library):
    with open(p, encoding="utf-8") as f:
        text = f.read()
    comment = "//" if p.endswith(".rt") else "--"
    names = (words | fields | local.get(p, set()))
    out, aliases = [], set()
    lines = text.split("\n")
    kept = set()
    for line in lines:
        m = re.match(r"^(?:ghost )?use (\S+?)(?:\.\{(.*)\})?(?: as ([\w'-]+))?;?$", line)
        if m and not own(m.group(1)):
            for item in (m.group(2) or "").split(","):
                word = item.strip().split(" as ")
                if len(word) == 1 and word[0] in names:
                    kept.add(word[0])
        elif m and m.group(3) and own(m.group(1)):
            aliases.add(m.group(3))
    names = names - kept
    for line in lines:
        m = re.match(r"^((?:ghost )?use (\S+?)\.\{)(.*)(\};?)$", line)
        if m and not own(m.group(2)):
            out.append(line if " as " not in line else re.sub(r" as ([\w'′₀-₉-]+)", lambda a: " as " + (new(a.group(1)) if a.group(1) in names else a.group(1)), line))
            continue
        code, rest = code_and_rest(line, comment)
        if comment == "//" and '"' in code:
            parts = re.split(r'(b?"(?:[^"\\]|\\.)*")', code)
            code = "".join(x if i % 2 else turn_code(x, names, fields, aliases) for i, x in enumerate(parts))
        else:
            code = turn_code(code, names, fields, aliases)
        rest = re.sub(r"`[^`]*`", lambda q: turn_code(q.group(0), words | fields, fields, aliases), rest)
        out.append(code + rest)
    result = "\n".join(out).replace("*ℤ-assoc", "*ℤ_assoc")
    if result != text:
        with open(p, "w", encoding="utf-8") as f:
            f.write(result)
    return kept


def together(words, fields, paths):
    """Names that would fall together: two old ones, or an old one and one that is there already."""
    plain = set()
    for p in paths:
        if p.endswith(".antt"):
            for line in open(p, encoding="utf-8"):
                m = DECLARED.match(line)
                if m and not old_style(m.group(1)) and " : " in line:
                    plain.add(m.group(1))
    by = {}
    for w in words | fields:
        by.setdefault(new(w), set()).add(w)
    for n, olds in sorted(by.items()):
        if len(olds) > 1 or n in plain:
            print("together:", n, "<-", ", ".join(sorted(olds)), "(and there already)" if n in plain else "")


def main():
    global OWN
    root = os.getcwd()
    crates = [d for d in os.listdir(os.path.join(root, "crates"))]
    OWN = re.compile(r"^Rattle\.(%s)\.(specs|proofs)\b" % "|".join(map(re.escape, crates)))
    paths = list(files(root))
    words, fields, local = gather(paths)
    together(words, fields, paths)
    kept = set()
    for p in paths:
        kept |= turn(p, words, fields, local, None)
    print("respelled:", len(words | fields), "names; names of the library that stay in the files that import them:", " ".join(sorted(kept)) or "none")


if __name__ == "__main__":
    sys.exit(main())
