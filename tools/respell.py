#!/usr/bin/env python3
"""Spells the definitions and lemmas of this repository as the language's library spells its own: words in snake case, types and facts in camel case.

usage: tools/respell.py [--check]      at the top of the repository

The names are those that specs/ and the lemma files of proofs/ declare: definitions, records and their fields, data and their constructors.
A name turns as a whole word, in every .antt file, in the clauses of .rt files, in must-fail edits of specs/ and in code spans of pages.
Strings of Rust, comments but for code spans and a first word that is a name, and the labels that the prover makes (behind `goal.`, and the steps of `c.`) stay.
Bound variables and the names of imports turn too, each in its own file.
--check writes nothing, and lists the names, old and new, and those that fall together. A second run writes nothing more.
"""
import collections
import glob
import os
import re
import sys

WORD = r"[^\s(){}.;,@\"«»`|\[\]]+"
DEFINITION = re.compile(rf"^ *(?:(?:abbrev|unfoldable|pub) )*({WORD})(?: \{{[^{{}}\n]*\}})? :(?= |$)", re.M)
TYPE = re.compile(rf"^(?:(?:pub) )?(?:data|record) ({WORD})", re.M)


def read(path):
    with open(path, encoding="utf-8") as f:
        return f.read()


def antt_files():
    for pattern in ("crates/*/specs/**/*.antt", "crates/*/proofs/**/*.antt"):
        yield from sorted(glob.glob(pattern, recursive=True))


def is_label_file(path):
    return os.path.basename(path) in ("Answers.antt", "Invariants.antt", "Choices.antt", "Proof.antt")


def bare(text):
    return re.sub(r"--[^\n]*", "", text)


def blocks(text):
    """The fields and constructors of the text's records and data."""
    for m in re.finditer(r"^(?:pub )?(?:data|record) [^\n]*where\n((?: [^\n]*\n|\n)*)", text, re.M):
        for line in m.group(1).split("\n"):
            member = re.match(rf"^  (?:pub )?((?:{WORD} )+):(?: |$)", line)
            if member:
                yield from (n for n in member.group(1).split() if n != "pub")
            elif re.match(rf"^  (?:{WORD} )*{WORD}$", line) and ":" not in line:
                yield from line.split()


def spelt(name):
    if name[0].isupper():
        parts = name.split("-")
        return parts[0] + "".join(p[:1].upper() + p[1:] for p in parts[1:])
    return name.replace("-", "_")


def declared():
    found = collections.defaultdict(set)
    for path in antt_files():
        if is_label_file(path):
            continue
        text = bare(read(path))
        names = list(DEFINITION.findall(text)) + list(TYPE.findall(text)) + list(blocks(text))
        for name in names:
            found[name].add(path)
    return found


def table(found):
    return {n: spelt(n) for n in found if "-" in n and not n.startswith("-") and re.fullmatch(r"[A-Za-z][\w'-]*", n)}


def turn(text, names, keep_labels):
    before = r"(?<![\w'\-.])" if keep_labels else r"(?<![\w'\-])"
    pattern = re.compile(before + r"([A-Za-z][\w']*(?:-[\w']+)+)(?![\w'\-])")
    return pattern.sub(lambda m: names.get(m.group(1), m.group(1)), text)


def turn_dotted(text, names, labels):
    """Turns names behind a dot, but for those that the prover makes: behind goal, behind c and l, and in steps below them."""
    def one(m):
        path = m.group(0).split(".")
        for i in range(1, len(path)):
            made = path[0] in ("goal", "c", "l") and i == 1 and path[1] in labels
            if not made and not path[0] == "goal":
                path[i] = names.get(path[i], path[i])
        path[0] = names.get(path[0], path[0])
        return ".".join(path)
    return re.sub(r"(?<![\w'\-.)])[A-Za-z][\w'-]*(?:\.[\w'-]+)+", one, text)


def turn_code(text, names, label_file):
    if not label_file:
        return turn(text, names, False)
    labels = set(re.findall(r"goal\.([\w'-]+)", text))
    text = turn_dotted(text, names, labels)
    text = turn(text, {k: v for k, v in names.items() if k not in labels}, True)
    return re.sub(r"(?<=\))\.([\w'-]+)", lambda m: "." + names.get(m.group(1), m.group(1)), text)


def turn_antt(text, names, label_file):
    out = []
    for line in text.split("\n"):
        code, dash, comment = re.match(r"^(.*?)((?:(?<=\s)|^)--(?=\s|$)|$)(.*)$", line, re.S).groups()
        comment = re.sub(r"`[^`]*`", lambda m: turn(m.group(0), names, False), comment)
        comment = re.sub(r"^( )([A-Za-z][\w'-]*)(?= )", lambda m: m.group(1) + names.get(m.group(2), m.group(2)), comment)
        out.append(turn_code(code, names, label_file) + dash + comment)
    return "\n".join(out)


def turn_rust(text, names):
    piece = re.compile(r'//[^\n]*|"(?:\\.|[^"\\])*"')
    out, at = [], 0
    for m in piece.finditer(text):
        out.append(turn(text[at:m.start()], names, False))
        out.append(re.sub(r"`[^`]*`", lambda s: turn(s.group(0), names, False), m.group(0)) if m.group(0).startswith("//") else m.group(0))
        at = m.end()
    out.append(turn(text[at:], names, False))
    return "".join(out)


def turn_page(text, names):
    return re.sub(r"`[^`\n]*`", lambda m: turn(m.group(0), names, False), text)


def turn_local(text, label_file):
    """Turns the names that a file alone knows: bound variables, and the names under which it imports."""
    code = bare(text)
    kept = set(re.findall(r"goal\.([\w'-]+)", code)) if label_file else set()
    for listed in re.findall(r"\buse [^\s{;]+\.\{([^}]*)\}", code):
        kept |= {name.strip().split(" as ")[0] for name in listed.split(",")}
    tokens = set(re.findall(r"(?<![\w'.\-])[A-Za-z][\w']*(?:-[\w']+)+(?![\w'-])", code)) - kept
    return {n: n.lower().replace("-", "_") for n in tokens}


def split_comment(line):
    m = re.search(r"(?:(?<=\s)|^)--(?=\s|$)", line)
    return (line[:m.start()], line[m.start():]) if m else (line, "")


def write(path, text, new, check):
    if text != new and not check:
        with open(path, "w", encoding="utf-8") as f:
            f.write(new)
    return text != new


def main():
    check = "--check" in sys.argv
    found = declared()
    names = table(found)
    met = collections.defaultdict(set)
    for old, new in names.items():
        met[new].add(old)
        if new in found:
            met[new].add(new)
    together = {new: olds for new, olds in met.items() if len(olds) > 1}
    if check:
        for old, new in sorted(names.items()):
            print(f"{old}\t{new}")
    for new, olds in sorted(together.items()):
        print("together:", new, sorted(olds), sorted({p for o in olds for p in found[o]}))
    n = 0
    for path in antt_files():
        text = read(path)
        label_file = is_label_file(path)
        lines = turn_antt(text, names, label_file).split("\n")
        locals_of = turn_local("\n".join(lines), label_file)
        lines = [turn(code, locals_of, True) + rest for code, rest in (split_comment(line) for line in lines)]
        n += write(path, text, "\n".join(lines), check)
    for path in sorted(glob.glob("crates/*/src/**/*.rt", recursive=True)):
        text = read(path)
        new = turn_rust(text, names)
        aliases = {a: spelt(a) for listed in re.findall(r"ghost use [^\s{;]+\.\{([^}]*)\}", new) for a in re.findall(r" as ([\w'-]+)", listed) if "-" in a}
        n += write(path, text, turn_rust(new, aliases) if aliases else new, check)
    for path in sorted(glob.glob("crates/*/must-fail/*.edit")):
        text = read(path)
        n += write(path, text, turn(text, names, False) if "file: specs/" in text else text, check)
    for path in ["README.md"] + sorted(glob.glob("docs/*.md") + glob.glob("docs/landings/*.md")):
        if os.path.basename(path) not in ("PORT.md",):
            text = read(path)
            n += write(path, text, turn_page(text, names), check)
    print(f"respell: {len(names)} names, {n} files")


main()
