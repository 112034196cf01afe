#!/usr/bin/env python3
"""Respells the names that this repository's own specs/ and proofs/ declare, below the folder given (the top of the repository, if none is).

usage: python3 tools/respell.py [FOLDER]

A definition, lemma, field or constructor with dashes gets underscores (gcd-of: gcd_of); a type with dashes goes into upper camel case
(Sound-over: SoundOver), and a fact named after a type keeps the dash behind the type; a name in lower camel case gets underscores.
In specs/ and clauses AllByRecursion of the standard library stands under its own name, which has to be so. Its other names stay, and so do the labels that the checker makes for goals. A word of a comment turns where the file's code
has it, and a code span of a document where it is such a name. It prints each name whose new spelling stood in a file already.
"""

import os
import re
import sys

WORD = re.compile(r'[^\s(){}.;,@"«»]+')
HEAD = re.compile(r"(?m)^ *(?:(?:pub|unfoldable|abbrev|opaque|record|data|private|type|new) +)*([^\s(){}.;,@\"«»]+)((?: *[({][^\n]*?[)}])*?) +: (.*)$")
USE = re.compile(r"\buse (Rattle\.[^\s;{]+)\.\{([^}]*)\}|\buse (Rattle\.[^\s;{]+)")
QUIET = re.compile(r'"(?:[^"\\\n]|\\.)*"|b?\'(?:\\.|[^\'\\])\'')
OWN = None
# What would be spelled like a word of the library, with the name that it gets.
APART = {"to-bits": "bits_of", "from-bits": "signed_value"}


def files(top):
    for folder, dirs, names in os.walk(os.path.join(top, "crates")):
        dirs[:] = sorted(d for d in dirs if d not in ("out", "must-fail"))
        for name in sorted(names):
            if name.endswith((".antt", ".rt")):
                yield os.path.join(folder, name)


def code_of(text, mark):
    return "\n".join(line.split(mark)[0] for line in text.split("\n"))


def snake(name):
    name = re.sub(r"(?<=[a-z0-9])[A-Z]", lambda m: "_" + m[0].lower(), name)
    return name.replace("-", "_")


def camel(name):
    return "".join(part[:1].upper() + part[1:] for part in name.split("-"))


def new_name(name, typed):
    if name in APART:
        return APART[name]
    if re.fullmatch(r"◌[a-z-]+◌", name):
        return name.replace("-", "_")
    if not re.fullmatch(r"[A-Za-z][A-Za-z0-9_']*(-[A-Za-z0-9_']+)*", name):
        return name
    if name[0].isupper():
        if "-" not in name:
            return name
        if typed:
            return camel(name)
        head, rest = name.split("-", 1)
        return head + "-" + snake(rest)
    return snake(name)


def declared(top):
    table = {}
    for path in files(top):
        with open(path, encoding="utf-8") as f:
            text = f.read()
        for m in re.finditer(r"(?<= as )[a-z]+(-[a-z]+)+(?=[,}\n])", text):
            table[m[0]] = snake(m[0])
        if not path.endswith(".antt"):
            continue
        text = code_of(text, "--")
        for m in HEAD.finditer(text):
            name, kind = m[1], m[3]
            if re.match(r"(goal|given)\.", kind):
                continue
            typed = bool(re.search(r"(^|→ )Type \d+( where)?$", kind.strip())) or m[0].lstrip().startswith(("pub record", "record", "pub data", "data"))
            new = new_name(name, typed)
            if new != name:
                table[name] = new
                table[name.replace("◌", "")] = new.replace("◌", "")
    return table


def lent(text):
    """The names that the file imports from libraries that are not the repository's."""
    found = set()
    for m in USE.finditer(text):
        if (m[1] or m[3]).split(".")[1] in OWN:
            continue
        for item in re.split(r",", m[2] or ""):
            item = item.strip()
            if item:
                found.add(item.split(" as ")[0].strip())
    return found


def turn_file(path, table, said):
    with open(path, encoding="utf-8") as f:
        text = f.read()
    mark = "--" if path.endswith(".antt") else "//"
    stay = lent(text)
    made = bool(re.search(r"/proofs/.*/(Answers|Invariants|Choices|Proof)[^/]*\.antt$", path))
    words = set(WORD.findall(code_of(text, mark)))

    def word(m):
        w = m[0]
        if w not in table or w in stay:
            return w
        if made and m.start() and m.string[m.start() - 1] == "." and not re.search(r"Rattle[\w.]*\.$", m.string[:m.start()]) and w not in FIELDS:
            return w
        if table[w] in words and (path, w) not in said:
            said.add((path, w))
            print(f"meets: {path}: {w} becomes {table[w]}, which stands there")
        return table[w]

    def line(text_line):
        code, sep, comment = text_line.partition(mark)
        pieces, at = [], 0
        for q in QUIET.finditer(code):
            pieces += [WORD.sub(word, code[at:q.start()]), q[0]]
            at = q.end()
        pieces.append(WORD.sub(word, code[at:]))
        comment = WORD.sub(lambda m: table[m[0]] if m[0] in table and m[0] in words and m[0] not in stay else m[0], comment)
        return "".join(pieces) + sep + comment

    new = "\n".join(line(l) for l in text.split("\n"))
    new = re.sub(r"(?<=[{ ,])([^\s{},;]+) as \1(?=[,}])", r"\1", new)
    if ("/specs/" in path or path.endswith(".rt")) and "AllByRecursion as All" in new:
        new = "\n".join(own_all(l, mark) for l in new.split("\n"))
    if new != text:
        with open(path, "w", encoding="utf-8") as f:
            f.write(new)
        return 1
    return 0


def own_all(line, mark):
    if re.match(r"\s*(pub )?(ghost )?use ", line):
        return line.replace("AllByRecursion as All", "AllByRecursion")
    code, sep, comment = line.partition(mark)
    return re.sub(r"(?<![\w.'-])All(?![\w'-])", "AllByRecursion", code) + sep + comment


def turn_document(path, table):
    with open(path, encoding="utf-8") as f:
        text = f.read()
    new = re.sub(r"`([^`\n]+)`", lambda s: "`" + WORD.sub(lambda m: table.get(m[0], m[0]), s[1]) + "`", text)
    if new != text:
        with open(path, "w", encoding="utf-8") as f:
            f.write(new)


FIELDS = set()


def main(top):
    global OWN
    OWN = set(os.listdir(os.path.join(top, "crates")))
    table = declared(top)
    for path in files(top):
        if path.endswith(".antt"):
            with open(path, encoding="utf-8") as f:
                for m in re.finditer(r"(?m)^ +(?:pub )?([^\s(){}.;,]+) :", f.read()):
                    FIELDS.add(m[1])
    said = set()
    turned = sum(turn_file(path, table, said) for path in files(top))
    for folder in (top, os.path.join(top, "docs")):
        for name in sorted(os.listdir(folder)) if os.path.isdir(folder) else []:
            if name.endswith(".md"):
                turn_document(os.path.join(folder, name), table)
    back = {}
    for old, new in table.items():
        back.setdefault(new, []).append(old)
    for new, olds in back.items():
        if len(olds) > 1:
            print(f"falls together: {', '.join(olds)}: {new}")
    print(f"{len(table)} names, {turned} files")


if __name__ == "__main__":
    main(sys.argv[1] if len(sys.argv) > 1 else ".")
