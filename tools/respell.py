#!/usr/bin/env python3
"""Spells the repository's own names of specs/ and proofs/ as Rattle's libraries do: words in snake case, `'` for a prime.

usage: python3 tools/respell.py [ROOT]      once, on what the kit's port.py left

Three kinds of text are turned:
  - lemma files (specs/*.antt, proofs/*.antt): every name but those that the file imports from the kit;
  - proofs of functions (proofs/F/*.antt): the names that the file imports from this repository, and fields of its records;
  - .rt files, must-fail edits and pages: the names of the first kind that are declared (in pages only between backticks).
A name with a dash that would fall together with another declared name ends in `_lem`. Functions of src/, strings, inputs and outputs keep their names.
In edits the spelling that port.py gives clauses is given too: `r.f` is written tight, `·` in a path is a dot.
"""

import collections
import os
import re
import sys

CHAR = r"[^\s(){}.;,@\"«»]"
TOKEN = re.compile(CHAR + "+")
NAME = re.compile(r"^[A-Za-z]" + CHAR + "*$")
DECLARED = re.compile(r"^\s*((?:(?:pattern|unfoldable|abbrev|pub|data|record)\s+)*)((?:" + CHAR + r"+\s+)*?" + CHAR + r"+)((?:\s+\([^:]*:[^)]*\)|\s+\{[^}]*\})*)\s+:\s")
USE = re.compile(r"^\s*(?:ghost\s+)?(?:pub\s+)?use\s+([^\s{;]+?)\.\{([^}]*)\}", re.M)
STRING = re.compile(r"\"(?:\\.|[^\"\\])*\"")
# names that port.py gave a lemma, and that its function has in snake case
LEMMAS = {"sum_over", "digit_value", "in_heap", "ends_at", "is_number", "last_by"}
KEPT = {"sum_over": "sumOver", "digit_value": "digitValue"}


def snake(name):
    if not name[0].islower():
        return name
    name = name.replace("-", "_")
    return re.sub(r"(?<=[a-z0-9_'])([A-Z])", lambda m: ("" if name[m.start() - 1] == "_" else "_") + m.group(1).lower(), name)


def texts(root, ends):
    for top in ("crates", "docs"):
        for folder, folders, files in os.walk(os.path.join(root, top)):
            folders[:] = sorted(d for d in folders if d != "out")
            for f in sorted(files):
                if f.endswith(ends):
                    yield os.path.join(folder, f)
    if ".md" in ends:
        for f in ("README.md", "CHANGELOG.md"):
            yield os.path.join(root, f)


def kind(root, path):
    parts = os.path.relpath(path, os.path.join(root, "crates")).split(os.sep)
    return "lemmas" if parts[1] == "specs" or (parts[1] == "proofs" and len(parts) == 3) else "walk"


def read(path):
    with open(path, encoding="utf-8") as f:
        return f.read()


def imported(text, own):
    """The names that a file takes from the kit, and from this repository."""
    kit, ours = set(), set()
    for path, names in USE.findall(text):
        parts = path.split(".")
        is_ours = parts[0] == "Rattle" and len(parts) > 1 and parts[1] in own
        for item in names.split(","):
            for word in item.strip().split(" as "):
                (ours if is_ours else kit).add(word.strip())
    return kit, ours


def code_of(line):
    if line.lstrip().startswith("--"):
        return "", line
    at = line.find(" -- ")
    return (line, "") if at < 0 else (line[:at], line[at:])


def turn(code, table, behind=None):
    """The code with its names turned; of the names behind a dot only those of `behind`, where it is given."""

    def one(m):
        word = m.group(0)
        if word not in table:
            return word
        if behind is not None and m.start() and code[m.start() - 1] == "." and word not in behind:
            return word
        return table[word]

    return TOKEN.sub(one, code)


def landed(text, used):
    """The names in a text that port.py turned in the files, and not in edits and pages."""
    words = [w for w in TOKEN.findall(text) if re.match(r"^[a-z]+[A-Z-]", w)]
    return {w: snake(w) for w in words if snake(w) != w and snake(w) in used}


def main():
    root = os.path.abspath(sys.argv[1] if len(sys.argv) > 1 else ".")
    own = set(os.listdir(os.path.join(root, "crates")))
    declared, fields, used, kept = set(), set(), collections.defaultdict(set), {}
    for path in texts(root, (".antt",)):
        if kind(root, path) != "lemmas":
            continue
        text = read(path)
        kit, _ = imported(text, own)
        kept[path] = kit
        for line in text.split("\n"):
            code, _ = code_of(line)
            m = DECLARED.match(code)
            if m and "let" not in m.group(2).split():
                for name in m.group(2).split():
                    if NAME.match(name):
                        declared.add(name)
                        if m.group(1).strip() == "pub" and line[0] == " ":
                            fields.add(name)
            for word in TOKEN.findall(STRING.sub("", code)):
                if NAME.match(word) and word not in kit:
                    used[word].add(path)
    # what falls together: the name of a definition stays plain, a name with a dash ends in _lem
    plain = {snake(n) for n in declared if "-" not in n}
    table = {}
    for word in used:
        new = snake(word)
        if "-" in word and new in plain:
            new += "_lem"
        if word in KEPT and KEPT[word] in declared:
            new = word + "_lem"
        if new != word:
            table[word] = new
    left = collections.Counter(table.values())
    for word, new in table.items():
        if left[new] > 1 or (new in used and new not in table):
            where = [w for w in list(table) + [new] if (table.get(w) == new or w == new) and w in used]
            shared = [p for p in used[word] if any(p in used[w] for w in where if w != word)]
            if shared:
                print(f"respell: {word} and {[w for w in where if w != word]} fall together in {os.path.relpath(shared[0], root)}", file=sys.stderr)
    count = 0
    for path in texts(root, (".antt", ".rt", ".edit", ".md")):
        text = old = read(path)
        if path.endswith(".antt"):
            lemmas = kind(root, path) == "lemmas"
            kit, ours = imported(text, own)
            mine = {w: n for w, n in table.items() if w not in kit and (lemmas or w in ours or w in fields)}
            free = {w: n for w, n in mine.items() if lemmas or w in ours}
            said = {w: n for w, n in table.items() if w in declared and ("-" not in w)}
            lines = []
            for line in text.split("\n"):
                code, comment = code_of(line)
                if lemmas:
                    code = turn(code, mine, declared)
                else:
                    path_line = re.match(r"^\s*(pub\s+)?use\s", code)
                    code = turn(code, free) if path_line else turn(code, mine, fields)
                comment = turn(comment, said)
                comment = re.sub(r"`[^`]*`", lambda m: turn(m.group(0).replace("`", " ` "), {w: n for w, n in table.items() if w in declared}).replace(" ` ", "`"), comment)
                lines.append(code + comment)
            text = "\n".join(lines)
        elif path.endswith(".rt"):
            names = {w: n for w, n in table.items() if "-" not in w and w not in KEPT} | {w: snake(w) for w in re.findall(r"\b[a-z][a-z0-9]*[A-Z]\w*\b", text)}
            parts, at = [], 0
            for m in STRING.finditer(text):
                parts += [turn(text[at : m.start()], names), m.group(0)]
                at = m.end()
            text = "".join(parts) + turn(text[at:], names)
            uses = {w: n for w, n in table.items() if "-" in w}
            text = re.sub(r"^ghost use [^;]*;", lambda m: turn(m.group(0), uses), text, flags=re.M)
        elif path.endswith(".edit"):
            lines = text.split("\n")
            antt = False
            for i, line in enumerate(lines):
                if line.startswith("file:"):
                    antt = line.endswith(".antt")
                if antt and line.startswith(("old:", "new:")):
                    line = line.replace("′", "'")
                    line = line[:4] + turn(line[4:], table | landed(line[4:], used))
                    line = re.sub(r"Rattle·(\w+)·(specs|proofs)\.\2", r"Rattle.\1.\2", line)
                    line = re.sub(r"(?<=[\w']) \.(?=[\w])", ".", line)
                    line = re.sub(r"(?<=[\w']) \.(?=[\w])", ".", line)
                    line = re.sub(r"\((\w[\w']*(?:\.[\w]+)+)\)", r"\1", line)
                lines[i] = line
            text = "\n".join(lines)
        else:
            said = {w: n for w, n in table.items() if w in declared}
            text = re.sub(r"`[^`\n]*`", lambda m: "`" + turn(m.group(0)[1:-1], landed(m.group(0)[1:-1], used) | said) + "`", text)
        if text != old:
            with open(path, "w", encoding="utf-8") as f:
                f.write(text)
            count += 1
    print(f"respell: {len(table)} names, {count} files")


main()
