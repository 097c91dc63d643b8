#!/usr/bin/env python3
"""Lists the places of src/ where a form of the language could say more plainly what stands there.

    python3 tools/places.py [COUNTS | POINT] [TOP]

Without arguments it counts the places of each point for the repository whose top this is run at; with a point (1a, 3, ..) it lists them. The points are
those of docs/DESIGN-PASS.md. A place is a line of src/, or a function. It goes by text: whether a place is better otherwise, a reader decides."""
import re
import sys
import glob
import collections

WORDS = set("if else while loop for in match return let mut fn pub break continue as true false const struct enum impl use mod self Self ref".split())


def sources(top):
    for path in sorted(glob.glob(top + "/crates/*/src/**/*.rt", recursive=True)):
        yield path, open(path).read()


def line_of(text, at):
    return text.count("\n", 0, at) + 1


def functions(path, text):
    """Each function: its name, where it begins, its signature with clauses, and its body."""
    for m in re.finditer(r"^( *)((?:pub(?:\([a-z]+\))? )?fn (\w+).*?)^\1\{\n(.*?)^\1\}", text, re.M | re.S):
        yield m.group(3), line_of(text, m.start()), m.group(2), m.group(4)
    for m in re.finditer(r"^( *)((?:pub(?:\([a-z]+\))? )?fn (\w+)[^\n]*) \{\n(.*?)^\1\}", text, re.M | re.S):
        yield m.group(3), line_of(text, m.start()), m.group(2), m.group(4)


def by_line(top, pattern, unless=None):
    out = []
    for path, text in sources(top):
        for i, line in enumerate(text.split("\n"), 1):
            if line.lstrip().startswith("//"):
                continue
            if re.search(pattern, line) and not (unless and re.search(unless, line)):
                out.append((path, i, line.strip()))
    return out


def point_1a(top):
    """own enums"""
    return by_line(top, r"^(pub )?enum ")


def point_1b(top):
    """a call's bool, or the 0 that it answers, tested and handed on"""
    out = []
    for path, text in sources(top):
        for m in re.finditer(r"if (![\w:]+(?:\([^{}]*\))?|\w+ == 0|\w+\(.*\) == 0) \{\n\s*return (false|0|Step::\w+);", text):
            out.append((path, line_of(text, m.start()), m.group(0).replace("\n", " ")))
    return out


def point_1c(top):
    """a value that stands for none: its comment says so"""
    out = []
    for path, text in sources(top):
        for m in re.finditer(r"^// .*\b(0|16|false|2\^32|an? empty part|the part of no words|no words)\b,? (where|if|stands|outside|past)\b.*$", text, re.M):
            out.append((path, line_of(text, m.start()), m.group(0)))
    return out


def skeleton(body):
    body = re.sub(r"//.*", "", body)
    names, out = {}, []
    for t in re.findall(r"b'.'|b\"[^\"]*\"|\w+|[^\w\s]", body):
        if t in WORDS or not re.match(r"\w|b['\"]", t):
            out.append(t)
        else:
            out.append("#%d" % names.setdefault(t, len(names)))
    return out


def point_2(top):
    """functions whose bodies, of 20 words and signs or more, are alike up to names and numbers"""
    seen = collections.defaultdict(list)
    for path, text in sources(top):
        for name, line, _, body in functions(path, text):
            s = skeleton(body)
            if len(s) >= 20:
                seen[" ".join(s)].append((path, line, name))
    return [(group[0][0], group[0][1], ", ".join("%s %s" % (p.split("/")[-3], n) for p, _, n in group)) for group in seen.values() if len(group) > 1]


def point_3(top):
    """loops that are no `for` and take no `Some` of a call, and a `for` over the indices of a slice"""
    return by_line(top, r"\b(while|loop)\b(?! let)[^;]*\{$|^\s*for \w+ in 0\.\.\w+\.len\(\) \{")


def point_4(top):
    """equality, copying, conversion and printing by hand: functions with such names, and records copied field by field"""
    out = by_line(top, r"\bfn (same|copy|copy_words|append|fill|put_words|hex|decimal|digit|digit_value|write_digits|wide|narrow|no_record|text|item|list)\b")
    for path, text in sources(top):
        for m in re.finditer(r"(\w+): (\w+)\.\1,\n\s*(\w+): \2\.\3,", text):
            out.append((path, line_of(text, m.start()), m.group(0).replace("\n", " ")))
    return out


def parameters(signature):
    inside = signature[signature.index("(") + 1 :]
    inside = re.split(r"\)\s*(?:->|\n|\s*requires|\s*ensures|$)", inside)[0]
    return set(re.findall(r"(\w+):", inside))


def point_5a(top):
    """functions that take four or more of heap, table, roots, consts and a record, or heap with notes"""
    out = []
    for path, text in sources(top):
        for name, line, signature, _ in functions(path, text):
            ps = parameters(signature)
            if len(ps & {"heap", "table", "roots", "consts", "c", "control"}) >= 4 or {"heap", "notes"} <= ps:
                out.append((path, line, name))
    return out


def facts(signature):
    m = re.search(r"requires \{(.*?)\}\s*(?:ensures|$)", signature, re.S)
    if not m:
        return []
    text = re.sub(r"\s+", " ", m.group(1)).strip()
    parts, depth, start = [], 0, 0
    for i, ch in enumerate(text):
        depth += ch in "({"
        depth -= ch in ")}"
        if depth == 0 and ch == "×":
            parts.append(text[start:i])
            start = i + 1
    parts.append(text[start:])
    return [re.sub(r"^\((.*)\)$", r"\1", re.sub(r"\.(old|now)", "", p.strip())) for p in parts]


def point_5b(top):
    """facts that stand in the `requires` of three or more functions of a crate"""
    out = []
    by_crate = collections.defaultdict(lambda: collections.defaultdict(list))
    for path, text in sources(top):
        for name, line, signature, _ in functions(path, text):
            for fact in facts(signature):
                by_crate[path.split("/crates/")[1].split("/")[0]][fact].append((path, line, name))
    for crate in sorted(by_crate):
        for fact, places in sorted(by_crate[crate].items()):
            if len(places) >= 3:
                out.append((places[0][0], places[0][1], "%d times: %s" % (len(places), fact)))
    return out


def point_6(top):
    """a buffer with a length or an index beside it, and offsets into one slice"""
    out = by_line(top, r"^(pub )?const \w+: usize = ")
    for path, text in sources(top):
        for name, line, signature, _ in functions(path, text):
            if re.search(r"&mut \[u(8|32)\], (at|k|used|from|n|length): usize", signature) or re.search(r"\bfirst_(bytes|words)\b", signature):
                out.append((path, line, name))
    return out


def point_7(top):
    """a switch on a parameter that says what to do"""
    return by_line(top, r"\bmatch (asked|wanted|kind|part|step|which|call|what|t)\b")


POINTS = {"1a": point_1a, "1b": point_1b, "1c": point_1c, "2": point_2, "3": point_3, "4": point_4, "5a": point_5a, "5b": point_5b, "6": point_6, "7": point_7}

if __name__ == "__main__":
    which = sys.argv[1] if len(sys.argv) > 1 else "COUNTS"
    top = sys.argv[2] if len(sys.argv) > 2 else "."
    if which == "COUNTS":
        for key, find in POINTS.items():
            print("%-3s %4d  %s" % (key, len(find(top)), find.__doc__))
    else:
        for path, line, text in POINTS[which](top):
            print("%s:%d: %s" % (path.split("/crates/")[1], line, text))
