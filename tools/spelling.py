#!/usr/bin/env python3
"""Spells the repository's own words in snake case: definitions, lemmas, fields and constructors of specs/ and proofs/.

usage: python3 tools/spelling.py [--check]    at the top of the repository, once, after the toolchain's port.py

A word of .antt files that has a dash and comes from no library gets an underscore for each dash, in .antt and .rt files, and where a
document names it between backquotes. AC and ACs are words (ac, acs). What stands in strings, the names of source files, folders,
functions and labels that the toolchain makes stay. It stops where two words would fall together.
"""
import collections
import pathlib
import re
import sys

ROOT = pathlib.Path("crates")
TOKEN = re.compile(r"[^\s(){}\[\].;,@\"«»⌜⌝`]+")
STRING = r'"(?:[^"\\\n]|\\.)*"'
ANTT = re.compile(STRING + r"|(?<![^\s(){}])--(?=\s|$|-)[^\n]*")
RT = re.compile(STRING + r"|//[^\n]*|b?'(?:\\.[^'\n]*|[^'\\\n])'")
USE = re.compile(r"\buse ([^\s;{]+?)\.\{([^{}]*)\}")
DASHED = re.compile(r"[\w']-\w")
# Words in the case of another language, what the port spelled with a capital in mid-word, and two lemmas that would have their function's name.
CAMEL = {
    "insertBy": "insert_by",
    "mergeBy": "merge_by",
    "sortBy": "sort_by",
    "takesLeft": "takes_left",
    "sort-by": "sort_by_lem",
    "takes-left": "takes_left_lem",
    "key_Has": "key_has",
    "Going-on": "going_on",
}


# A member of a library's type, which no text imports by name.
LENT = {"not-nil"}


def snake(word):
    if word in CAMEL:
        return CAMEL[word]
    word = re.sub(r"(?<![A-Za-z])ACs?(?![a-z])", lambda m: m.group(0).lower(), word)
    word = re.sub(r"(?<=-)T$", "t", word)
    return word.replace("-", "_").replace("Sort_discrete", "sort_discrete").replace("Parsed_tree", "parsed_tree")


def files(*endings):
    for p in sorted(ROOT.rglob("*")):
        if p.suffix in endings and "out" not in p.parts and p.is_file():
            yield p


def imports(text):
    """The words that a text imports: those of this repository, and those of libraries."""
    own, lent = set(), set()
    for m in USE.finditer(text):
        c = re.match(r"Rattle\.(\w+)", m.group(1))
        to = own if c and (ROOT / c.group(1)).exists() else lent
        to |= {it.strip().split(" as ")[0].strip() for it in m.group(2).split(",")}
    return own, lent


def bare(text):
    return ANTT.sub(lambda m: '""' if m.group(0)[0] == '"' else "", text)


def is_walk(p):
    return p.name == "Proof.antt"


def main():
    words, lent = set(CAMEL), set(LENT)
    texts = {p: p.read_text(encoding="utf-8") for p in files(".antt", ".rt")}
    for p, t in texts.items():
        lent |= imports(t)[1]
    declared = set()
    for p, t in texts.items():
        if p.suffix == ".antt" and not is_walk(p):
            b = bare(t)
            words |= {w for w in TOKEN.findall(b) if DASHED.search(w)}
            declared |= set(re.findall(r"(?m)^ *(?:\w+ )*?(\S+)(?: \{[^{}\n]*\})* :(?=\s)", b))
    words = {w for w in words if w not in lent or w in declared}
    meets = collections.defaultdict(set)
    for w in words:
        meets[snake(w)].add(w)
    fall = {k: v for k, v in meets.items() if len(v) > 1 and v != {"Going-on", "going-on"}}
    taken = {snake(w) for w in words} & declared - words - {"key_has", "going_on"}
    if fall or taken:
        print("spelling: these would fall together:", fall, taken)
        return 2

    def turned(t, marks, keep):
        def respell(s):
            return TOKEN.sub(lambda m: snake(m.group(0)) if m.group(0) in words and m.group(0) not in keep else m.group(0), s)

        out, at = [], 0
        for m in marks.finditer(t):
            out.append(respell(t[at : m.start()]))
            s = m.group(0)
            if s.startswith(("--", "//")):
                s = re.sub(r"`[^`\n]*`", lambda q: respell(q.group(0)), s)
            out.append(s)
            at = m.end()
        return "".join(out) + respell(t[at:])

    count = 0
    for p, t in texts.items():
        own, lent_here = imports(t)
        u = turned(t, ANTT if p.suffix == ".antt" else RT, lent_here - own)
        count += u != t
        if u != t and "--check" not in sys.argv:
            p.write_text(u, encoding="utf-8")
    for p in sorted([*pathlib.Path(".").glob("*.md"), *pathlib.Path("docs").glob("*.md"), *pathlib.Path("host").glob("*.md")]):
        if p.name == "PORT.md":
            continue
        t = p.read_text(encoding="utf-8")
        u = re.sub(r"`[^`\n]*`", lambda m: turned(m.group(0), re.compile(STRING), set()), t)
        count += u != t
        if u != t and "--check" not in sys.argv:
            p.write_text(u, encoding="utf-8")
    print(f"spelling: {len(words)} words, {count} files")
    return 0


sys.exit(main())
