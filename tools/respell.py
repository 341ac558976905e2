#!/usr/bin/env python3
"""Spells the repository's own definitions, lemmas, fields, constructors and rule sets in snake case, as in `accept_word` for `acceptWord` and `accept-word`.

usage: tools/respell.py [--check] [FOLDER]

FOLDER is the top of a repository, the current one if none is given. A name is respelled if a file of specs/ or proofs/ declares it or brings it in with `as`, in every .antt file, in the clauses
and `ghost use` lines of every .rt file, and in the edits of must-fail/. Types, facts and modules begin with a capital letter and stay, and so do the functions of src/.
What Rattle makes for a function's proof (the names in Proof.antt, Answers.antt and Invariants.antt behind a dot, but for fields of records that the repository
declares) stays too. A lemma that would have the name of a definition gets `_lem`. A line `together:` tells of names of a file that would become one. --check writes
nothing.
"""

import collections
import os
import re
import sys

WORD = re.compile(r"[^\s(){}.;,@\"«»]+")
NAME = r"[^\s(){}.;,@\"«»:]+"
DECLARED = re.compile(rf"(?m)^( *)((?:(?:abbrev|unfoldable|pub|infixl?|infixr) )*)({NAME})((?: \{{[^}}\n]*\}})*) :(?= |$)")
RULESET = re.compile(rf"(?m)^ *(?:pub )?ruleset ({NAME}) =")
TYPES = re.compile(rf"(?m)^(?:pub )?(?:record|data) ({NAME})[^\n]*\bwhere\n((?:  [^\n]*\n|\n)*)")
RENAMED = re.compile(rf"(?m)^ *(?:(?:unfoldable|abbrev|pub|ghost) )*use [^\n]*?\bas ({NAME})")
FIELD = re.compile(rf"(?m)^  (?:pub )?({NAME}) :(?= |$)")
QUIET = re.compile(r'"(?:[^"\\\n]|\\.)*"|(?<![^\s(){}.;,@"«»])--[^\n]*')
BLOCK = re.compile(r"\b(?:requires|ensures)\s*\*?\s*(?:\w+\s*)?\{|\bghost\s+(?:invariant\s*)?(?:\w+\s*:\s*)?\{|\bghost use\b")
MADE = re.compile(r"/proofs/.+/(?:Proof|Answers|Invariants)\.antt$")


def snake(name):
    words = re.sub(r"(?<=[a-z0-9])[A-Z]", lambda m: "_" + m[0].lower(), name)
    return words.replace("-", "_")


def turns(name):
    return name[0].islower() and snake(name) != name and re.fullmatch(r"[A-Za-z0-9_'\u2080-\u2089-]+", name) is not None


def files(top):
    for folder, dirs, names in os.walk(os.path.join(top, "crates")):
        dirs[:] = sorted(d for d in dirs if d not in ("out", ".git"))
        for name in sorted(names):
            if name.endswith((".rt", ".antt", ".edit")):
                yield os.path.join(folder, name)


def code_of(text):
    return QUIET.sub(" ", text)


def blocks(text):
    """The spans of an .rt file that are read as clauses or `ghost use` lines."""
    at = 0
    while True:
        m = BLOCK.search(text, at)
        if not m:
            return
        if m[0].startswith("ghost use"):
            end = text.index(";", m.end())
        else:
            depth, end = 1, m.end()
            while depth:
                depth += {"{": 1, "}": -1}.get(text[end], 0)
                end += 1
        yield m.end(), end
        at = end


def words_of(path, text):
    """The words of a file that may be respelled, each with its place and whether it stands behind a dot."""
    if path.endswith(".rt"):
        spans = list(blocks(text))
    elif path.endswith(".antt"):
        quiet, spans, at = QUIET.finditer(text), [], 0
        for m in quiet:
            spans.append((at, m.start()))
            at = m.end()
        spans.append((at, len(text)))
    else:
        spans = [(m.start(2), m.end(2)) for m in re.finditer(r"(?m)^(old|new): (.*)$", text)]
    for begin, end in spans:
        for m in WORD.finditer(text, begin, end):
            yield m.start(), m.end(), m[0], m.start() > 0 and text[m.start() - 1] == "."


def main(argv):
    check = "--check" in argv
    top = ([a for a in argv if a != "--check"] + ["."])[0]
    texts = {}
    for path in files(top):
        with open(path, encoding="utf-8") as f:
            texts[path] = f.read()
    declared, fields = set(), set()
    for path, text in texts.items():
        if not path.endswith(".antt") or MADE.search(path):
            continue
        code = code_of(text)
        declared.update(m[3] for m in DECLARED.finditer(code))
        declared.update(RULESET.findall(code))
        declared.update(RENAMED.findall(code))
        for _, body in TYPES.findall(code):
            fields.update(FIELD.findall(body))
    table = {name: snake(name) for name in declared | fields if turns(name)}
    # A lemma that would have its function's name.
    functions = {new for old, new in table.items() if "-" not in old} | {name for name in declared | fields if not turns(name)}
    for old in table:
        if "-" in old and table[old] in functions:
            table[old] += "_lem"

    def found(path, text):
        made = MADE.search(path)
        for begin, end, word, behind in words_of(path, text):
            core = word.rstrip("'")
            name = word if word in table else core if core in table else None
            if name is None:
                continue
            if made and behind and not (name in fields or is_path(text, begin)):
                continue
            yield begin, end, word, name

    def is_path(text, begin):
        """Whether a word behind a dot ends a path that begins with `Rattle.`."""
        head = re.search(r"[^\s(){};,@\"«»]*$", text[:begin])[0]
        return head.startswith("Rattle.")

    local = collections.defaultdict(dict)
    for again in (False, True):
        for path, text in texts.items():
            if path.endswith(".edit"):
                continue
            used = collections.defaultdict(set)
            for _, _, word, name in found(path, text):
                used[table[name] + word[len(name):]].add(name)
            others = {w for _, _, w, behind in words_of(path, text) if not behind} - set(local[path])
            if path.endswith(".rt"):
                others |= set(re.findall(r"\b[a-z]\w*\b(?!\(|::)", re.sub(r"//[^\n]*|\bfn \w+|\bmod \w+", "", text)))
            own = {m[3] for m in DECLARED.finditer(code_of(text))}
            for new, olds in sorted(used.items()):
                if len(olds) + (new in others) < 2:
                    continue
                dashed = [old for old in olds if "-" in old]
                if again:
                    print(f"together: {path}: {', '.join(sorted(olds))} -> {new}")
                elif dashed:
                    for old in dashed:
                        table[old] = new + "_lem"
                elif new in own:
                    local[path][new] = new + "_lem"
    if check:
        print(len(table), "names")
        return 0
    changed = 0
    for path, text in texts.items():
        out, at = [], 0
        turned = [(begin, end, table[name] + word[len(name):]) for begin, end, word, name in found(path, text)]
        turned += [(begin, end, local[path][word]) for begin, end, word, _ in words_of(path, text) if word in local[path]]
        for begin, end, word in sorted(turned):
            out.append(text[at:begin])
            out.append(word)
            at = end
        new = "".join(out) + text[at:]
        if new != text:
            changed += 1
            with open(path, "w", encoding="utf-8") as f:
                f.write(new)
    print(f"respell: {len(table)} names, {changed} files")
    return 0


if __name__ == "__main__":
    sys.exit(main(sys.argv[1:]))
