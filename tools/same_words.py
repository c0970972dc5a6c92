#!/usr/bin/env python3
"""Holds contracts, definitions and theorems to those of an older spelling, word by word.

usage: tools/same_words.py OLD NEW     two folders with crates/: OLD as it was for the older Rattle, NEW as it is

A definition's file in specs/ and a lemma's statement in proofs/ must have the same words in the same order, when parentheses, dots and
imports are left aside, and each word of OLD must stand for one word of NEW, wherever it is. A clause must say the same when what the
older form wrote around it is gone: `λ r. ⌜ r ≡ x ⌝` is `result ≡ x`, `now (s .entry)` is `s.now` or `s.old`, `now (s .exit)` is `s.new`,
and facts that `∗` joined are clauses of their own. Printed are the words that changed, and each place that differs in more than its
words' spelling. It goes by text: a reader judges what it prints.
"""

import collections
import os
import re
import sys

WORD = r"[^\s(){}.;,«»]+"
FUNCTION_OR_CLAUSE = re.compile(r"\bfn (\w+)|^ *(requires|ensures)(?:\*?)(?: \w+)? \{(.*)\}[ \t]*$", re.M)
STATEMENT = re.compile(r"(?m)^( *)(?:(?:abbrev|pub|unfoldable) +)*([^\s(){}.;,]+)(?: \{[^{}\n]*\})* :(?= |$)")
GENERATED = re.compile(r"/proofs/.*/(Proof|Answers|Invariants)(/.*)?\.antt$")


def read(path):
    with open(path, encoding="utf-8") as file:
        return file.read()


def files(top, part, ending):
    for folder, folders, names in os.walk(os.path.join(top, "crates")):
        folders[:] = sorted(name for name in folders if name != "out")
        for name in sorted(names):
            path = os.path.relpath(os.path.join(folder, name), top)
            if f"/{part}/" in path and path.endswith(ending) and not GENERATED.search(path):
                yield path


def bare(text):
    """The text with no comment and no import."""
    text = re.sub(r"(?s)\{-.*?-\}", "", re.sub(r"(?m)--.*$", "", text))
    return re.sub(r"(?m)^(pub )?(use|mod) .*$", "", text)


def statements(text):
    """The statements of a file, by name, each without its proof: what stands behind the colon, to the next line of the same depth."""
    found, lines = collections.OrderedDict(), bare(text).split("\n")
    at = 0
    while at < len(lines):
        match = STATEMENT.match(lines[at])
        if match:
            end, depth = at + 1, len(match[1])
            while end < len(lines) and lines[end].strip() and len(lines[end]) - len(lines[end].lstrip()) > depth:
                end += 1
            # whether a lemma is public is no part of what it says
            found.setdefault(match[2], re.sub(r"^ *(?:(?:abbrev|pub|unfoldable) +)*", "", " ".join(lines[at:end])))
            at = end
        else:
            at += 1
    return found


def clauses(text):
    function, found = None, []
    for match in FUNCTION_OR_CLAUSE.finditer(re.sub(r"(?m)//.*$", "", text)):
        if match[1]:
            function = match[1]
        else:
            found += [(function, match[2], fact) for fact in facts(match[3].strip())]
    return found


def facts(clause):
    """The facts of a clause in either form, as today's has them."""
    head = re.match(r"λ (\S+)\. (.*)$", clause)
    name, clause = head.groups() if head else (None, clause)
    if "⌜" not in clause:
        return [clause]
    parts = []
    for part in re.split(r"(?<=⌝) ∗ (?=⌜)", clause):
        part = re.sub(r"^⌜ (.*) ⌝$", r"\1", part.strip())
        part = re.sub(r"now \((\S+?) \.entry\)|\bnow (\w+)", lambda m: f"{m[1] or m[2]}.now", part)
        part = re.sub(r"now \((\S+?) \.exit\)", r"\1.new", part)
        if name and name != "_":
            part = re.sub(rf"(?<![\w.'-]){re.escape(name)}(?![\w'-])", "result", part)
        parts.append(part)
    return parts


class Words:
    """What each word of the older text became."""

    def __init__(self):
        self.became = collections.defaultdict(collections.Counter)

    def same(self, old, new):
        old, new = (re.findall(WORD, re.sub(r"\.(now|old)(?!\w)", ".now", text)) for text in (old, new))
        if len(old) != len(new):
            return False
        for one, other in zip(old, new):
            self.became[one][other] += 1
        return True


def main(arguments):
    if len(arguments) != 2:
        print(__doc__)
        return 0 if arguments[:1] in (["-h"], ["--help"]) else 2
    old, new = arguments
    words, differ, counted = Words(), [], collections.Counter()
    for path in files(old, "specs", ".antt"):
        counted["files of definitions"] += 1
        if not os.path.isfile(os.path.join(new, path)) or not words.same(bare(read(os.path.join(old, path))), bare(read(os.path.join(new, path)))):
            differ.append(path)
    for path in files(old, "src", ".rt"):
        was, now = (clauses(read(os.path.join(top, path))) for top in (old, new))
        by = collections.defaultdict(list)
        for function, kind, fact in now:
            by[function, kind].append(fact)
        for function, kind, fact in was:
            counted["facts of clauses"] += 1
            here = by[function, kind]
            if not here or not words.same(fact, here.pop(0)):
                differ.append(f"{path}: {function} {kind}: {fact}")
    for path in files(old, "proofs", ".antt"):
        now = list(statements(read(os.path.join(new, path))).items()) if os.path.isfile(os.path.join(new, path)) else []
        later = {text for _, text in now}
        for name, text in statements(read(os.path.join(old, path))).items():
            counted["statements of proofs"] += 1
            match = [other for other in later if len(re.findall(WORD, other)) == len(re.findall(WORD, text))]
            spelt = re.sub(r"(?<=[a-z0-9])[A-Z]", lambda m: "_" + m[0].lower(), name).replace("-", "_")
            named = [other for key, other in now if key in (name, spelt, spelt + "_lem")]
            if not any(other in match for other in named):
                differ.append(f"{path}: {name}")
            else:
                words.same(text, next(other for other in named if other in match))
    for one, others in sorted(words.became.items()):
        if list(others) != [one]:
            print(f"{one} -> {', '.join(sorted(others))}")
    print("\n".join(f"differs: {place}" for place in differ))
    print(", ".join(f"{count} {what}" for what, count in counted.items()) + f": {len(differ)} differ in more than the spelling of words")
    return 1 if differ else 0


if __name__ == "__main__":
    sys.exit(main(sys.argv[1:]))
