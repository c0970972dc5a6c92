#!/usr/bin/env python3
"""Spells the repository's own definitions and lemmas as today's Rattle does: words in snake case.

usage: tools/spelling.py [--check]     at the top of the repository; --check writes nothing

Run it once, after the kit's port.py, which respells only what the libraries spell too. `notFinite` becomes `not_finite`, and
`lt-le` becomes `lt_le`. Types and facts keep their capital, functions of src/ and exported names their names, and so do the names that
Rattle makes of a goal, such as `invariant-loop`. A name counts in a file where it is declared there or imported from a crate of this
repository, so that a library's name of the same spelling stays. Where a new name already stands in a file, nothing is written and the
file is named: two names would fall together.
"""

import os
import re
import sys

NAME = r"[^\s(){}.;,@\"«»]+"
DECLARED = re.compile(rf"(?m)^ *(?:(?:abbrev|pub|unfoldable) +)*({NAME})(?: \{{[^{{}}\n]*\}})* :(?= |$)")
RECORD = re.compile(r"(?m)^( *)(?:pub )?record (?!\{)[^\n]*where\n((?:(?:\1 +[^\n]*)?\n)*)")
USE = re.compile(r"(?m)^((?:ghost )?use )([^\s;{]+?)(?:\.(\{[^}]*\}))?(?: as [^\s;]+)?;?$")
MADE = re.compile(r"(invariant|decreases)-loop|.*-(requires|holds|again|less)(-\d+)?$")
STRING = re.compile(r'"(?:[^"\\\n]|\\.)*"')


def spelt(name):
    """The name in snake case, or None where it has that already or is not to be turned."""
    if MADE.match(name) or not (name[0].islower() or name[0] in "_"):
        return None
    words = re.sub(r"(?<=[a-z0-9])[A-Z]", lambda m: "_" + m[0].lower(), name)
    words = re.sub(r"(?<=[\w'])-(?=\w)", "_", words)
    return words if words != name else None


def unqualified(text):
    """The words of a text that stand behind no dot, and before none; no path of a `use` line is among them."""
    text = re.sub(r"(?m)(--|//) .*$", "", text)
    text = re.sub(r"(?m)^((?:ghost )?use )[^\s;{]+", r"\1", text)
    return set(re.findall(rf"(?<![.\w])({NAME})", STRING.sub("", text)))


def texts(*endings):
    for top in ("crates",):
        for folder, folders, files in os.walk(top):
            folders[:] = sorted(f for f in folders if f != "out")
            for file in sorted(files):
                if file.endswith(endings):
                    yield os.path.join(folder, file)


def read(path):
    with open(path, encoding="utf-8") as file:
        return file.read()


def imports(text, crates):
    """The names that a file imports from crates of this repository, and the aliases that it gives to names."""
    own, aliases = set(), set()
    for use in USE.finditer(text):
        if not use[3]:
            continue
        for item in use[3].strip("{}").split(","):
            item = item.strip()
            name, _, alias = item.partition(" as ")
            steps = use[2].split(".")
            if steps[0] == "Rattle" and len(steps) > 1 and steps[1] in crates:
                own.add(name)
            if alias:
                aliases.add(alias)
    return own, aliases


def turned(text, table, every, fields):
    """The text with each word of the table in its new spelling; behind a dot and as a label those of every crate's."""

    def word(match):
        dot, name, label = match[1], match[2], match[3]
        if dot:
            return dot + (every.get(name) or name) + label
        return (table.get(name) or label and fields.get(name) or name) + label

    def line(one):
        code, mark, comment = one.partition("-- ")
        code = re.sub(rf"(\.?)({NAME})((?: =(?= |$))?)", word, code)
        if comment:
            # prose has hyphens of its own
            comment = re.sub(rf"(\.?)({NAME})()", lambda m: m[0] if "-" in m[2] else word(m), comment)
        return code + mark + comment

    return "\n".join(line(one) for one in text.split("\n"))


def main(words):
    check = words == ["--check"]
    if words and not check:
        print(__doc__)
        return 0 if words[0] in ("-h", "--help") else 2
    crates = {name for name in os.listdir("crates") if os.path.isdir(os.path.join("crates", name, "src"))}
    declared, everywhere, fields = {}, {}, {}
    for path in texts(".antt"):
        declared[path] = {name for name in DECLARED.findall(read(path)) if spelt(name)}
        everywhere.update({name: spelt(name) for name in declared[path]})
        for record in RECORD.finditer(read(path)):
            fields.update({name: spelt(name) for name in DECLARED.findall(record[2]) if spelt(name)})
    # a lemma that would have its function's name gets `_lem`
    functions = {spelt(name) for name in everywhere if "-" not in name}
    for path in declared:
        there = unqualified(read(path))
        for name in DECLARED.findall(read(path)):
            if "-" in name and name in everywhere and (everywhere[name] in there or everywhere[name] in functions):
                everywhere[name] = spelt(name) + "_lem"
            elif name in functions and "/proofs/" in path and spelt(name) is None:
                everywhere[name] = name + "_lem"
                declared[path].add(name)
    written, met = {}, []
    tables = {}
    for path in texts(".antt", ".rt"):
        text = read(path)
        own, aliases = imports(text, crates)
        mine = declared.get(path, set()) | {name for name in own if name in everywhere} | {name for name in aliases if spelt(name)}
        table = {name: everywhere.get(name) or spelt(name) for name in mine}
        tables[path] = table
        clauses = " ".join(re.findall(r"(?:requires|ensures)[^{\n]*\{(.*)\}$", text, re.M)) if path.endswith(".rt") else text
        words_there = unqualified(clauses) - set(table)
        for old, new in table.items():
            if new in words_there:
                met.append(f"{path}: {old} would meet {new}")
        news = {}
        for old, new in table.items():
            if new in news:
                met.append(f"{path}: {old} and {news[new]} would both be {new}")
            news[new] = old
        new_text = turned(text, table, everywhere, fields)
        if new_text != text:
            written[path] = new_text
    # the edits that must be refused speak of the files that they alter
    for path in texts(".edit"):
        table, lines = {}, []
        for line in read(path).split("\n"):
            if line.startswith("file: "):
                table = tables.get(os.path.join(path.rsplit("/", 2)[0], line[6:].strip()), {})
            elif line.startswith(("old: ", "new: ")):
                line = line[:5] + turned(line[5:], table, everywhere, fields)
            elif line.startswith("shown: ") and "#" in line:
                where, name = line.rsplit("#", 1)
                line = where + "#" + (everywhere.get(name) or name)
            lines.append(line)
        new_text = "\n".join(lines)
        if new_text != read(path):
            written[path] = new_text
    # pages: what stands between backquotes, or in a fenced block
    pages = ["README.md", "NOTICE", "must-fail/witnesses.txt"] + [os.path.join("docs", f) for f in sorted(os.listdir("docs")) if f.endswith(".md")]
    for path in pages:
        if not os.path.isfile(path) or os.path.basename(path) in ("PORT.md", "CHANGELOG.md"):
            continue
        text = read(path)

        def span(match):
            # a path ends in #NAME
            return re.sub(r"[^\s(){}.;,@\"«»`#|]+", lambda m: everywhere.get(m[0]) or m[0], match[0])

        new_text = re.sub(r"(?ms)^```.*?^```|`[^`\n]+`|\S+\.antt#\S+", span, text)
        if new_text != text:
            written[path] = new_text
    if met:
        print("\n".join(sorted(set(met))))
        print(f"{len(met)} names would fall together: nothing is written")
        return 1
    for path, text in written.items():
        if not check:
            with open(path, "w", encoding="utf-8") as file:
                file.write(text)
    print(f"{len(everywhere)} names, {len(written)} files{' would change' if check else ' changed'}")
    return 0


if __name__ == "__main__":
    sys.exit(main(sys.argv[1:]))
