#!/usr/bin/env python3
"""Brings the repository's own definitions and lemmas to the spelling of the library: words in snake case.

usage: python3 tools/respell.py     at the top of the repository, once, on what port.py left

A name of specs/ or proofs/ that is in camel case with a small first letter, or that has dashes, is written in snake case: `rowStart` becomes `row_start`,
`path-length` becomes `path_length`. Where a lemma would get the name of the definition that it is about, it ends in `_lem`. Types, modules and facts keep their
capitals; so do names that the library or the prover makes, names of src/, exported names, strings, inputs and outputs. Walks of a function (Proof.antt) keep the
names of their goals. In comments and documents a name in camel case is turned wherever it stands, one with dashes only between backticks.
"""

import os
import re
import sys

WORD = re.compile(r'[^\s(){}.;,@"«»]+')
QUIET = re.compile(r'"(?:[^"\\\n]|\\.)*"|(?<![^\s(){}.;,@"«»])--[^\n]*|//[^\n]*')
# Names that port.py had turned already, and that a definition now gets: a lemma gives way. Paths of modules keep them.
GIVES_WAY = {
    "goes_on": "goes_on_lem",
    "in_use": "is_in_use",
    "is_open": "still_open",
    "place_in": "place_in_lem",
    "placed_total": "placed_total_lem",
    "row_words": "row_words_lem",
    "with_root": "with_root_lem",
    "with_rows": "with_rows_lem",
    "place_found": "place_found_lem",
    "found_in": "found_in_lem",
    "row_fits": "row_fits_lem",
}
TURNED_BEFORE = set()
DOCUMENTS = ["README.md", "docs/DECISIONS.md", "docs/FIRMWARE.md", "docs/TRACE.md", "docs/BENCHMARKS.md", "host/README.md"]


def snake(word):
    word = word.replace("-", "_")
    return re.sub(r"(?<=[a-z0-9_'])_?([A-Z])", lambda m: "_" + m[1].lower(), word)


def files(*ends):
    for folder, dirs, names in os.walk("crates"):
        dirs[:] = sorted(d for d in dirs if d != "out")
        for name in sorted(names):
            if name.endswith(ends):
                yield os.path.join(folder, name)


def read(path):
    with open(path, encoding="utf-8") as f:
        return f.read()


def write(path, text):
    with open(path, "w", encoding="utf-8") as f:
        f.write(text)


def code(text):
    return QUIET.sub("", text)


def is_walk(path):
    return path.endswith("/Proof.antt")


def turns(word):
    return not word[0].isupper() and not word[0].isdigit() and bool(re.search(r"[\w']-\w|[a-z0-9'][A-Z]", word))


def own_names():
    """The names to be turned, and those of record fields among them."""
    crates = os.listdir("crates")
    library, names, fields = set(), set(), set()
    imports = re.compile(r"(?m)^\s*use\s+(\S+?)\.\{([^}]*)\}")
    for path in files(".antt"):
        text = code(read(path))
        for m in imports.finditer(text):
            parts = m[1].split(".")
            if not (parts[0] == "Rattle" and parts[1] in crates):
                library |= {it.strip().split(" as ")[0].strip() for it in m[2].split(",")}
    foreign = re.compile(r"(?m)^\s*use\s+(?!Rattle\.(?:%s)\.)[^\n{]*(\{[^}]*\})?" % "|".join(crates))
    for path in files(".antt"):
        if is_walk(path):
            continue
        text = foreign.sub("", code(read(path)))
        names |= {m[0] for m in WORD.finditer(text) if turns(m[0]) and m[0] not in library}
        fields |= {m[1] for m in re.finditer(r"(?m)^\s+pub ([^\s(){}:;.,]+) :", text)}
    return names, names & fields


def table_of(names):
    table, taken = {}, {}
    for name in sorted(names, key=lambda n: ("-" in n, n)):
        new = snake(name)
        if new in taken:
            new += "_lem"
        if new in taken:
            sys.exit(f"{name} and {taken[new]} fall together at {new}")
        taken[new] = name
        table[name] = new
    return table


def turned_before():
    """Names of the code in snake case, which port.py had turned while comments, documents and edits kept the old spelling."""
    return {m[0] for path in files(".antt") for m in WORD.finditer(code(read(path))) if re.fullmatch(r"[a-z][a-z0-9']*(_[a-z0-9']+)+", m[0])}


def with_turned(text, table, turned):
    """The table, and with it names of a text that port.py had turned in the code."""
    more = {w: snake(w) for w in re.findall(r"(?<![\w'-])[a-z]\w*(?:-\w+|[A-Z]\w*)+(?![\w'-])", text) if w not in table}
    return {**{w: new for w, new in more.items() if new in turned}, **table}


def turn_words(text, table, keep=lambda m: False):
    return WORD.sub(lambda m: m[0] if keep(m) else table.get(m[0], m[0]), text)


def turn_comment(text, table):
    spans = re.sub(r"`[^`\n]*`", lambda m: turn_words(m[0], by_tick(table)), text)
    return re.sub(r"(?<![\w`'-])[a-z]+\w*[A-Z]\w*(?![\w'-])", lambda m: table.get(m[0], m[0]), spans)


def by_tick(table):
    out = dict(table)
    for name, new in table.items():
        out["`" + name] = "`" + new
        out[name + "`"] = new + "`"
        out["`" + name + "`"] = "`" + new + "`"
    return out


def turn_code(text, table, keep):
    out, at = [], 0
    for m in QUIET.finditer(text):
        out.append(turn_words(text[at : m.start()], table, keep))
        out.append(m[0] if m[0][0] == '"' else turn_comment(m[0], with_turned(m[0], table, TURNED_BEFORE)))
        at = m.end()
    out.append(turn_words(text[at:], table, keep))
    return "".join(out)


def give_way(text):
    """Lemmas and fields that port.py turned give way to definitions. Paths of modules keep their words."""

    def word(m):
        before, after = m.string[: m.start()], m.string[m.end() :]
        path = re.search(r"Rattle\.[\w.]*$", before)
        return m[0] if path or after.startswith(".") and not after.startswith(". ") and re.match(r"\.[A-Z]", after) else GIVES_WAY.get(m[0], m[0])

    out, at = [], 0
    for m in QUIET.finditer(text):
        out.append(WORD.sub(word, text[at : m.start()]))
        out.append(m[0])
        at = m.end()
    out.append(WORD.sub(word, text[at:]))
    return "".join(out)


def main():
    if not os.path.isdir("crates") or len(sys.argv) > 1:
        sys.exit(__doc__)
    names, fields = own_names()
    table = table_of(names)
    taken = set(table.values())
    turned_words = turned_before()
    TURNED_BEFORE.update(turned_words)
    for path in files(".antt"):
        text = read(path)
        # In a walk a word behind a dot is mostly a step of the code, which has the source's spelling
        label = lambda m: m.string[m.start() - 1 : m.start()] == "." and "-" in m[0] and m[0] not in fields
        turned = turn_code(give_way(text), table, label if is_walk(path) else lambda m: False)
        if turned != text:
            write(path, turned)
    for path in files(".rt"):
        text = read(path)
        turned = turn_code(text, table, lambda m: False)
        if turned != text:
            write(path, turned)
    for path in files(".edit"):
        text = read(path)
        turned = "".join(
            turn_words(l, with_turned(l, table, turned_words))
            if l.startswith(("old:", "new:"))
            else turn_comment(l, with_turned(l, table, turned_words)) if l.startswith("#") else l
            for l in text.splitlines(keepends=True)
        )
        if turned != text:
            write(path, turned)
    for path in DOCUMENTS:
        if os.path.exists(path):
            text = read(path)
            turned = turn_comment(text, with_turned(text, table, turned_words))
            if turned != text:
                write(path, turned)
    print(f"respell: {len(table)} names, {len(taken)} of them distinct")


if __name__ == "__main__":
    main()
