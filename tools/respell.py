#!/usr/bin/env python3
"""Spells the repository's own definitions, lemmas, fields and constructors in snake case, once, after port.py.

usage: tools/respell.py    at the top of the repository, in texts that port.py has turned

Fields and functions of src/ keep their names. Where two names of one file would fall together, the lemma gets `_lem`;
a line of Determined has the name of its function. specs/Contracts becomes specs/Promises, as Rattle makes a module
`specs.contracts` itself. An import's own name, as `Phy·Steps`, is one word. Edits in must-fail/ and the names in docs/
follow.
"""

import glob
import os
import re

NAME = r'[^\s(){}.;,@"«»`]+'
DECLARED = re.compile(rf"^( *)(?:(?:abbrev|unfoldable|pub|record|data) )*({NAME})((?: \{{[^{{}}\n]*\}}| \([^()\n]*\)| [^\s(){{}}:=]+)*) :(?= |$)")
LABELS = re.compile(r"(decreases|invariant|returns|loop)-")
FUNCTION_PROOF = re.compile(r"/proofs/([a-z_0-9]+/)+Proof\.antt$")
SPELLED = re.compile(r"[a-z][A-Za-z0-9'₀-₉]*([-_A-Z][A-Za-z0-9'₀-₉]+)*$")


def snake(name):
    return re.sub(r"(?<=[a-z0-9])[A-Z]", lambda m: "_" + m[0].lower(), name).replace("-", "_")


def read(path):
    with open(path, encoding="utf-8") as f:
        return f.read()


def write(path, text):
    if text != read(path):
        with open(path, "w", encoding="utf-8") as f:
            f.write(text)


def antt_files():
    return sorted(glob.glob("crates/*/specs/*.antt") + glob.glob("crates/*/proofs/**/*.antt", recursive=True))


def move_contracts():
    for path in sorted(glob.glob("crates/*/specs/Contracts.antt")):
        os.rename(path, path.replace("Contracts", "Promises"))
    for path in antt_files() + sorted(glob.glob("crates/*/src/*.rt")):
        text = re.sub(r"\bspecs\.Contracts\b", "specs.Promises", read(path))
        if path.endswith("specs/Lib.antt"):
            text = text.replace("pub mod Contracts", "pub mod Promises")
        write(path, text)


def join_aliases(text):
    text = re.sub(r"\b([A-Z]\w*)(?:-as-|·)([A-Z]\w*)", r"\1\2", text)
    return re.sub(r"\b([A-Z]\w*)(?:-as-|·)([a-z]\w*)", lambda m: m[1].lower() + "_" + snake(m[2]), text)


def gather():
    """The declared names, those of fields, and the fields of src/."""
    own, inner, fields = {}, set(), set()
    for path in antt_files():
        for line in read(path).split("\n"):
            m = DECLARED.match(line)
            if not m or line.lstrip().startswith(("use ", "--", "(", "let ", "λ", "→", "in ")) or not SPELLED.match(m[2]) or LABELS.match(m[2]):
                continue
            own.setdefault(m[2], set()).add(path)
            if m[1]:
                inner.add(m[2])
    for path in glob.glob("crates/*/src/*.rt"):
        fields |= set(re.findall(r"^ +(?:pub )?([a-z]\w*): ", read(path), re.M))
    return own, inner, fields


def in_scope(path):
    text = re.sub(r"--.*", "", read(path))
    return set(re.findall(rf"(?<![^\s(){{}};,@«»]){NAME}", text))


def renaming(own, fields):
    falls = {}
    for name in own:
        if name not in fields:
            falls.setdefault(snake(name), set()).add(name)
    words = {path: in_scope(path) for path in antt_files()}
    new = {}
    for to, names in falls.items():
        # the definition of specs/ keeps the word: a camel name, or else the one that specs/ has
        first = min(names, key=lambda n: (not re.search("[A-Z]", n), not any("/specs/" in p and "/Laws" not in p for p in own[n]), n))
        for name in names:
            meets = any(name in w and (names - {name}) & w for w in words.values())
            new[name] = to + "_lem" if name != first and meets else to
    return {name: to for name, to in new.items() if name != to}


def turn_antt(path, new, inner, dotted_stay):
    labels = FUNCTION_PROOF.search(path)

    def turn(m):
        name = m[0]
        if name not in new:
            return name
        dotted = m.start() and m.string[m.start() - 1] == "."
        if dotted and (name in dotted_stay or labels and name not in inner):
            return name
        return new[name]

    lines, determined = [], False
    for line in read(path).split("\n"):
        code, mark, said = line.partition("-- ") if line.lstrip().startswith("--") or " -- " in line else (line, "", "")
        if path.endswith("/specs/Laws.antt"):
            determined = line.startswith("pub record Determined ") or determined and line.startswith("  ")
        elif path.endswith("/proofs/Determined.antt"):
            determined = line.startswith("      ")
        if determined:
            m = re.match(rf"( +(?:pub )?)({NAME})( [:=] )(.*)$", code)
            if m:
                code = m[1] + snake(m[2]) + m[3] + re.sub(NAME, turn, m[4])
            else:
                code = re.sub(NAME, turn, code)
        else:
            code = re.sub(NAME, turn, code)
        said = re.sub(r"`[^`]*`", lambda m: re.sub(NAME, turn, m[0]), said)
        lines.append(code + mark + said)
    return "\n".join(lines)


def turn_rt(text, new):
    """Imports for clauses, the clauses, and names in comments."""

    def turn(part):
        return re.sub(NAME, lambda m: new.get(m[0], m[0]) if re.search("[-A-Z]", m[0]) else m[0], part)

    text = re.sub(r"(?ms)^ *ghost use .*?;", lambda m: turn(m[0]), text)
    text = re.sub(r"(?ms)^ +(?:ensures|requires)\b.*?\}(?=\n)", lambda m: turn(m[0]), text)
    return re.sub(r"(?m)^ *//.*", lambda m: re.sub(r"`[^`]*`", lambda s: turn(s[0]), m[0]), text)


def turn_edit(text, new):
    def tight(part):
        part = re.sub(r"Rattle·(\w+)(·specs)?\.specs\.", r"Rattle.\1.specs.", part).replace("specs.Contracts", "specs.Promises")
        part = join_aliases(part.replace("⌜ ", "").replace(" ⌝", ""))
        part = re.sub(r"λ r\. (.*?)(?= \}|$)", lambda m: re.sub(r"\br\b(?! \.)", "result", re.sub(r"\br \.", "result.", m[1])), part)
        part = re.sub(r"\(now \((\w+) \.(entry|exit)\)\)", lambda m: m[1] + (".old" if m[2] == "entry" else ".new"), part)
        part = re.sub(r"(?<![\w'])_([^\s\w(){}.,;]+)_(?!\w)", r"◌\1◌", part)
        part = re.sub(r"\(([\w'₀-₉-]+)((?: \.[\w'-]+)+)\)", lambda m: m[1] + m[2].replace(" ", ""), part)
        return re.sub(r"(?<=[\w'₀-₉]) \.(?=[a-z])", ".", part)

    out = []
    for line in text.split("\n"):
        m = re.match(r"(old|new): ?(.*)$", line)
        if m:
            line = m[1] + ": " + re.sub(NAME, lambda n: new.get(n[0], n[0]) if re.search("[-A-Z]", n[0]) else n[0], tight(m[2]))
        out.append(line.replace("specs/Contracts.antt", "specs/Promises.antt"))
    return "\n".join(out)


def turn_page(text, words):
    """Names in code spans, and the file that was renamed."""
    def span(m):
        return re.sub(r"[A-Za-z][\w'₀-₉-]*", lambda n: words.get(n[0], n[0]), m[0])

    text = re.sub(r"`[^`\n]+`", span, text)
    return re.sub(r"(?<=specs/)Contracts\b|\bContracts\b(?=[,`|)])", "Promises", text)


def main():
    move_contracts()
    own, inner, fields = gather()
    new = renaming(own, fields)
    functions = set()
    for path in glob.glob("crates/*/src/*.rt"):
        functions |= set(re.findall(r"\bfn (\w+)", read(path)))
    for path in antt_files():
        write(path, join_aliases(turn_antt(path, new, inner, functions)))
    for path in sorted(glob.glob("crates/*/src/*.rt")):
        write(path, join_aliases(turn_rt(read(path), new)))
    # port.py had turned some names before: an edit or a page may have their first spelling
    spelled = set(own) | set(new.values())
    words = dict(new)
    pages = sorted(glob.glob("docs/*.md") + glob.glob("docs/requests/*.md"))
    edits = sorted(glob.glob("crates/*/must-fail/*.edit"))
    for path in pages + edits:
        for name in re.findall(r"[a-z][\w'₀-₉-]*", read(path)):
            if name not in words and name not in fields and snake(name) != name and snake(name) in spelled:
                words[name] = snake(name)
    for path in edits:
        write(path, turn_edit(read(path), words))
    for path in pages:
        write(path, turn_page(read(path), {n: t for n, t in words.items() if re.search("[-A-Z]", n)}))
    print(f"respelled {len(new)} names; {sum(t.endswith('_lem') and not n.endswith('lem') for n, t in new.items())} of them lemmas that fell together with a definition")


if __name__ == "__main__":
    main()
