#!/usr/bin/env python3
"""Spells the names of this repository's own definitions and lemmas as today's Rattle does.

usage: tools/port/respell.py      at the top, once, right after the kit's port.py and before its result is committed

A definition, a lemma, a record's field and a constructor is spelled with plain underscores: answerWords is answer_words,
word-erased is word_erased. Types keep their capital. Functions of src/, exported names and strings keep theirs, and
so does what a proof file of one function declares for itself, but for the name by which the checker finds the proof.
Then the must-fail edits are turned: their texts get the names, projections and operators that their files have now.
What it can't turn is printed: names that would fall together, and edits whose old text does not stand once.
"""

import collections
import difflib
import os
import re
import subprocess
import sys

DECLARED = re.compile(r"^ *(?:(?:abbrev|unfoldable|pub|data|record|ruleset) )*([^\s:(){}\[\],;=]+) *(?:\([^)]*\) *|\{[^}]*\} *)*:(?!=)")
NAME = re.compile(r"""[^\s(){}.;,@"«»\[\]λ]+""")
OWN_USE = re.compile(r"use Rattle\.(\w+)\.([\w.+'-]+)\.\{([^}]*)\}")


# Lemmas that would have the name of the definition that they speak of.
CLASHES = {
    "bytes-at", "erased-bytes", "firmware-places", "hash-of", "in-first-word", "legacy-magic-missing", "length-bytes", "magic-missing",
    "run-at", "signed-firmware", "signed-vendor", "to-string", "vendor-expiry", "vendor-len", "vendor-places", "word-of", "word-stored",
}


def snake(name):
    if name in CLASHES:
        return name.replace("-", "_") + "_lem"
    words = re.sub(r"(?<=[a-z0-9])[A-Z]", lambda m: "_" + m[0].lower(), name)
    return words.replace("-", "_")


def turns(name):
    return name[:1].islower() and name.isascii() and snake(name) != name and re.fullmatch(r"[A-Za-z0-9'_-]+", name)


def files(root, *ends):
    for folder, dirs, names in os.walk(os.path.join(root, "crates")):
        dirs[:] = sorted(d for d in dirs if d != "out")
        for n in sorted(names):
            if n.endswith(ends):
                yield os.path.join(folder, n)


def read(path):
    with open(path, encoding="utf-8") as f:
        return f.read()


def write(path, text):
    with open(path, "w", encoding="utf-8") as f:
        f.write(text)


def of_function(path):
    return path.endswith("/Proof.antt")


def declared(path):
    text = read(path)
    return {m[1] for m in map(DECLARED.match, text.split("\n")) if m and not m[0].lstrip().startswith(("--", "use ", "let "))}


def code_parts(text):
    """The text in pieces: what is code, and what is a comment."""
    at = 0
    for m in re.finditer(r"(?m)--(?=[\s-]|$).*$|//.*$", text):
        yield text[at : m.start()], True
        yield m[0], False
        at = m.end()
    yield text[at:], True


def module_of(path, root):
    """The module path of an .antt file below Rattle."""
    parts = os.path.relpath(path, os.path.join(root, "crates"))[: -len(".antt")].split(os.sep)
    return ".".join(parts)


def main():
    root = subprocess.run(["git", "rev-parse", "--show-toplevel"], capture_output=True, text=True, check=True).stdout.strip()
    own = set(os.listdir(os.path.join(root, "crates")))
    table = {}
    of_module = {}
    for p in files(root, ".antt"):
        if of_function(p):
            continue
        names = {n for n in declared(p) if turns(n)}
        of_module[module_of(p, root)] = names
        for n in names:
            table[n] = snake(n)
    table["tailWrong"] = snake("tailWrong")  # a parameter beside `magic_missing`
    camels = {n: s for n, s in table.items() if "-" not in n}
    changed = 0
    for p in files(root, ".antt", ".rt"):
        text = read(p)
        scope = dict(camels)
        fields = {}
        if p.endswith(".antt") and not of_function(p):
            scope.update({n: snake(n) for n in of_module[module_of(p, root)]})
        for crate, module, items in OWN_USE.findall(text):
            if crate in own:
                known = of_module.get(crate + "." + module, set())
                scope.update({n: snake(n) for n in (i.strip().split(" as ")[0] for i in items.split(",")) if n in known})
        if of_function(p):
            m = re.search(r"(?m)^pub ([a-z0-9-]+)-spec :", text)
            if m:
                scope[m[1] + "-spec"] = m[1].replace("-", "_") + "_spec"
        have = set(NAME.findall(text))
        for n, s in scope.items():
            if n in have and s in have:
                print(f"look: {os.path.relpath(p, root)}: {n} meets {s}")

        def turned(m):
            return scope.get(m[0], m[0])

        if p.endswith(".antt"):
            new = "".join(NAME.sub(turned, part) if code else re.sub(r"[A-Za-z][A-Za-z0-9'-]*", lambda m: camels.get(m[0], m[0]), part) for part, code in code_parts(text))
        else:
            # Only clauses and ghost items of a source name definitions.
            new = re.sub(r"(?s)(?:ghost use [^;]*;|(?:requires|ensures)\*?(?: \w+)? \{.*?\}(?= *\n))", lambda m: NAME.sub(turned, m[0]), text)
        if new != text:
            write(p, new)
            changed += 1
    print(f"respell: {len(table)} names, {changed} files")
    edits(root, table)


WORDS = re.compile(r"[\w◌′'-]+|\s+|.")


def words_of(root, path):
    """What stands now for each word of a file of the last commit."""
    was = subprocess.run(["git", "show", "HEAD:" + os.path.relpath(path, root)], cwd=root, capture_output=True, text=True).stdout
    a = [w for w in WORDS.findall(was) if not w.isspace()]
    b = [w for w in WORDS.findall(read(path)) if not w.isspace()]
    found = collections.defaultdict(collections.Counter)
    for op, i, j, k, l in difflib.SequenceMatcher(None, a, b, autojunk=False).get_opcodes():
        if op == "replace" and j - i == l - k:
            for x, y in zip(a[i:j], b[k:l]):
                if re.match(r"[\w]", x):
                    found[x][y] += 1
        elif op == "equal":
            for x in a[i:j]:
                found[x][x] += 1
    return {x: max(ys, key=lambda y: (ys[y], y != x)) for x, ys in found.items() if max(ys, key=lambda y: (ys[y], y != x)) != x}


STD = {"getD": "get_or"}


def turned_text(text, names, path):
    if path.endswith(".antt") and text.strip().startswith("use "):
        items = re.search(r"\{([^}]*)\}", text)[1]
        if not re.search(r"use Rattle", text):
            # An import of names that the prelude of std has today.
            return "use Rattle.std.specs.Prelude.{" + re.sub(r"(?<![\w])_([^\w\s]+)_(?![\w])", r"◌\1◌", items) + "}"
    text = text.replace("Rattle·", "Rattle.")
    if path.endswith(".rt"):
        if "⌝" in text:
            text = text.replace(" ⌝", " }").replace("⌜ ", "")
            text = re.sub(r"now \((\w+) \.entry\)", r"\1.now", text)
            text = re.sub(r"\br ≡", "result ≡", text)
        else:
            return text
    text = "".join(names.get(w, STD.get(w, w)) for w in WORDS.findall(text))
    text = re.sub(r"\((\w+)((?: \.\w+)+)\)", lambda m: m[1] + m[2].replace(" ", ""), text)
    return re.sub(r"(?<=[\w)])((?: \.\w+)+)", lambda m: m[1].replace(" ", ""), text)


def edits(root, table):
    done = left = 0
    for p in files(root, ".edit"):
        crate = os.path.dirname(os.path.dirname(p))
        lines, path, texts, bad = [], None, {}, []
        for line in read(p).split("\n"):
            key, _, rest = line.partition(":")
            if key == "file":
                path = os.path.join(crate, rest.strip())
                texts.setdefault(path, read(path))
            elif key in ("old", "new") and path:
                names = dict(table)
                names.update(words_of(root, path))
                text = rest[1:] if rest.startswith(" ") else rest
                text = turned_text(text, names, path)
                if key == "old":
                    old = text
                    if texts[path].count(old) != 1:
                        bad.append((path, old, texts[path].count(old)))
                else:
                    texts[path] = texts[path].replace(old, text, 1)
                line = f"{key}: {text}"
            lines.append(line)
        write(p, "\n".join(lines))
        for path, old, n in bad:
            print(f"left: {os.path.relpath(p, root)}: in {os.path.relpath(path, crate)} {n} times: {old}")
        left += bool(bad)
        done += not bad
    print(f"respell: {done} edits turned, {left} left by hand")


if __name__ == "__main__":
    sys.exit(main())
