#!/usr/bin/env python3
"""Brings the definitions and lemmas of this repository to snake case: `cursorAt` and `value-lt` become `cursor_at` and `value_lt`.

usage: tools/respell.py [--list]     at the top of the repository, once, right after the toolchain's port.py

A name is respelled where a file of specs/ or proofs/ declares it (a definition, a lemma, a field of a record, a constructor), in every
.antt and .rt file, but for a file that imports the same name from the toolchain's libraries. Names of types and facts begin with a
capital and stay. In comments only names with a capital inside are respelled. --list prints the names and writes nothing.
"""
import glob
import re
import sys

WORD = re.compile(r"[^\s(){}.;,@\"«»\[\]\\`]+")
DECLARED = re.compile(r"(?m)^[ \t]*(?:(?:unfoldable|abbrev|pub)[ \t]+)*([a-z][^\s(){}.;,@\"«»\[\]\\]*) :(?=\s)")
OWN = re.compile(r"Rattle\.([a-z]\w*)\.")
USE = re.compile(r"(?m)^(?:pub )?use (\S+?)\.\{([^}]*)\}")


def snake(name):
    name = re.sub(r"(?<=[a-z0-9])(?=[A-Z])", "_", name.replace("-", "_"))
    return name.lower() if re.fullmatch(r"[\w']+", name) else name


def is_old(name):
    return bool(re.fullmatch(r"[a-z][A-Za-z0-9_'₀-₉-]*", name)) and (re.search(r"[a-z0-9][A-Z]", name) or re.search(r"[^-]-[^-]", name))


def files():
    return sorted(f for f in glob.glob("crates/*/**/*.antt", recursive=True) + glob.glob("crates/*/src/*.rt") if "/out/" not in f)


def crates():
    return {f.split("/")[1] for f in glob.glob("crates/*/src")}


def declared(texts):
    found = set()
    for path, text in texts.items():
        if path.endswith(".antt"):
            found |= {n for n in DECLARED.findall(text) if is_old(n)}
    return found


def foreign(text, own):
    """The names that a file imports from elsewhere than this repository."""
    found = set()
    for module, names in USE.findall(text):
        m = OWN.match(module + ".")
        if not (m and m.group(1) in own):
            found |= {n.strip() for n in names.split(",")}
    return found


def respelled(text, names, comment):
    out = []
    for line in text.splitlines(keepends=True):
        m = re.search(r"(?:^|(?<=\s))" + comment, line)
        code, rest = (line[: m.start()], line[m.start() :]) if m else (line, "")
        code = WORD.sub(lambda w: names.get(w.group(0), w.group(0)), code)
        rest = WORD.sub(lambda w: names.get(w.group(0), w.group(0)) if re.search(r"[a-z][A-Z]", w.group(0)) else w.group(0), rest)
        out.append(code + rest)
    return "".join(out)


def lemmas(texts):
    """The names in snake case already that proofs/ alone declares, with the files that declare them."""
    found = {}
    for path, text in texts.items():
        if path.endswith(".antt"):
            for n in DECLARED.findall(text):
                found.setdefault(n, set()).add(path)
    return {n: where for n, where in found.items() if not is_old(n) and all("/proofs/" in f for f in where)}


def chosen(texts):
    """Each old name with its new one. A lemma that would fall together with another name gets `_lem`."""
    old = declared(texts)
    words = {}
    for path, text in texts.items():
        for w in set(WORD.findall(text)):
            words.setdefault(w, set()).add(path)
    definitions = {snake(n) for n in old if "-" not in n}
    names = {}
    for n in sorted(old):
        s = snake(n)
        apart = "-" in n and (s in definitions or words.get(s, set()) & words[n])
        names[n] = s + "_lem" if apart else s
    return names, {n: (n + "_lem", where) for n, where in lemmas(texts).items() if n in definitions}


def lemma_names(path, text, moved):
    """Of the lemmas that give way to a definition of their name, those that a file declares or imports from proofs/."""
    found = {n: new for n, (new, where) in moved.items() if path in where}
    for module, names in USE.findall(text):
        if ".proofs." in module:
            found |= {n: moved[n][0] for n in (x.strip() for x in names.split(",")) if n in moved}
    return found


def main():
    own = crates()
    texts = {f: open(f, encoding="utf-8").read() for f in files()}
    names, moved = chosen(texts)
    if "--list" in sys.argv:
        for n, new in sorted(names.items()) + sorted((n, new) for n, (new, _) in moved.items()):
            print(n, new)
        return
    for path, text in texts.items():
        skip = foreign(text, own)
        mine = {n: s for n, s in names.items() if n not in skip} | lemma_names(path, text, moved)
        new = respelled(text, mine, "--" if path.endswith(".antt") else "//")
        if new != text:
            open(path, "w", encoding="utf-8").write(new)
    print(f"respell: {len(names)} names")


main()
