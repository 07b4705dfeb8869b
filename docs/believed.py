#!/usr/bin/env python3
"""Prints the files of specs that public contracts rest on: those that a contract cites, and those that these use.
Run it in the repository's first directory. It ends with status 1 if a file under specs/Inside is among them."""
import glob
import os
import re
import sys

# The public operations and readers, by crate; the C functions are all that `interface` and `interface_c` have.
PUBLIC = {
    "library": ["judge_library"],
    "tree": ["judge_tree"],
    "functions": ["judge_functions"],
    "map": ["map", "list"],
    "judge": ["judge_cover"],
    "part": ["map_part"],
    "treecover_text": ["print_cover"],
    "bill_text": ["print_bill"],
    "result_sheets": ["read_cover"],
    "interface": [r"treecover_\w+"],
    "interface_c": [r"treecover_\w+"],
}
USE = re.compile(r"^\s*(?:(?:pub|ghost|unfoldable) )*use Rattle\.(\w+?)\.specs\.([\w.-]+?)(?:\.\{(.*?)\}|[ ;]|$)", re.M)


def text_of(path):
    with open(path, encoding="utf-8") as file:
        return file.read()


def uses(text):
    """The files that a text uses, each with the names that it takes from them."""
    found = {}
    for crate, module, names in USE.findall(text):
        path = f"crates/{crate}/specs/{module.replace('.', '/')}.antt"
        if os.path.exists(path):
            found.setdefault(path, set()).update(name.split(" as ")[-1].strip() for name in names.split(","))
    return found


def cited(crate, functions):
    """The files whose names stand in the contracts of some functions."""
    source = text_of(f"crates/{crate}/src/lib.rt")
    heads = re.findall(r"pub (?:extern \"C\" )?fn (?:" + "|".join(functions) + r")\b.*?\n\{", source, re.S)
    words = set(re.split(r"[\s(){},;.]+", " ".join(heads)))
    return {path for path, names in uses(source).items() if names & words}


def main():
    waiting = [path for crate, functions in PUBLIC.items() for path in cited(crate, functions)]
    believed = set()
    while waiting:
        path = waiting.pop()
        if path not in believed:
            believed.add(path)
            waiting.extend(uses(text_of(path)))
    examples = set(glob.glob("crates/*/specs/Examples/*.antt"))
    for path in sorted(believed):
        print(path)
    print(len(believed), "files, and", len(examples), "of examples")
    sys.exit(any("/Inside/" in path for path in believed))


main()
