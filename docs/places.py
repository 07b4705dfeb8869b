#!/usr/bin/env python3
"""Checks that no place is divided or shifted in reading a sheet: in the crates that handle sheets or places,
each line with a division, remainder or shift stands in a table here. Run it in the repository's first
directory, or name another. It ends with status 1 if a line is not in the table, or one of it is not met."""
import collections
import glob
import os
import re
import sys

CRATES = """bits fields shapes_rules shapes sheets_rules library tree functions result_sheets judge part_read
    part lending map interface text frame treecover_text bill_text test_example003""".split()
# By crate: the function, the line, and what is divided or shifted. Each entry allows one line.
ALLOWED = {
    "bits": [
        ("power", "1u64 << k", "a bit's worth"),
        ("cut", "number / power(bits - (used + width)) % power(width)", "a number made of bytes"),
        ("weight", "1u32 << (7 - i % 8)", "a place in writing"),
        ("put_bit", "let byte = u32::from(s[i / 8]);", "a place in writing"),
        ("put_bit", "s[i / 8] = ((byte / full * full + (b * half + byte % half)) % 256) as u8;", "the same"),
        ("put", "put_bit(s, at + k, rest % 2);", "a value that is written"),
        ("put", "rest /= 2;", "a value that is written"),
    ],
    "functions": [
        ("settings", "1usize << pins", "a count of settings, from pins"),
        ("computes", "drawn.word >> (SETTINGS - count) == function", "a word of settings"),
    ],
    "result_sheets": [
        ("clear", "let bytes = width.div_ceil(8);", "in writing"),
        ("put_points", "bits::put(output, at, Layout::ARRIVAL, (word % Limits::TIMES) as u32);", "a point"),
        ("put_points", "bits::put(output, at, Layout::AREA, (word / Limits::TIMES) as u32);", "its area"),
    ],
    "judge": [
        ("is_crossing",
         "crossing < Crossing::NUMBERS && crossing % (Crossing::NUMBERS >> nands) == 0", "a crossing"),
        ("take_match",
         "if !is_crossing(usize::from(extents.words[0]) / Extents::NAND, crossing) {", "an extent"),
    ],
}
# What is not run: comments, characters, strings, ghost uses, contracts; in one pass, as one can hold another.
IDLE = re.compile(r"""/\*.*?\*/|//[^\n]*|'(?:\\.|[^'\\\n])'|"(?:\\.|[^"\\])*"|\bghost use [^;]*;"""
                  r"""|\b(?:requires|ensures)(?: \w+)? \{[^\n]*\}(?=\n)""", re.S)
# Types whose lists end together: no expression has two `<` before a `>>`.
TYPES = re.compile(r"\b[A-Z]\w*<[^<>;{}\n]*\b[A-Z]\w*<[^<>;{}\n]*>>")
FOUND = re.compile(r"/|%|<<|>>|\b(?:\w+_)?(?:shl|shr|div|rem|rotate|multiple_of|ilog\d*)(?:_\w+)?(?=\()")
HEAD = re.compile(r"( *)(?:pub(?:\(\w+\))? )?(?:unsafe |extern +|const )*(?:fn|const|static) (\w+)")


def main():
    left = collections.Counter((crate, *entry[:2]) for crate in ALLOWED for entry in ALLOWED[crate])
    found, wrong = 0, [f"{crate}: no such crate" for crate in CRATES if not os.path.isdir(f"crates/{crate}")]
    for path in sorted(glob.glob("crates/*/src/**/*.rt", recursive=True)):
        crate, owner, name = path.split("/")[1], "", ""
        with open(path, encoding="utf-8") as file:
            text = IDLE.sub(lambda match: "\n" * match[0].count("\n"), file.read())
        if crate not in CRATES:  # A new reader is not to be overlooked.
            reads = re.search(r"\b(?:Cursor|Sheet|Flaw)\b", text)
            wrong += [f"{path}: a reader that is not listed"] * bool(reads)
            continue
        for number, line in enumerate(TYPES.sub("", text).split("\n"), 1):
            if line.startswith("impl"):
                owner = re.findall(r"\w+", line)[-1] + "::"
            if head := HEAD.match(line):
                name = (owner if head[1] else "") + head[2]
            if count := len(FOUND.findall(line)):
                found += count
                left[crate, name, line.strip()] -= 1
                if left[crate, name, line.strip()] < 0:
                    wrong.append(f"{path}:{number}: not allowed in {name}: {line.strip()}")
    wrong += [f"{key[0]}: no longer met in {key[1]}: {key[2]}" for key in left if left[key] > 0]
    print("\n".join(wrong) or f"{found} divisions and shifts in {len(CRATES)} crates, all allowed")
    sys.exit(bool(wrong))


os.chdir(sys.argv[1] if len(sys.argv) > 1 else ".")
main()
