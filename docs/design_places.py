#!/usr/bin/env python3
"""Counts, by point, the places in crates/*/src that have an older form of the language; with --list it prints each place.
Run it in the repository's first directory. It goes by form, in the layout of rt fmt, and not by names. So it is near and
not exact: a hit may be no place, and it does not find twins that differ by more than names, numbers, casts and arguments,
parameters that go in pairs, one fact in several words, sorted lists, arenas, or what is packed by a number not named."""
import collections
import linecache
import pathlib
import re
import sys

IDLE = r'//[^\n]*|"(?:\\.|[^"\\])*"|\bghost use [^;]*;'
FUNCTION = (r'^( *)(?:[\w"()]+ )*fn (\w+)(?:<.*?>)?\(((?s:.*?))\)(?: -> (.*?))?'
            r"(?: \{|\n((?:\1(?: {4}|where).*\n)*)\1\{)\n((?s:.*?))^\1\}")
CLAUSE = r"^ +(?:requires|ensures)[^{\n]*\{((?s:.*?))\}$(?=\n +(?:requires|ensures)|\n?\Z)"
TYPE = r"^( *)(?:pub(?:\(\w+\))? )?(struct|enum) (\w+).*? \{(?:\}|\n((?s:.*?))^\1\})"
FIELD = r"(?<!ghost )\b(\w+): ((?:[^,(<\[]|<[^>]*>|\([^)]*\)|\[[^\]]*\])+)"
LOOP = r"^(?=( *)while\b(.*)\{\n((?s:.*?))^\1\})"
MATCH = r"^(?=( *).*\bmatch .* \{\n((?s:.*?))^\1\})"
STEP = r"^ +(\w+) [+-]= 1;\n"
NAMED = r"(?:\w+::)*[A-Z]\w*::[A-Z][A-Z_0-9]*\b"
NUMBER = r"'(kind|code|number|tag|fault)', 'u(8|16|32|64)'"
METHOD = r"\s*(?:\w+ as \w+|if (\S+) (?:<=?|==) (\S+) \{\s*return (?:\S+;\s*\}\s*(?:\1|\2)|0;\s*\}\s*\S+ - \S+))\s*"
ALONE = r"\w+\[[^\]]*\] = [^;(]*; |(if [^{]* \{ (return [^;]*|break); \} )+"
WORDS = set("as if else while for in loop return let mut match break true false".split())
Function = collections.namedtuple("Function", "path line crate name params gives kinds clauses body")
Type = collections.namedtuple("Type", "path line kind name fields variants")
source, totals = {}, collections.defaultdict(set)


def count(row, what, places, forms=False):
    """Prints how many places there are, and how many forms they have if these count; with --list also the places."""
    places = sorted({(*place[:2], place[2] if forms else "") for place in places})
    totals[row[0]].update(place[:2] for place in places)
    print(f"{row}  {len(places):4}  {what}" + f" ({len({form for *_, form in places})} of these)" * forms)
    for path, line, form in places if "--list" in sys.argv else []:
        print(f"          {path[7:]}:{line}: {linecache.getline(path, line).strip()}" + f"  [{form}]" * forms)


def find(*patterns):
    """The file and line of each match of one of some patterns, and the match."""
    for path, text in source.items():
        for match in re.finditer("|".join(patterns), text, re.M):
            yield path, text.count("\n", 0, match.start()) + 1, match


def repeated(found, least=2):
    """The places of forms that stand in several: found has forms, files, lines, and what is counted."""
    held = collections.defaultdict(set)
    for form, *place in found:
        held[form].add(tuple(place))
    return [(*place[:2], form) for form in held if form and len({one for *_, one in held[form]}) >= least for place in held[form]]


def form(body):
    """A body with each name and number replaced, without casts and arguments; nothing for a single call."""
    name = r"(\d)\w*|[A-Za-z_]\w*(?:(?:::|\.)[A-Za-z_]\w*)*"
    text = re.sub(name, lambda m: m[0] if m[0] in WORDS else "0" if m[1] else "x", body)
    text = re.sub(r",? ([)}])", r"\1", " ".join(text.split()).replace("x: x", "x"))
    text = text if len(text) < 20 else re.sub(r"\(x(, x)*\)", "(x)", text.replace(" as x", ""))
    return "" if len(text) < 6 or re.fullmatch(r"x\([^(]*\);?", text) else text


def facts(f):
    """The facts of a function's clauses, with types in place of parameters; nothing for one that has none."""
    for line, clause in f.clauses:
        for fact in clause.split(" × "):
            fact = re.sub(r"(?<![.\w])(\w+)(?:\.(?:now|old|new)\b)?", lambda m: f.kinds.get(m[1], m[0]), fact.strip("() \n"))
            yield "‹" in fact and " ".join(fact.split()) + ")" * (fact.count("(") - fact.count(")")), f.path, line, f.line


for file in sorted(pathlib.Path().glob("crates/*/src/**/*.rt")):
    text = file.read_text(encoding="utf-8")
    source[str(file)] = re.sub(IDLE, lambda m: '""' if m[0][0] == '"' else "\n" * m[0].count("\n"), text)
functions = []
for path, line, m in find(FUNCTION):
    crate, params = path.split("/")[1], re.findall(FIELD, m[3])
    given = m[1] and " for " in (re.findall(r"^impl.*", m.string[: m.start()], re.M) or [""])[-1]  # A trait gives the name.
    kinds = {name: re.sub(r"&|mut |'\w+ ", "", f"‹{kind}›" if re.search("[A-Z[]", kind) else f"‹{name}: {kind}›")
             for name, kind in [*params, ("self", crate), ("result", m[4] or "")]}
    clauses = [(line + m[0].count("\n", 0, m.start(5) - m.start() + c.start()), c[1])
               for c in re.finditer(CLAUSE, m[5] or "", re.M)]
    functions.append(Function(path, line, crate, "" if given else m[2], params, m[4], kinds, clauses, m[6]))
types = [Type(path, line, m[2], m[3], re.findall(FIELD, m[4] or ""), re.findall(r"^ +([A-Z]\w*)(\(.*\)| \{)?", m[4] or "", re.M))
         for path, line, m in find(TYPE)]
structs, enums = [t for t in types if t.kind == "struct"], [t for t in types if t.kind == "enum"]
loops = [(path, line, {*re.findall(STEP, m[3], re.M)} & {*re.findall(r"\w+", m[2])},
          " ".join(re.sub(STEP, "", m[3], flags=re.M).split()) + " ") for path, line, m in find(LOOP)]
either = "|".join(t.name for t in enums if len(t.variants) == 2 and any(held for _, held in t.variants)) or "-"
plain = "|".join(t.name for t in enums if not any(held for _, held in t.variants)) or "-"
asked = [(t, *field) for t in structs if len(t.fields) > 1 for field in t.fields if re.fullmatch(f"bool|{either}", field[1])]
flags, scans = ("|".join({name for _, name, kind in asked if (kind == "bool") == flag}) or "-" for flag in (True, False))
# Constants of a kind: those that stand beside one that is tested for being equal.
spaces = "|".join({m[0].split("::")[-2].split()[-1] for *_, m in find(rf"[=!]= {NAMED}", rf"{NAMED}(?= [=!]=| =>)")}) or "-"
named = rf"(?:\w+::)*(?:{spaces})::[A-Z_0-9]+\b"
sets = {f[:2]: frozenset(re.sub(r"&|mut |'\w+ ", "", ": ".join(param)) for param in f.params) for f in functions}
puts = {f[2:4] for f in functions if re.search(r'\bb""|\bio::(write|print|decimal|hex)', f.body)}
heavy, shared = set(), set(sets.values())
for _ in range(9):  # Structs of structs with arrays, callers of what puts text, and what sets of parameters have in common.
    heavy |= {t.name for t in structs if any(kind[0] == "[" or kind in heavy for _, kind in t.fields)}
    puts |= {f[2:4] for f in functions if "'&mut [u8]'" in str(f.params) and any(
        (crate or f.crate, name) in puts for crate, name in re.findall(r"(?:\b(\w+)::)?\b(\w+)\(", f.body))}
    shared |= {a & b for a in shared for b in sets.values() if len(a & b) > 2}
shared = sorted((group for group in shared if len(group) > 2 and sum(group <= params for params in sets.values()) > 2),
                key=lambda group: (len(group), sorted(group)))

count("1a", "enums of two variants, one of them or both with a payload", [t for t in enums if re.fullmatch(either, t.name)])
count("1b", "structs that have such an enum or a bool beside a value", [t for t, *_ in asked])
count("1c", "tests for 0, and tests and answers of constants of a kind", find(
    r"[=!]= 0\b", rf"(?:[=!<>]=|[<>]) {named}(?! [*+])", rf"{named} [=!<>|]", rf"^ +(?:return )?{named};?$", rf"\w\({named}\)"))
count("1d", "constants u8 to u64 of types, and numbers named kind, code, number, tag or fault", [
    item for item in structs + functions if re.search(NUMBER, str(item))] + [*find(r"^ +(?:pub )?const \w+: u(?:8|16|32|64) =")])
count("1e", "what 1a and 1b have is handed on by hand: match, let-else, if, let", find(
    rf"\bmatch .*\{{\n +(?:\w+::)*(?:{either})::", rf"^ +let (?:\w+::)*(?:{either})::.* else \{{",
    rf"\bif !?\w+\.(?:{flags}) ", rf"= \w+\.(?:{scans});"))
count("2a", "functions with equal bodies, or with equal heads in two crates, but for those of traits", repeated(
    [(f.name and form(f.body), *f[:2], f[:2]) for f in functions] + [(f.name and str(f[3:6]), *f[:2], f[2]) for f in functions]))
count("2b", "structs with equal fields but for 1a and bool, enums with an equal payload, constants that rename another", repeated(
    [(held and name + held, *t[:2], t[:2]) for t in enums for name, held in t.variants] + [
        (str([name for name, kind in t.fields if not re.fullmatch(f"bool|{either}", kind)]), *t[:2], t[:2]) for t in structs
        if t.fields]) + [*find(rf"^ *(?:pub )?const \w+: \w+ = {NAMED}(?: as \w+)?;")])
count("3a", "while loops that step an index by one", [loop for loop in loops if loop[2]])
count("4a", "functions that only convert by `as`, or are a min, max or saturating subtraction; rounding up", [
    f for f in functions if re.fullmatch(METHOD, f.body)] + [*find(r"\+ \d+\) / \d+")])
count("4b", "loops that only fill, copy or test", [loop for loop in loops if re.fullmatch(ALONE, loop[3])])
count("4c", "functions that put or print text by hand", [f for f in functions if f.name and f[2:4] in puts])
count("4d", "lets that copy a field under its own name", find(r"^ +let (?:mut )?(\w+) = [\w.]+\.\1;"))
count("4e", "functions that take arrays by value", [f for f in functions if any(k[0] == "[" or k in heavy for _, k in f.params)])
count("5a", "facts in the clauses of three functions or more", repeated([x for f in functions for x in facts(f)], 3), True)
count("5b", "functions that share three parameters or more with two others", [
    (*place, ", ".join(sorted(held[-1]))) for place in sets if (held := [group for group in shared if group <= sets[place]])], True)
count("6a", "arrays with their count beside", [t for t in structs if re.search(r"'\[.*'usize'|'usize'.*'\[", str(t))] + [
    f for f in functions for name, kind in f.params if kind == "usize" and "[" in str(f.params)
    and re.search(rf"while \w+ <=? {name} |= {name};\n +while 0 <|\.\.=?{name}\b", f.body)])
count("6b", "parallel arrays", find(r"^ +(?:pub )?\w+: \[\D\w*; (.*)\],\n(?: +(?:pub )?\w+: \[\D\w*; \1\],\n)+",
                                    r"^ +let mut \w+ = \[\w+; (.*)\];\n(?: +let mut \w+ = \[\w+; \2\];\n)+"))
count("6c", "indices by a named place", find(rf"\w\[[^\[\]]*{NAMED}[^\[\]]*\]"))
count("6d", "quotients and remainders by a named constant", find(rf"[/%] {NAMED}"))
chosen = [(path, line) for path, line, m in find(MATCH) if len(re.findall(r"\w\(", m[2])) > 1 and all(
    re.fullmatch(r"(?:(?:\w+::)+\w+(?: \| )?)+|_", arm) for arm in re.findall(rf"^{m[1]} {{4}}(\S.*?) =>", m[2], re.M))]
count("7a", "matches and chains of ifs that choose a call, and tables of functions", chosen + [
    *find(r"\} else if .* == ", r"[\[:(] ?&?\[?(?:dyn F|fn\()")])
count("7b", "functions that are told by a bool, or by an enum with no payload, what to do", [
    f for f in functions if any(re.fullmatch(f"bool|{plain}", kind) for _, kind in f.params)])
for crate in ["*", *sorted(folder.parts[1] for folder in pathlib.Path().glob("crates/*/proofs"))]:
    texts = [file.read_text(encoding="utf-8") for file in pathlib.Path().glob(f"crates/{crate}/proofs/**/Answers.antt")]
    answers, lines = len(re.findall(r"^pub \S+ : goal\.", "\n".join(texts), re.M)), "".join(texts).count("\n")
    print(f"8   {answers:4}  answers in {len(texts)} files Answers.antt of {lines} lines: {crate.replace('*', 'all crates')}")
print("Lines of source by point:", ", ".join(f"{point}: {len(places)}" for point, places in sorted(totals.items())))
