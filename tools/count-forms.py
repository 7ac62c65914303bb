#!/usr/bin/env python3
"""Counts the older forms of docs/DESIGN-PASS.md in crates/*/src: one count for each pattern of its eight points, for the whole repository and by crate.

    python3 tools/count-forms.py            the counts
    python3 tools/count-forms.py --list     each place too: its file, line and what was found
    python3 tools/count-forms.py WORD..     these points or crates alone, as `1`, `4` or `traces`
    python3 tools/count-forms.py --root DIR another checkout of this repository

Each pattern is a search of the text, in which comments are blanks. It finds more than has to change (a field that C reads), and no place is left
out for a reason that stands beside it: docs/DESIGN-PASS.md says which are kept and why.
"""
import argparse
import collections
import glob
import os
import re

HERE = os.path.dirname(os.path.dirname(os.path.abspath(__file__)))
NUMBER = r"u(?:8|16|32|64|size)"
LITERAL = re.compile(r"b?'(?:\\.|[^'\\\n])'|b?\"(?:\\.|[^\"\\])*\"")
COMMENT = re.compile(r"//[^\n]*")
HEAD = re.compile(r"^([ \t]*)(?:#\[[^\n]*\]\s*)?(pub\s+)?(?:const\s+)?(?:unsafe\s+)?(?:extern\s+0*\s*)?fn\s+(\w+)", re.M)
CLAUSE = re.compile(r"\b(requires|ensures)(?:\s+\w+)?\s*$")

POINTS = {
    "1a": "enums of the shape of Option or Result, or with a variant for nothing or a refusal",
    "1b": "structs with a number of a refusal, or a flag beside a value",
    "1c": "functions named after a number or a refusal that answer a number, and are no conversion (4b)",
    "1d": "tests of such a number (`number == 0`, `0 < x.number`)",
    "1e": "functions that answer io::Result<bool>",
    "2a": "functions whose names differ only in a type, a size, 0 or 1, low or high",
    "2b": "functions with equal bodies but for types, 0 and 1, names and fields",
    "3a": "`while` loops that count a place or a number by hand",
    "3b": "other `while` loops",
    "4a": "functions that are a match to true and false, or `if` to true and false",
    "4b": "functions that are a match or an `if` from an enum to numbers or from numbers to an enum",
    "4c": "functions whose body is one `as`",
    "4d": "struct literals that copy three or more fields of one value",
    "4e": "functions that choose by hand: `if a < b { a } else { b }`, `if n == 0 { 0 } else { n - 1 }`",
    "5a": "facts that stand in the requires of three or more functions (counted with each function)",
    "5b": "three or more parameters that three or more functions share (counted with each function)",
    "6a": "parameters that are a slice and a place or a length in it",
    "6b": "structs with fields X0 and X1, or an array with a count beside it",
    "6c": "arrays of characters in place of text",
    "7a": "a match or a chain of `if` over a number, with three or more arms that call different functions",
    "7b": "arrays of functions, or function pointers",
    "8a": "files of answers under proofs/ (Answers.antt, Proof.antt)",
    "8b": "lemmas of proofs/ that no other line cites: statements for themselves, as the witnesses, too",
}

Function = collections.namedtuple("Function", "file line name public params result clauses body")


def closing(text, at):
    """The place of the bracket that closes the one at this place."""
    pairs = {"(": ")", "{": "}", "[": "]"}
    opens, closes, depth = text[at], pairs[text[at]], 0
    for place in range(at, len(text)):
        if text[place] == opens:
            depth += 1
        elif text[place] == closes:
            depth -= 1
            if depth == 0:
                return place
    return len(text) - 1


def functions_of(file, text):
    for match in HEAD.finditer(text):
        at = text.index("(", match.end())
        end = closing(text, at)
        params = " ".join(text[at + 1 : end].split())
        clauses, result, place = [], None, end + 1
        while True:
            brace = text.find("{", place)
            if brace < 0:
                break
            before = text[place:brace]
            if result is None:
                result = " ".join(re.split(r"\b(?:requires|ensures|where)\b", before)[0].replace("->", "").split())
            ends, kind = closing(text, brace), CLAUSE.search(before)
            if not kind:
                line = text.count("\n", 0, match.start(3)) + 1
                yield Function(file, line, match.group(3), bool(match.group(2)), params, result, clauses, text[brace + 1 : ends].strip())
                break
            clauses.append((kind.group(1), " ".join(text[brace + 1 : ends].split())))
            place = ends + 1


def items_of(text, word):
    """Each struct or enum: its line, its name and what stands between its braces."""
    for match in re.finditer(rf"^[ \t]*(?:pub\s+)?{word}\s+(\w+)[^;{{]*\{{", text, re.M):
        yield text.count("\n", 0, match.start()) + 1, match.group(1), text[match.end() : closing(text, match.end() - 1)]


def split_top(text, mark):
    """The parts of a text between a mark that stands in no bracket."""
    parts, depth, last = [], 0, 0
    for place, sign in enumerate(text):
        depth += (sign in "([{") - (sign in ")]}")
        if sign == mark and depth == 0:
            parts.append(text[last:place])
            last = place + 1
    return [part.strip() for part in parts + [text[last:]] if part.strip()]


def bare(atom):
    atom = atom.strip()
    while atom.startswith("(") and closing(atom, 0) == len(atom) - 1:
        atom = atom[1:-1].strip()
    return atom


def atoms(clause):
    parts = split_top(bare(clause), "×")
    return [bare(clause)] if len(parts) < 2 else [found for part in parts for found in atoms(part)]


def stem(name):
    return re.sub(rf"_?({NUMBER}|bool|byte|word|long|low|high|zero|one|first|second|scl|sda|ones|twos|[01])(?=_|$|\d)|[01]$", "", name)


def shape(f):
    body = re.sub(rf"\b{NUMBER}\b|\bbool\b", "T", " ".join(f.body.split()))
    body = re.sub(rf"\b{re.escape(f.name)}\b", "SELF", body)
    body = re.sub(r"\b(Zero|One|true|false)\b|\b\d+\b", "C", body)
    return re.sub(r"\.\w*\b(?!\()", ".F", re.sub(r"(?<=\w)[01]\b", "", body))


def arms_of(body):
    """The arms of a body that is one match, as pairs, or of one `if` chain whose ends are values."""
    match = re.match(r"(?:let \w+ = [^;]*;\s*)?match [^{]*\{", body)
    if not match or closing(body, match.end() - 1) != len(body) - 1:
        return []
    return [(arm.split("=>", 1) + [""])[:2] for arm in split_top(body[match.end() : -1], ",")]


def calls(text):
    return re.findall(r"\b([a-z]\w*)\(", text)


def count_types(file, text, add):
    for line, name, body in items_of(text, "enum"):
        variants = [re.sub(r"\s+", "", v) for v in split_top(re.sub(r"#\[[^\]]*\]", "", body), ",")]
        bearing = [v for v in variants if "(" in v]
        nothing = [v for v in variants if re.match(r"(Never|None|Nothing|Refused|Refuses|Unlisted|Outside|Unknown|Bad|Absent|Missing|No[A-Z])\w*", v)]
        if bearing and (len(variants) == 2 or nothing) or len(nothing) == 1:
            add("1a", file, line, f"{name} {{{', '.join(variants)}}}")
    for line, name, body in items_of(text, "struct"):
        fields = dict(re.findall(r"(\w+)\s*:\s*([^,\n]+)", body))
        if any(re.fullmatch(r"number|refusal|code", f) for f in fields) or any(t == "bool" and re.match(r"(some|found|valid|known|has|is|full|refused|more|done|past)", f) for f, t in fields.items()):
            add("1b", file, line, f"{name} {{{', '.join(fields)}}}")
        twins = sum(1 for f in fields if f.endswith("0") and f[:-1] + "1" in fields)
        counted = any(t.startswith("[") for t in fields.values()) and any(re.match(r"(count|length|len|n|used|filled)$", f) for f in fields)
        for _ in range(twins + counted):
            add("6b", file, line, f"{name} {{{', '.join(fields)}}}")


def count_lines(file, text, raw, add):
    for number, line in enumerate(text.split("\n"), 1):
        if re.search(r"\bnumber (==|!=|>) 0\b|\b0 (<|==|!=) (\w+\.)?number\b", line):
            add("1d", file, number, line.strip())
        if re.search(r"\[\s*fn\b|:\s*&?(unsafe )?fn\(|->\s*fn\(", line):
            add("7b", file, number, line.strip())
    for match in re.finditer(r"\[(?:\s*b'(?:\\.|[^'\\])'\s*,?){3,}\]", raw):
        add("6c", file, raw.count("\n", 0, match.start()) + 1, " ".join(match.group().split())[:60])
    for match in re.finditer(r"\b[A-Z]\w*(?:::\w+)? \{", text):
        body = text[match.end() : closing(text, match.end() - 1)]
        copied = collections.Counter(re.findall(r"\b(\w+)\s*:\s*(\w+)\.\1\b", body) and [b for _, b in re.findall(r"\b(\w+)\s*:\s*(\w+)\.\1\b", body)])
        if copied and max(copied.values()) >= 3:
            add("4d", file, text.count("\n", 0, match.start()) + 1, f"{match.group()[:-2]} from {copied.most_common(1)[0][0]}")


def count_function(f, add):
    done = []

    def found(point, what=""):
        done.append(what)
        add(point, f.file, f.line, f"{f.name}{': ' if what else ''}{what}")

    if re.search(r"Result<bool>", f.result or ""):
        found("1e")
    for match in re.finditer(r"\bwhile\b[^{]*\{", f.body):
        body = f.body[match.end() : closing(f.body, match.end() - 1)]
        steps = re.search(r"\b(\w+) [-+]= |\b(\w+) = \2 [-+] ", body)
        found("3a" if steps else "3b", " ".join(match.group()[:-1].split()))
    arms = arms_of(f.body)
    ends = [e.strip() for _, e in arms]
    heads = [h.strip() for h, _ in arms]
    branches = re.findall(r"\{\s*([^{};]+?)\s*\}", f.body) if re.fullmatch(r"if [^;]*\}", f.body, re.S) else []
    if (ends and set(ends) <= {"true", "false"}) or (branches and set(branches) == {"true", "false"}):
        found("4a")
    number, path = r"\d\w*|[A-Z][A-Z0-9_]+", r"(?:Some\()?[A-Z]\w*::\w+(?:\([^()]*\))*\)?"
    for values, tests in ((ends, heads), (branches, [])):
        if len(values) >= 2 and all(re.fullmatch(number, v) for v in values) and (not tests or any("::" in t for t in tests)) and (tests or "::" in f.body):
            found("4b", "to numbers")
        elif len(values) >= 2 and all(re.fullmatch(path, v) for v in values) and re.search(rf":\s*{NUMBER}\b", f.params):
            found("4b", "from numbers")
    if re.fullmatch(NUMBER, f.result or "") and re.search(r"(^|_)(number|refusal|refused|outcome|fault|code)(_|$)", f.name) and "to numbers" not in done:
        found("1c")
    if re.fullmatch(r"\(?[\w.]+\)? as \w+", f.body):
        found("4c")
    if re.fullmatch(r"if (\w+) < (\w+) \{\s*\1\s*\} else \{\s*\2\s*\}|if (\w+) == 0 \{\s*0\s*\} else \{\s*\3 - 1\s*\}", f.body):
        found("4e")
    names = re.findall(r"(\w+)\s*:\s*([^,]+)", f.params)
    if any(t.startswith(("&[", "&mut [")) or re.match(r"&'?\w* ?(mut )?\[", t) for _, t in names) and any(t == "usize" for _, t in names):
        found("6a", f.params)
    if len(arms) >= 3 and re.search(rf":\s*{NUMBER}\b", f.params) and len({tuple(calls(e))[:1] for e in ends if calls(e)}) >= 3:
        found("7a")
    if len({c for b in re.findall(r"== [\w.]+ \{\s*(?:return )?([a-z]\w*)\(", f.body) for c in [b]}) >= 3:
        found("7a", "by if")


def count_groups(functions, add):
    typed = {stem(f.name) for f in functions if re.search(rf"_{NUMBER}$", f.name)}
    for point, key in (("2a", lambda f: stem(f.name) if stem(f.name) in typed else (f.file.split("/")[1], stem(f.name))), ("2b", shape)):
        groups = collections.defaultdict(list)
        for f in functions:
            if f.body and f.name != "main" and (point == "2a" or len(f.body) >= 24):
                groups[key(f)].append(f)
        for group in groups.values():
            if len({(f.file.split("/")[1], f.name) for f in group}) > 1 and (point == "2b" or len({f.name for f in group}) > 1):
                for f in group:
                    add(point, f.file, f.line, f"{f.name} ~ {', '.join(sorted({g.name for g in group} - {f.name}))}"[:110])
    facts, params = collections.defaultdict(list), collections.defaultdict(list)
    for f in functions:
        for atom in {a for kind, c in f.clauses if kind == "requires" for a in atoms(c)}:
            facts[atom].append(f)
        declared = [re.split(r"\s*:\s*", p, maxsplit=1) for p in split_top(f.params, ",")]
        declared = [tuple(p) for p in declared if len(p) == 2]
        for i in range(len(declared)):
            if len(declared) - i >= 3:
                params[tuple(declared[i : i + 3])].append(f)
    for point, groups in (("5a", facts), ("5b", params)):
        for key, group in groups.items():
            if len({(f.file, f.name) for f in group}) >= 3:
                what = key if point == "5a" else ", ".join(f"{n}: {t}" for n, t in key)
                for f in group:
                    add(point, f.file, f.line, f"{f.name}: {what}")


def count_proofs(root, add):
    texts = {}
    for file in sorted(glob.glob(f"{root}/crates/*/proofs/**/*.antt", recursive=True) + glob.glob(f"{root}/crates/*/specs/**/*.antt", recursive=True)):
        texts[os.path.relpath(file, root)] = open(file, encoding="utf-8").read()
    words = collections.Counter(w for t in texts.values() for w in re.findall(r"[\w\-']+", t))
    words.update(w for file in glob.glob(f"{root}/crates/*/src/**/*.rt", recursive=True) for w in re.findall(r"[\w\-']+", open(file, encoding="utf-8").read()))
    for file, text in texts.items():
        if "/proofs/" not in file:
            continue
        if os.path.basename(file) in ("Answers.antt", "Proof.antt"):
            add("8a", file, 1, "")
            continue
        for match in re.finditer(r"^( *)(?:pub )?([a-z][\w\-']*) :(?= )", text, re.M):
            own = len(re.findall(rf"^{match.group(1)}(?:pub )?{re.escape(match.group(2))} ", text, re.M))
            if words[match.group(2)] <= own and not file.endswith("Unique.antt"):
                add("8b", file, text.count("\n", 0, match.start(2)) + 1, match.group(2))


def main():
    parser = argparse.ArgumentParser()
    parser.add_argument("--list", action="store_true")
    parser.add_argument("--root", default=HERE)
    parser.add_argument("words", nargs="*")
    args = parser.parse_args()
    paths = sorted(glob.glob(f"{args.root}/crates/*/src/**/*.rt", recursive=True))
    if not paths:
        parser.error(f"{args.root} has no crates/*/src, so nothing was counted")
    known = {*POINTS, *(point[0] for point in POINTS), *os.listdir(f"{args.root}/crates")}
    if unknown := [word for word in args.words if word not in known]:
        parser.error(f"no point and no crate is called {', '.join(unknown)}")
    places, functions = collections.defaultdict(list), []

    def add(point, file, line, what):
        places[point].append((file, line, what))

    for path in paths:
        file, raw = os.path.relpath(path, args.root), COMMENT.sub(lambda m: " " * len(m.group()), open(path, encoding="utf-8").read())
        text = LITERAL.sub(lambda m: "0" * len(m.group()), raw)
        count_types(file, text, add)
        count_lines(file, text, raw, add)
        functions += functions_of(file, text)
    for f in functions:
        count_function(f, add)
    count_groups(functions, add)
    count_proofs(args.root, add)

    for point, title in POINTS.items():
        found = [p for p in places[point] if not args.words or {point, point[0], p[0].split("/")[1]} & set(args.words)]
        if args.words and not found:
            continue
        crates = collections.Counter(p[0].split("/")[1] for p in found)
        print(f"{point} {len(found):5}  {title}")
        print("          " + " ".join(f"{crate} {n}" for crate, n in sorted(crates.items(), key=lambda c: (-c[1], c[0]))))
        for file, line, what in found if args.list else []:
            print(f"            {file}:{line}: {what}")


if __name__ == "__main__":
    main()
