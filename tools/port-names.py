#!/usr/bin/env python3
"""Spells this repository's own definitions and lemmas as today's Rattle does: words in snake case.

usage: tools/port-names.py            at the top, once, right after the kit's port.py

A name counts as the repository's own where an .antt file of specs/ or proofs/ declares it, as an item, as a field of a record or as a
constructor; files that walk a function's code by hand (proofs/F/Proof.antt and what lies beside it under Proof/) declare none. Names in
camel case that begin small, and names with dashes, get underscores. Types, facts and modules, which begin with a capital, stay, and so do
functions of src/, exported names and strings, since they are in snake case already. A file keeps what it imports from another library.
In comments and in clauses of src/ names in camel case alone are turned, since a dash there is English. The edits in must-fail/ and tried/
are turned likewise, and their projections are written tight, as port.py writes those of the files that they edit.
It prints which names fall together; a second run changes nothing.
"""

import os
import re
import sys

TOKEN = re.compile(r"[^\W\d][\w'′◌]*(?:-[\w'′◌]+)*")
DECLARED = re.compile(r"^(?:(?:abbrev|unfoldable|opaque|pub|private) )*([^\W\d][\w'′-]*)(?: \{[^{}\n]*\})* :(?!=)")
FIELD = re.compile(r"^ +(?:pub )?([^\W\d][\w'′-]*)(?: \{[^{}\n]*\})* :(?!=)")
INNER = re.compile(r"^  (?:(?:abbrev|unfoldable|opaque|pub|private) )*([^\W\d][\w'′-]*)(?: \{[^{}\n]*\})* :(?!=)")
USE = re.compile(r"^(?:pub )?use ([^\s{]+?)(?:\.\{([^}]*)\})?(?: as (\S+))?$")
# Lemmas that port.py spells as their definition is spelled now, each with the module that declares it.
MET = {
    "no_cut": "Rattle.arbitration.proofs.Quiet",
    "at_rest": "Rattle.recovery.proofs.Diagnosis",
    "bytes_fit": "Rattle.watchimage.proofs.Parts",
}
HAND = re.compile(r"/proofs/.*/Proof(\.antt$|/)|/proofs/.*/(Answers|Invariants)\.antt$")


def snake(name):
    words = re.sub(r"(?<=[a-z0-9])[A-Z]+", lambda m: "_" + m[0].lower(), name)
    return words.replace("-", "_")


def texts(root, endings):
    for folder, dirs, files in os.walk(os.path.join(root, "crates")):
        dirs[:] = sorted(d for d in dirs if d != "out")
        for f in sorted(files):
            if f.endswith(endings):
                yield os.path.join(folder, f)


def read(path):
    with open(path, encoding="utf-8") as f:
        return f.read()


def write(path, text):
    with open(path, "w", encoding="utf-8") as f:
        f.write(text)


def small(name):
    return name[:1].islower()


def own_names(root):
    """Each name that is to change, with the files that declare it."""
    found = {}
    for path in texts(root, ".antt"):
        if HAND.search(path):
            continue
        in_record = False
        for line in read(path).split("\n"):
            if line[:1] not in ("", " "):
                in_record = re.match(r"(?:(?:abbrev|unfoldable|pub) )*(record|data) ", line) is not None or line.startswith(("record", "data"))
            m = DECLARED.match(line) or INNER.match(line) or (FIELD.match(line) if in_record else None)
            if m and small(m[1]) and snake(m[1]) != m[1]:
                found.setdefault(m[1], set()).add(path)
    return {name: snake(name) for name in found}


def meetings(root, names, crates):
    """Where two names in scope in one file would become one, the lemma's gets _lem, as the style of contracts has it."""
    scopes, lemmas = {}, {}
    for path in texts(root, ".antt"):
        if HAND.search(path):
            continue
        scope = scopes.setdefault(path, set())
        for line in read(path).split("\n"):
            m = DECLARED.match(line)
            if m:
                scope.add(m[1])
                if "/proofs/" in path:
                    lemmas.setdefault(m[1], set()).add(path)
            m = USE.match(line.strip())
            if m:
                scope |= {w.split(" as ")[-1].strip() for w in (m[2] or "").split(",")}
    for path, scope in sorted(scopes.items()):
        met = {}
        for name in scope:
            met.setdefault(names.get(name, name), set()).add(name)
        for new, olds in sorted(met.items()):
            if len(olds) > 1:
                lemma = sorted(o for o in olds if o in names and "-" in o) or sorted(o for o in olds if o in names and o in lemmas)
                if not lemma:
                    print(f"left: {new} in {path}: {sorted(olds)}")
                    continue
                names[lemma[0]] = new + "_lem"
                yield lemma[0], path


def foreign(text, crates):
    """The names that a file imports from libraries that are not the repository's."""
    out = set()
    for line in text.split("\n"):
        m = USE.match(line.strip())
        if not m:
            continue
        steps = m[1].split(".")
        if steps[0] == "Rattle" and len(steps) > 1 and steps[1] in crates:
            continue
        for name in (m[2] or "").split(","):
            for word in name.split(" as "):
                out.add(word.strip())
    return out


def turn_met(path, text):
    """The lemmas of MET, where their module declares them and where a file imports them from it; a step of a proof's keeps its name."""
    for name, module in MET.items():
        its = "/crates/" + "/".join(module.split(".")[1:]) + ".antt"
        imported = re.search(r"(?m)^(pub )?use " + re.escape(module) + r"\.\{[^}]*\b" + name + r"\b", text)
        if path.endswith(its) or imported:
            text = re.sub(r"(?<![\w'.-])" + name + r"(?![\w'.-])", name + "_lem", text)
    return text


def turn_antt(text, names, crates):
    stay = foreign(text, crates)

    def word(m):
        return names[m[0]] if m[0] in names and m[0] not in stay else m[0]

    out = []
    for line in text.split("\n"):
        code, dashes, comment = line.partition("--") if re.search(r"(?:^|\s)--(?:\s|$)", line) else (line, "", "")
        m = USE.match(code.strip())
        if not (m and not (m[1].split(".") + ["", ""])[1] in crates):
            code = TOKEN.sub(word, code)
        out.append(code + dashes + turn_prose(comment, names))
    return "\n".join(out)


def turn_prose(text, names):
    """A comment, or Rust: camel case alone."""
    return TOKEN.sub(lambda m: names[m[0]] if m[0] in names and re.search("[A-Z]", m[0]) and "-" not in m[0] else m[0], text)


def tight(text):
    """Projections as port.py writes them: no space before the dot, no brackets round a bare one."""
    text = re.sub(r"(?<=[\w')]) \.(?=[\w])", ".", text)
    before = None
    while before != text:
        before = text
        text = re.sub(r"(?<![\w'])\(([^\W\d][\w']*(?:\.[\w']+)+|\([^()]*\)(?:\.[\w']+)+)\)", r"\1", text)
    return text


def turn_edit(text, names):
    antt = re.search(r"(?m)^file: .*\.antt$", text)
    out = []
    for line in text.split("\n"):
        if line.startswith(("old: ", "new: ")):
            head, body = line[:5], line[5:]
            if antt:
                body = tight(TOKEN.sub(lambda m: names.get(m[0], m[0]), body))
            else:
                body = turn_prose(body, names)
            line = head + body
        else:
            line = turn_prose(line, names)
        out.append(line)
    return "\n".join(out)


def main():
    root = os.getcwd()
    if not os.path.isdir(os.path.join(root, "crates")):
        sys.exit("run it at the top of the repository")
    crates = set(os.listdir(os.path.join(root, "crates")))
    for path in texts(root, ".antt"):
        text = read(path)
        if turn_met(path, text) != text:
            write(path, turn_met(path, text))
    names = own_names(root)
    for name, path in meetings(root, names, crates):
        print(f"meets a definition's name, so a lemma's: {name} -> {names[name]} ({os.path.relpath(path, root)})")
    changed = 0
    for path in texts(root, (".antt", ".rt", ".edit")):
        text = read(path)
        if path.endswith(".antt"):
            to = turn_antt(text, names, crates)
        elif path.endswith(".rt"):
            to = turn_prose(text, names)
        else:
            to = turn_edit(text, names)
        if to != text:
            changed += 1
            write(path, to)
    print(f"{len(names)} names, {changed} files changed")


main()
