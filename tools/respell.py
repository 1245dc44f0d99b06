#!/usr/bin/env python3
"""Brings the repository's own definitions and lemmas to today's spelling: words in snake case.

usage: python3 tools/respell.py [--list]      at the top of a checkout, once, after the port's own script

A name counts as the repository's own where a file of specs/ or proofs/ (the folders of single functions aside) declares
it. Of these, names in lower camel case and names joined by dashes become words joined by underscores. Names of src/ and
of the libraries keep their spelling; so do the goals' names in the folders of single functions. Comments and the
documents are changed where they name something: in backticks, or in camel case. Lines 'old:', 'new:', 'file:' and
'refused-at:' of the must-fail edits go along.
"""

import os
import re
import sys

WORD = re.compile(r"[^\s(){}\[\];,.\"⟨⟩:=`λ∷|&!?/\\<>*#@%$^~]+")
NAMES = re.compile(r"^\s*(?:abbrev |unfoldable |pub )*([^\s(){}\[\];,.\"]+(?:, *[^\s(){}\[\];,.\"]+)*) :(?: |$)")
KINDS = re.compile(r"^\s*(?:pub )?(?:record|data|ruleset) (\S+)")


def below(folder, ends):
    for where, folders, files in os.walk(folder):
        folders[:] = sorted(f for f in folders if f not in ("out", "target", ".git"))
        for name in sorted(files):
            if name.endswith(ends):
                yield os.path.join(where, name)


def of_one_function(path):
    parts = path.split(os.sep)
    return "proofs" in parts and len(parts) - parts.index("proofs") > 2


def snake(name):
    name = re.sub(r"(?<=[a-z0-9])(?=[A-Z])", "_", name) if name[0].islower() else name
    name = name if name[0].isupper() else name.lower()
    return name.replace("-", "_").replace("′", "'")


def declared(paths):
    found = {}
    for path in paths:
        for line in open(path, encoding="utf-8"):
            names = []
            m = NAMES.match(line)
            if m and "--" not in m.group(1):
                names += [n.strip() for n in m.group(1).split(",")]
            m = KINDS.match(line)
            if m:
                names.append(m.group(1))
            for n in names:
                found.setdefault(n, set()).add(path)
    return found


def renames():
    antt = [p for p in below("crates", ".antt")]
    found = declared([p for p in antt if not of_one_function(p)])
    table = {}
    for n in found:
        if not re.match(r"^[a-zA-Z][\w'′-]*$", n):
            continue
        camel = n[0].islower() and re.search(r"[A-Z]", n)
        dashed = "-" in n or "′" in n
        if camel or dashed:
            table[n] = snake(n)
    # Where a lemma's name would fall together with a definition's, the lemma gets _lem, as the library does.
    made = {}
    for n in table:
        made.setdefault(table[n], []).append(n)
    standing = {}
    for m, ns in made.items():
        if len(ns) + (m in found) == 1:
            continue
        camel = [n for n in ns if re.search(r"[A-Z]", n)]
        for n in ns:
            if n not in camel and not any("specs" in home.split(os.sep) for home in found[n]):
                table[n] = m + "_lem"
        if camel and m in found:
            standing[m] = found[m]
    return found, table, standing


def local_names(text, table, kept):
    """Names that are bound in a file of specs/ or proofs/ alone, as a lemma's arguments."""
    code = "\n".join(line.split("--", 1)[0] for line in text.split("\n") if not re.match(r"(pub )?use ", line))
    found = {m.group(0) for m in WORD.finditer(code) if re.fullmatch(r"[a-z]\w*(-[a-z]\w*)+", m.group(0))}
    cited = set(re.findall(r"^(?:pub )?use [^{]*\{([^}]*)\}", text, re.M))
    cited = {n.strip() for names in cited for n in names.split(",")}
    cited |= set(re.findall(r"\.([a-z][\w'-]*)", code))
    return {n: snake(n) for n in found if n not in table and n not in kept and n not in cited}


def imported_elsewhere(text):
    """Names that the file brings in from a library, which keep their spelling there."""
    kept = set()
    for m in re.finditer(r"^use (\S+?)\.\{([^}]*)\}", text, re.M):
        if not m.group(1).startswith("Rattle.") or m.group(1).startswith("Rattle.std."):
            kept |= {n.strip() for n in m.group(2).split(",")}
    return kept


def lemmas_apart(path, text, standing):
    """A lemma that has had the new name of a definition all along gets _lem, where it is declared or imported."""
    for name, homes in standing.items():
        modules = {os.path.splitext(os.path.basename(h))[0] for h in homes}
        cites = any(re.search(r"^use \S+\." + m + r"\.\{[^}]*\b" + name + r"\b[^}]*\}", text, re.M) for m in modules)
        if path in homes or cites:
            text = re.sub(r"(?<![\w.'-])" + name + r"(?![\w'-])", name + "_lem", text)
    return text


def words(text, table, kept=()):
    return WORD.sub(lambda m: table[m.group(0)] if m.group(0) in table and m.group(0) not in kept else m.group(0), text)


def prose(text, table):
    text = re.sub(r"`[^`]*`", lambda m: words(m.group(0), table), text)
    return WORD.sub(
        lambda m: table[m.group(0)] if m.group(0) in table and re.search(r"[a-z][A-Z]", m.group(0)) else m.group(0), text
    )


def source(text, table, mark, kept):
    lines = []
    for line in text.split("\n"):
        at = line.find(mark)
        code, comment = (line, "") if at < 0 else (line[:at], line[at:])
        lines.append(words(code, table, kept) + prose(comment, table))
    return "\n".join(lines)


def edit(text, table):
    lines = []
    for line in text.split("\n"):
        key = line.split(":", 1)[0]
        if key in ("old", "new", "refused-at"):
            lines.append(words(line, table))
        else:
            lines.append(prose(line, table))
    return "\n".join(lines)


def main():
    found, table, standing = renames()
    if "--list" in sys.argv:
        for n in sorted(table):
            print(n, table[n])
        return
    count = 0
    for path in below("crates", (".antt", ".rt", ".edit")):
        text = was = open(path, encoding="utf-8").read()
        if path.endswith(".edit"):
            new = edit(text, table)
        else:
            local = set()
            if of_one_function(path):
                local = {n for n in declared([path]) if n not in found}
            kept = imported_elsewhere(text) | local
            if path.endswith(".antt"):
                text = lemmas_apart(path, text, standing)
            own = local_names(text, table, kept) if path.endswith(".antt") and not of_one_function(path) else {}
            new = source(text, {**table, **own}, "--" if path.endswith(".antt") else "//", kept)
        if new != was:
            open(path, "w", encoding="utf-8").write(new)
            count += 1
    for path in [p for p in below(".", ".md") if os.path.basename(p) != "PORT.md"] + ["crates.txt"]:
        text = open(path, encoding="utf-8").read()
        new = prose(text, table)
        if new != text:
            open(path, "w", encoding="utf-8").write(new)
            count += 1
    print(f"{len(table)} names, {count} files")


main()
