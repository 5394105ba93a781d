#!/usr/bin/env python3
"""Brings the repository's own names to today's spelling, once, behind port.py: words in snake case, and a dash only between two names.

usage: tools/respell.py          at the top of the repository; prints each name that it turned, and those that fall together with another

A name is a definition, a lemma, a field or a constructor of specs/ or proofs/, but not of a function's own folder there. Types, facts and
modules keep their capitals. In src/ only clauses have such names; functions, exported names and strings keep theirs. In a comment and in a
document a name is turned where it is in camel case, or between backticks.
"""

import os
import re
import subprocess
import sys

TOKEN = re.compile(r"[^\s(){}\[\];,.\"λ\\@`]+")
DEFINED = re.compile(r"^\s*(?:abbrev |unfoldable |pub |private )*([^\s:(){}.,;=\"]+)(?:,? [^\s:(){}.,;=\"]+)* :(?=\s|$)")
# Lemmas that would have the name of the definition that they speak of.
LEMMAS = {"kept_from": "kept_from_lem", "second_word": "second_word_lem", "open-start": "open_start_lem"}
OWN = ("Proof.antt", "Answers.antt", "Invariants.antt")


def read(path):
    with open(path, encoding="utf-8") as f:
        return f.read()


def files(top, *endings):
    for folder, dirs, names in os.walk(top):
        dirs[:] = sorted(d for d in dirs if d not in ("out", ".git", "target", "notes"))
        for name in sorted(names):
            if name.endswith(endings):
                yield os.path.join(folder, name)


def defined(paths):
    """The names that are defined in these files, comments aside."""
    names = set()
    for path in paths:
        for line in read(path).splitlines():
            line = line.split("-- ")[0]
            m = DEFINED.match(line)
            if m and not line.lstrip().startswith(("let ", "use ", "λ", "in ")):
                head = line[: m.end()].rsplit(" :", 1)[0]
                names |= {w.strip(",") for w in head.split() if w not in ("abbrev", "unfoldable", "pub", "private")}
    return names


def library():
    """The plain words of the library, as a file of proofs or of specs imports them."""
    page = subprocess.run(["rt", "doc"], capture_output=True, text=True, check=True).stdout.strip()
    std = os.path.join(os.path.dirname(page), "rattle", "std")
    words = set()
    for path in (std + "/specs/Prelude.antt", std + "/proofs/Common.antt"):
        words |= {w for w in TOKEN.findall(read(path)) if re.fullmatch(r"[a-z_0-9']+", w)}
    return words


def snake(part):
    return part if not part[:1].islower() else re.sub(r"(?<=[a-z0-9])([A-Z])", lambda m: "_" + m.group(1).lower(), part)


def respelled(name, known):
    """A dash stays where it joins two names."""
    parts = [snake(p) for p in name.split("-")]
    if not all(parts):
        return name
    out = parts[0]
    for before, after in zip(parts, parts[1:]):
        is_name = [p in known or p[:1].isupper() or not p[:1].isalpha() for p in (before, after)]
        out += ("-" if all(is_name) else "_") + after
    return out


def turned(text, names, ghost):
    """The text with the names turned. In code, only in the clauses and in the imports of them."""

    def word(m):
        return names.get(m.group(0), m.group(0))

    def comment(part):
        part = re.sub(r"`([^`\n]*)`", lambda m: "`" + TOKEN.sub(word, m.group(1)) + "`", part)
        return TOKEN.sub(lambda m: word(m) if re.search("[a-z][A-Z]", m.group(0)) else m.group(0), part)

    mark = "//" if ghost else "--"
    out = []
    for line in text.splitlines(keepends=True):
        at = re.search(r"(^|\s)" + mark + r"(\s|$)", line)
        code, rest = (line[: at.start()], line[at.start() :]) if at else (line, "")
        if not ghost or '"' not in code:
            code = TOKEN.sub(word, code)
        out.append(code + comment(rest))
    return "".join(out)


def main():
    paths = list(files("crates", ".antt"))
    lemmas = [p for p in paths if os.path.basename(p) not in OWN]
    own = defined(lemmas)
    known = library() | {snake(n) for n in own if "-" not in n}
    names = {n: LEMMAS.get(n) or respelled(n, known) for n in own if n[:1].islower()}
    names = {n: to for n, to in names.items() if n != to}
    clash = 0
    for to in sorted(set(names.values())):
        olds = sorted(n for n in names if names[n] == to) + ([to] if to in own else [])
        if len(olds) > 1:
            print(f"together: {', '.join(olds)} are all {to}")
            clash += 1
    for path in paths + list(files("crates", ".rt")):
        found = set(TOKEN.findall(re.sub(r"(?m)(--|//) .*$", "", read(path))))
        for n in sorted(found & set(names)):
            if names[n] in found:
                print(f"together: {names[n]} stands beside {n} in {path}")
                clash += 1
    if "--look" in sys.argv:
        for n in sorted(names):
            print(f"{n} {names[n]}")
        return 0
    for path in paths + list(files("crates", ".rt", ".edit")):
        text = read(path)
        to = turned(text, names, path.endswith((".rt", ".edit")))
        if to != text:
            with open(path, "w", encoding="utf-8") as f:
                f.write(to)
    for path in list(files(".", ".md")):
        text = read(path)
        to = re.sub(r"`([^`\n]+)`", lambda m: "`" + TOKEN.sub(lambda w: names.get(w.group(0), w.group(0)), m.group(1)) + "`", text)
        if to != text:
            with open(path, "w", encoding="utf-8") as f:
                f.write(to)
    print(f"respell: {len(names)} names, {clash} to look at")
    return 0


if __name__ == "__main__":
    raise SystemExit(main())
