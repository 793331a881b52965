#!/usr/bin/env python3
"""Brings the repository's own definitions and lemmas to snake case, once, behind the kit's port.py.

usage: python3 tools/respell.py        at the top of the repository: rewrites files in place
       python3 tools/respell.py --list  prints the table and what would fall together, and writes nothing

A name is turned where it has an inner capital behind a small letter (slotNumber) or a dash between words
(slot-number), and where it isn't imported from outside the repository. Types, modules, functions of src/, strings,
inputs and outputs keep their names. In comments and pages only names between backticks are turned.
"""

import os
import re
import sys

NAME = r"[^\s(){}\[\];,.«»`\"λ:|]+"
WORD = re.compile(r"^[a-z][A-Za-z0-9_'-]*$")
TOKEN = re.compile(NAME)
# Words that only look like names of our own: they come from the kit.
KEEP = {"le-div_iff_mul-le"}
# Numbers of fields are always cited behind their module's name, so a definition elsewhere may have the same one.
QUALIFIED = {"link_reset"}


def turned(name):
    """The name in snake case."""
    new = name.replace("-", "_")
    new = re.sub(r"([a-z0-9])([A-Z])", r"\1_\2", new)
    new = re.sub(r"([A-Z])([A-Z][a-z])", r"\1_\2", new)
    return new.lower()


def files(top):
    for folder, dirs, names in os.walk(top):
        dirs[:] = sorted(d for d in dirs if d not in ("out", ".git", "target"))
        for n in sorted(names):
            yield os.path.join(folder, n)


def read(path):
    with open(path, encoding="utf-8") as f:
        return f.read()


def antt_files():
    return [p for p in files("crates") if p.endswith(".antt")]


def is_proof(path):
    """A file of a function's proof: its goals have names of the kit's making."""
    return os.path.basename(path) in ("Proof.antt", "Answers.antt", "Invariants.antt")


def uncommented(line):
    at = line.find("--")
    if at < 0:
        return line, ""
    # a comment begins a line or follows a space
    if at == 0 or line[at - 1] in " \t":
        return line[:at], line[at:]
    return line, ""


def imported():
    """Names that files import from outside the repository."""
    own = {d for d in os.listdir("crates")}
    found = set()
    for p in files("crates"):
        if not p.endswith((".antt", ".rt")):
            continue
        for m in re.finditer(r"(?m)^(?:ghost |pub )*use ([A-Za-z0-9_.+-]+)\.\{([^}]*)\}", read(p)):
            parts = m[1].split(".")
            if parts[0] == "Rattle" and len(parts) > 1 and parts[1] in own:
                continue
            for it in m[2].split(","):
                found.add(it.split(" as ")[0].strip())
    return found


def own_names():
    """Names that the repository's specs and lemma files declare, as they stand."""
    found = set()
    for p in antt_files():
        if is_proof(p):
            continue
        for m in re.finditer(r"(?m)^ *(?:abbrev |unfoldable |record |data )?(?:pub )?(?:record |data )?(" + NAME + r")(?: [^:\n]*)? :(?: |$)", read(p)):
            found.add(m[1])
    return found


def candidates(outside):
    found = {}
    for p in antt_files():
        if is_proof(p):
            continue
        for line in read(p).splitlines():
            code, _ = uncommented(line)
            for t in TOKEN.findall(code):
                if WORD.match(t) and t not in outside and t not in KEEP and turned(t) != t:
                    found.setdefault(t, turned(t))
    # a lemma that would have its definition's name gets _lem
    kept = own_names() | outside
    shared = {}
    for old, new in found.items():
        shared.setdefault(new, []).append(old)
    for new, olds in shared.items():
        if len(olds) > 1 or new in kept:
            lemmas = [o for o in olds if "-" in o]
            if new not in QUALIFIED and len(olds) - len(lemmas) + (new in kept) == 1 and len(lemmas) == 1:
                found[lemmas[0]] = new + "_lem"
    # names given by 'as' in a ghost use
    for p in files("crates"):
        if p.endswith(".rt"):
            for m in re.finditer(r" as ([A-Za-z0-9_'-]+)", "\n".join(l for l in read(p).splitlines() if l.startswith("ghost use"))):
                t = m[1]
                if WORD.match(t) and t not in outside and turned(t) != t:
                    found.setdefault(t, turned(t))
    return found


def turn_code(text, table):
    return TOKEN.sub(lambda m: table.get(m[0], m[0]), text)


def turn_quoted(text, table):
    """Names between backticks alone."""
    return re.sub(r"`([^`\n]*)`", lambda m: "`" + turn_code(m[1], table) + "`", text)


def turn_unquoted(text, table):
    """All but strings."""
    parts = re.split(r'(b?"(?:[^"\\]|\\.)*")', text)
    return "".join(p if i % 2 else turn_code(p, table) for i, p in enumerate(parts))


def turn_antt(text, table):
    out = []
    for line in text.split("\n"):
        code, comment = uncommented(line)
        out.append(turn_unquoted(code, table) + turn_quoted(comment, table))
    return "\n".join(out)


def turn_rt_line(line, table):
    if line.lstrip().startswith("//"):
        return turn_quoted(line, table)
    return turn_unquoted(line, table)


def turn_rt(text, table):
    return "\n".join(turn_rt_line(l, table) for l in text.split("\n"))


def turn_edit(text, table):
    spec = re.search(r"(?m)^file:\s*(\S+)", text)
    is_antt = spec is not None and spec[1].endswith(".antt")
    out = []
    for line in text.split("\n"):
        m = re.match(r"(old:|new:)(.*)$", line)
        if m:
            out.append(m[1] + (turn_antt if is_antt else turn_rt)(m[2], table))
        else:
            out.append(line)
    return "\n".join(out)


def falling_together(table):
    """New names that two old names share, or that stand in a file already beside the old one."""
    said = []
    back = {}
    for old, new in table.items():
        back.setdefault(new, []).append(old)
    for new, olds in sorted(back.items()):
        if len(olds) > 1:
            said.append(f"{' and '.join(sorted(olds))} would both be {new}")
    kept = own_names()
    for old, new in sorted(table.items()):
        if new in kept:
            said.append(f"{old} becomes {new}, which another definition has")
    for p in files("crates"):
        if not p.endswith(".antt") or is_proof(p):
            continue
        text = read(p)
        lines = [uncommented(l)[0] if p.endswith(".antt") else ("" if l.lstrip().startswith("//") else l) for l in text.split("\n")]
        tokens = set(t for l in lines for t in TOKEN.findall(l))
        for t in sorted(tokens):
            if t in table and table[t] in tokens:
                said.append(f"{p}: {t} becomes {table[t]}, which stands there already")
    return said


def main(argv):
    outside = imported()
    table = candidates(outside)
    if argv == ["--list"]:
        for old, new in sorted(table.items()):
            print(f"{old}\t{new}")
        for line in falling_together(table):
            print("look: " + line)
        return 0
    for p in list(files("crates")):
        if p.endswith(".antt"):
            turn = turn_antt
        elif p.endswith(".rt"):
            turn = turn_rt
        elif p.endswith(".edit"):
            turn = turn_edit
        else:
            continue
        text = read(p)
        new = turn(text, table)
        if new != text:
            with open(p, "w", encoding="utf-8") as f:
                f.write(new)
    for p in [q for q in files("docs")] + ["README.md", "bench/README.md", "oracle/README.md"]:
        if p.endswith(".md") and os.path.exists(p) and not os.path.islink(p):
            text = read(p)
            new = turn_quoted(text, table)
            if new != text:
                with open(p, "w", encoding="utf-8") as f:
                    f.write(new)
    return 0


if __name__ == "__main__":
    raise SystemExit(main(sys.argv[1:]))
