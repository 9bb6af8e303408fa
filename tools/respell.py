#!/usr/bin/env python3
"""Spells this repository's definitions and lemmas as today's library does: words in snake case, types in camel case.

usage: python3 tools/respell.py [FOLDER]    once, after /opt/rattle/port/port.py, at the top of the repository (or of FOLDER)
       python3 tools/respell.py --list [FOLDER]    writes nothing, and lists each name with its new spelling

Turned are the names that specs/ and proofs/ declare: definitions, record fields, constructors, lemmas.  They turn in the code
of .antt files, in the clauses and imports of .rt files, in must-fail edits, and in the code spans of comments and pages.
Names that the check makes (of goals and of their facts), and names of other libraries, stay.
"""

import os
import re
import sys

WORD = re.compile(r'[^\s(){}.;,@"«»\[\]|]+')
DECLARED = re.compile(r"^(?P<lead>\s*)(?P<marks>(?:(?:abbrev|unfoldable|pub|record|data)\s+)*)(?P<name>[^\s(){}.;,@\"«»:=]+)\s*(?P<rest>.*)$")
SPAN = re.compile(r"`[^`\n]+`")
OTHERS = re.compile(r"^\s*(?:ghost\s+)?use\s+(?P<path>[^\s{]+?)\.?(?:\{(?P<items>[^}]*)\})?;?\s*(?:as\s+\S+)?\s*$")
SKIPPED = ("out", "target", ".git")


def read(path):
    with open(path, encoding="utf-8") as f:
        return f.read()


def files(root, *endings):
    for folder, dirs, names in os.walk(root):
        dirs[:] = sorted(d for d in dirs if d not in SKIPPED)
        for name in sorted(names):
            if name.endswith(endings):
                yield os.path.join(folder, name)


def bare(line):
    """The code of a line of antt, without its comment."""
    return re.sub(r"(^|\s)--(\s.*)?$", "", line)


def is_type(marks, rest, following):
    """Whether the name is of a type: a record, a data, or a function whose result is a universe."""
    if "record" in marks or "data" in marks:
        return True
    signature = (rest + " " + following).strip()
    return re.search(r"(→|^:|:)\s*Type\s+(\{?\w+\}?)\s*$", signature) is not None


def declared(root):
    """Each name with a dash that our own files declare, and whether it is a type's."""
    names = {}
    for path in files(os.path.join(root, "crates"), ".antt"):
        lines = [bare(l) for l in read(path).split("\n")]
        for i, line in enumerate(lines):
            m = DECLARED.match(line)
            if not m or not m["rest"].startswith(":") and "record" not in m["marks"] and "data" not in m["marks"]:
                continue
            if m["rest"].startswith(":=") or re.match(r":\s*goal\.", m["rest"]):
                continue
            name = m["name"]
            if "-" not in name.strip("-") or name.startswith(("let", "λ")):
                continue
            # what the check makes: an invariant, a measure, a goal
            if re.match(r"(invariant|decreases)-", name) and path.endswith(("Invariants.antt", "Choices.antt")):
                continue
            following = ""
            for more in lines[i + 1 : i + 6]:
                if more.startswith(m["lead"] + "    ") and more.strip():
                    following += " " + more.strip()
                else:
                    break
            names[name] = names.get(name, False) or is_type(m["marks"], m["rest"], following)
    return names


def new_name(name, of_type):
    if of_type and name[0].isupper():
        return "".join(p[:1].upper() + p[1:] for p in name.split("-"))
    return name.replace("-", "_")


def foreign(text):
    """The names that a file imports from another library."""
    found = set()
    for m in re.finditer(r"(?:ghost\s+)?use\s+([^\s{;]+?)\.?\{([^}]*)\}", text):
        own = m[1].startswith("Rattle.") and not m[1].startswith("Rattle.std")
        if not own:
            found |= {w.split(" as ")[-1].strip() for w in m[2].split(",")}
    return found


def turned(text, table, stay):
    def word(m):
        w = m[0]
        return table[w] if w in table and w not in stay else w

    return WORD.sub(word, text)


def goals_apart(text, table, stay, answers):
    """Turns a piece of code, but for names that the check makes: behind `goal.`, in a file of answers behind `c.`, `w.` and `l.`, and imported ones."""
    heads = "goal|c|w|l" if answers else "goal"
    out, at = [], 0
    for m in re.finditer(r"(?<![^\s(\[,{])(?:" + heads + r")\.[^\s(){},;@\"«»\[\]]+|use Rattle\.[^\s{]*\.(?:Goals|Given)\.\{[^}]*\}", text):
        out.append(turned(text[at : m.start()], table, stay))
        piece = m[0]
        if piece.startswith("use"):
            out.append(piece)
        else:
            parts = piece.split(".")
            # the first two parts are the check's; a field of ours may follow
            keep = 2
            out.append(".".join(parts[:keep] + [table.get(p, p) if p not in stay else p for p in parts[keep:]]))
        at = m.end()
    out.append(turned(text[at:], table, stay))
    return "".join(out)


def antt(text, table, answers):
    stay = foreign(text)
    lines = []
    for line in text.split("\n"):
        code = bare(line)
        comment = line[len(code) :]
        lines.append(goals_apart(code, table, stay, answers) + SPAN.sub(lambda m: turned(m[0], table, stay), comment))
    return "\n".join(lines)


def rt(text, table):
    stay = foreign(text)
    lines = []
    for line in text.split("\n"):
        m = re.match(r'^((?:[^"/]|"(?:\\.|[^"\\])*"|/(?!/))*)(//.*)?$', line)
        code, comment = (m[1], m[2] or "") if m else (line, "")
        pieces = re.split(r'("(?:\\.|[^"\\])*")', code)
        code = "".join(p if p.startswith('"') else turned(p, table, stay) for p in pieces)
        lines.append(code + SPAN.sub(lambda m: turned(m[0], table, stay), comment))
    return "\n".join(lines)


def main(argv):
    listing = "--list" in argv
    root = next((a for a in argv if not a.startswith("--")), ".")
    names = declared(root)
    table = {n: new_name(n, t) for n, t in sorted(names.items())}
    back = {}
    for old, new in table.items():
        back.setdefault(new, []).append(old)
    for new, olds in sorted(back.items()):
        if len(olds) > 1:
            print(f"look: {olds} fall together as {new}")
    taken = set()
    for path in files(os.path.join(root, "crates"), ".antt", ".rt"):
        here = {m[0] for m in WORD.finditer(read(path))}
        for old in here & set(table):
            if table[old] in here:
                taken.add((table[old], old, os.path.relpath(path, root)))
    for new, old, path in sorted(taken):
        print(f"look: {path} has {new} already, beside {old}")
    if listing:
        for old, new in table.items():
            print(f"{old}\t{new}")
        return 0
    n = 0
    for path in files(os.path.join(root, "crates"), ".antt", ".rt", ".edit"):
        text = read(path)
        to = antt(text, table, os.path.basename(path) in ("Answers.antt", "Choices.antt", "Invariants.antt", "Proof.antt")) if path.endswith(".antt") else rt(text, table)
        if to != text:
            n += 1
            with open(path, "w", encoding="utf-8") as f:
                f.write(to)
    later = os.path.join(root, "later")
    pages = [os.path.join(root, "README.md")] + list(files(os.path.join(root, "docs"), ".md")) + list(files(later, ".edit", ".md"))
    for path in pages:
        if not os.path.exists(path):
            continue
        text = read(path)
        to = rt(text, table) if path.endswith(".edit") else SPAN.sub(lambda m: turned(m[0], table, set()), text)
        if to != text:
            n += 1
            with open(path, "w", encoding="utf-8") as f:
                f.write(to)
    print(f"respell: {len(table)} names, {n} files")
    return 0


if __name__ == "__main__":
    raise SystemExit(main(sys.argv[1:]))
