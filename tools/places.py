#!/usr/bin/env python3
"""Counts the places in crates/*/src that each point of docs/DESIGN-PASS.md looks for.

    python3 tools/places.py [-v] [POINT..]

Each count is of what the patterns below find, so that it can be done again on any commit; whether a
place is better in another form is judged by a reader.  With -v every place is printed.
"""
import collections
import glob
import itertools
import re
import sys

FILES = sorted(glob.glob("crates/*/src/**/*.rt", recursive=True))


def bare(text):
    """The text without comments, clauses in braces after ghost words, and strings."""
    text = re.sub(r'"(\\.|[^"\\])*"', '""', text)
    text = re.sub(r"//[^\n]*", "", text)
    return text


def matching(text, at):
    """Where the brace that opens at a place is closed."""
    depth = 0
    for i in range(at, len(text)):
        if text[i] in "{([":
            depth += 1
        elif text[i] in "})]":
            depth -= 1
            if depth == 0:
                return i
    return len(text)


class Function:
    def __init__(self, path, line, name, params, result, clauses, body):
        self.path, self.line, self.name = path, line, name
        self.params, self.result, self.clauses, self.body = params, result, clauses, body

    def place(self):
        return f"{self.path}:{self.line} {self.name}"


def split_params(text):
    parts, depth, last = [], 0, 0
    for i, c in enumerate(text):
        if c in "<([{":
            depth += 1
        elif c in ">)]}" and not (c == ">" and text[i - 1] == "-"):
            depth -= 1
        elif c == "," and depth == 0:
            parts.append(text[last:i])
            last = i + 1
    parts.append(text[last:])
    return [re.sub(r"\s+", " ", p).strip() for p in parts if p.strip()]


def functions():
    found = []
    for path in FILES:
        text = bare(open(path).read())
        for m in re.finditer(r"\bfn (\w+)\s*(<[^({]*>)?\s*\(", text):
            start = text.index("(", m.end() - 1)
            end = matching(text, start)
            params = split_params(text[start + 1:end])
            at = end + 1
            head = re.match(r"\s*(->\s*([^{;]*?))?\s*(?=requires|ensures|where|\{|;)", text[at:], re.S)
            result = head.group(2) or "" if head else ""
            at += head.end() if head else 0
            clauses = []
            while True:
                c = re.match(r"\s*(requires|ensures)\*?\s*(\w+)?\s*\{", text[at:])
                if not c:
                    break
                open_at = at + c.end() - 1
                close = matching(text, open_at)
                clauses.append((c.group(1), c.group(2), re.sub(r"\s+", " ", text[open_at + 1:close]).strip()))
                at = close + 1
            b = re.match(r"\s*\{", text[at:])
            body = ""
            if b:
                open_at = at + b.end() - 1
                body = text[open_at + 1:matching(text, open_at)]
            line = text[:m.start()].count("\n") + 1
            found.append(Function(path, line, m.group(1), params, result.strip(), clauses, body))
    return found


def lines_with(pattern, tests=True):
    found = []
    for path in FILES:
        for n, line in enumerate(open(path), 1):
            code = line.split("//")[0]
            if re.search(pattern, code):
                found.append(f"{path}:{n} {code.strip()[:110]}")
    return found


KEEP = set("if else for in while loop let mut match return true false Some None Ok Err as self Self".split())


def shape(body):
    tokens = re.findall(r"\w+|[^\w\s]", body)
    return " ".join(t if (t in KEEP or not re.match(r"\w", t)) else "x" for t in tokens)


def conjuncts(clause):
    parts, depth, last = [], 0, 0
    for i, c in enumerate(clause):
        if c in "([{":
            depth += 1
        elif c in ")]}":
            depth -= 1
        elif c == "×" and depth == 0:
            parts.append(clause[last:i].strip())
            last = i + 1
    parts.append(clause[last:].strip())
    flat = []
    for p in parts:
        while p.startswith("(") and matching(p, 0) == len(p) - 1:
            p = p[1:-1].strip()
        flat += conjuncts(p) if "×" in p and len(parts) > 1 else [p]
    return flat


def point1(fs):
    yield "enums of our own", lines_with(r"\benum \w+")
    yield "fields of type bool", lines_with(r"^\s+(pub(\(\w+\))? )?\w+: bool,")
    yield "a bool with a value, or as the value of a Result", [f.place() + " -> " + f.result for f in fs if re.search(r"\(.*\bbool\b.*\)|Result<bool|Option<bool", f.result)]
    yield "a number as an error", [f.place() + " -> " + f.result for f in fs if re.search(r"Result<.*, [ui](8|16|32|64|size)>", f.result)]
    yield "a number for a kind", [f.place() for f in fs if any(re.match(r"(letter|kind|sort|code): u", p) for p in f.params)]
    yield "an answer thrown away or called impossible", lines_with(r"let _ = |unreachable\(\)")
    yield "Ok to Some by a match", [f.place() for f in fs if re.search(r"Err\(_\) => None", f.body)]


def point2(fs):
    groups = collections.defaultdict(list)
    for f in fs:
        if len(re.findall(r"\w+|[^\w\s]", f.body)) >= 12:
            groups[shape(f.body)].append(f.place())
    same = [g for g in groups.values() if len(g) > 1]
    yield "functions whose bodies differ only in names, types and constants", [p for g in same for p in g]
    yield "groups of such", [" = ".join(g) for g in same]
    consts = collections.defaultdict(list)
    for path in FILES:
        for n, line in enumerate(open(path), 1):
            m = re.search(r"const (\w+): \w+ = ([\d_]+);", line)
            if m:
                consts[m.group(2).replace("_", "")].append(f"{path}:{n} {m.group(1)}")
    yield "constants of one value that stand more than once", [p for g in consts.values() if len(g) > 1 for p in g]


def point3(fs):
    yield "loops", [f.place() for f in fs for _ in re.findall(r"\b(?:for \S.*? in|while|loop)\b", f.body)]
    yield "loops over a range of numbers", lines_with(r"\bfor \w+ in [^{]*\.\.")
    yield "counters moved by hand in a loop", [f.place() for f in fs if re.search(r"\b(for|while|loop)\b", f.body) for _ in re.findall(r"\b\w+ \+= 1", f.body)]
    yield "loops that only ask (return at the first that fits)", [f.place() for f in fs if re.search(r"for [^{]*\{\s*if [^{]*\{\s*return [^;]*;\s*\}\s*\}\s*\S+\s*$", f.body)]


def point4(fs):
    traits = "Clone|Copy|PartialEq|Eq|PartialOrd|Ord|Hash|Default|Debug|Display|From|TryFrom|FromStr"
    yield "impls of traits that can be derived, and conversions", lines_with(r"^impl.*\b(%s)(<.*>)? for " % traits)
    yield "impls of our own traits for sameness and order", lines_with(r"^impl.*\b(Same|PartialOrder|Lattice|Timestamp)(<.*>)? for ")
    yield "numbers put as digits by hand", [f.place() for f in fs if re.search(r"48 \+|% 10", f.body)]


def point5(fs):
    together = collections.defaultdict(set)
    for f in fs:
        ps = [p for p in f.params if "self" not in p.split(":")[0]]
        for group in itertools.combinations(sorted(set(p.replace("mut ", "") for p in ps)), 3):
            together[group].add(f.place())
    wide = collections.defaultdict(set)
    for g, where in together.items():
        if len(where) >= 3:
            for w in where:
                wide[w] |= set(g)
    yield "functions that share three parameters or more with two others", sorted(wide)
    yield "functions with seven parameters or more", [f"{f.place()} ({len(f.params)})" for f in fs if len(f.params) >= 7]
    facts = collections.defaultdict(set)
    for f in fs:
        for kind, _, clause in f.clauses:
            if kind == "requires":
                for c in conjuncts(clause):
                    facts[re.sub(r"\.(old|new|now|entry)\b", "", c)].add(f.place())
    yield "facts required by three functions or more", [f"{c[:90]}: {len(w)}" for c, w in sorted(facts.items()) if len(w) >= 3]
    yield "functions with a requires", [f.place() for f in fs if any(k == "requires" for k, _, _ in f.clauses)]


def point6(fs):
    yield "functions over a lent table and a number in use", [f.place() for f in fs if any(re.search(r"&(mut )?\[", p) for p in f.params) and any(re.match(r"(len|at|n|times): usize", p) for p in f.params)]
    found = []
    for path in FILES:
        text = bare(open(path).read())
        for m in re.finditer(r"struct (\w+)[^{;]*\{([^}]*)\}", text):
            fields = m.group(2)
            if re.search(r"\[[^\]]*\]", fields) and re.search(r"\b(len|at|count): usize", fields):
                found.append(f"{path} {m.group(1)}")
    yield "structs of a buffer and a length", found


def point7(fs):
    yield "function pointers, tables of functions, dyn", lines_with(r"\bfn\(|\bdyn\b")
    yield "switches on a step", lines_with(r"match (step|phase|stage|mode)\b")


def point8(fs):
    for crate in sorted(glob.glob("crates/*/proofs")):
        answers = glob.glob(crate + "/**/Answers.antt", recursive=True)
        own = [p for p in glob.glob(crate + "/**/*.antt", recursive=True) if not re.search(r"/(Answers|Invariants|Proof|Lib)\.antt$", p)]
        goals = sum(len(re.findall(r"^(pub|abbrev pub) [\w'+-]+ : goal\.", open(p).read(), re.M)) for p in answers)
        lemmas = sum(len(re.findall(r"^(?:pub |abbrev pub |unfoldable pub |unfoldable |abbrev )?[\w'+-]+ : ", open(p).read(), re.M)) for p in own)
        lines = sum(len(open(p).read().splitlines()) for p in answers + own)
        yield f"{crate}: files of answers {len(answers)}, answers {goals}, lemmas of our own {lemmas}, lines", [""] * lines


def main():
    words = sys.argv[1:]
    verbose = "-v" in words
    points = [int(w) for w in words if w.isdigit()] or range(1, 9)
    fs = functions()
    print(f"files {len(FILES)}, functions {len(fs)}, lines {sum(len(open(p).read().splitlines()) for p in FILES)}")
    for n in points:
        print(f"point {n}")
        for what, places in globals()[f"point{n}"](fs):
            print(f"  {len(places):4}  {what}")
            if verbose and n != 8:
                for p in places:
                    print(f"          {p}")


main()
