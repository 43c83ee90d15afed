#!/usr/bin/env python3
# Counts, in crates/*/src of a commit or of the working tree, the places that docs/DESIGN-PASS.md speaks of.
# usage: tools/design_count.py [COMMIT] [-v]     with -v each place is listed
import re
import subprocess
import sys
from collections import defaultdict
from pathlib import Path

TOP = Path(__file__).resolve().parent.parent


def sources(commit):
    if commit is None:
        return {str(p.relative_to(TOP)): p.read_text() for p in sorted(TOP.glob("crates/*/src/*.rt"))}
    names = subprocess.run(["git", "ls-tree", "-r", "--name-only", commit, "crates"], cwd=TOP, capture_output=True, text=True, check=True)
    files = [n for n in names.stdout.split() if re.fullmatch(r"crates/[^/]+/src/[^/]+\.rt", n)]
    return {n: subprocess.run(["git", "show", f"{commit}:{n}"], cwd=TOP, capture_output=True, text=True, check=True).stdout for n in sorted(files)}


def block(text, at):
    depth = 0
    for i in range(at, len(text)):
        if text[i] == "{":
            depth += 1
        elif text[i] == "}":
            depth -= 1
            if depth == 0:
                return i + 1
    return len(text)


def paren(text, at):
    depth = 0
    for i in range(at, len(text)):
        if text[i] in "([":
            depth += 1
        elif text[i] in ")]":
            depth -= 1
            if depth == 0:
                return i + 1
    return len(text)


# (file, line, name, parameters, clauses, body) of each function
def functions(files):
    for name, text in files.items():
        plain = re.sub(r"//[^\n]*", lambda m: " " * len(m.group()), text)
        for m in re.finditer(r"\bfn (\w+)", plain):
            start = plain.find("(", m.end())
            end = paren(plain, start)
            params, clauses, at = plain[start + 1 : end - 1], [], end
            while True:
                c = re.compile(r"\s*(?:->[^{;]*?(?=\s(?:requires|ensures)\b))?\s*(requires|ensures)\b[^{]*\{").match(plain, at)
                if c is None:
                    break
                stop = block(plain, c.end() - 1)
                clauses.append((c.group(1), " ".join(plain[c.end() : stop - 1].split())))
                at = stop
            brace, semi = plain.find("{", at), plain.find(";", at)
            body = "" if brace < 0 or 0 <= semi < brace else plain[brace : block(plain, brace)]
            yield name, plain.count("\n", 0, m.start()) + 1, m.group(1), params, clauses, body


def grep(files, pattern):
    for name, text in files.items():
        for number, line in enumerate(text.split("\n"), 1):
            if re.search(pattern, line.split("//")[0]):
                yield f"{name}:{number}: {line.strip()}"


# a body with every name and number written as the place where it first stood, so that twins read alike
def shape(body):
    seen = {}
    words = re.findall(r"\w+|[^\w\s]", body)
    return " ".join(seen.setdefault(w, f"v{len(seen)}") if re.fullmatch(r"\w+", w) and w not in ("let", "mut", "match", "if", "else", "for", "in", "while", "return", "self") else w for w in words)


def twins(files):
    groups = defaultdict(list)
    for name, line, fn, _, _, body in functions(files):
        s = shape(body)
        if len(s.split()) > 14:
            groups[s].append(f"{name}:{line} {fn}")
    return [" = ".join(g) for g in groups.values() if len(g) > 1]


def clauses(files):
    groups = defaultdict(set)
    for name, line, fn, _, cs, _ in functions(files):
        for kind, text in cs:
            groups[text].add(f"{name}:{line} {fn}")
    return [f"{t}   in {len(g)}: {', '.join(sorted(g))}" for t, g in groups.items() if len(g) > 2]


def together(files):
    groups = defaultdict(set)
    for name, line, fn, params, _, _ in functions(files):
        names = re.findall(r"(?:^|[,(\s])(?:mut )?(\w+)\s*:\s*([^,]+)", " ".join(params.split()))
        plain = sorted({(n, t.strip()) for n, t in names if n != "self"})
        for i, a in enumerate(plain):
            for b in plain[i + 1 :]:
                groups[(a, b)].add(f"{name}:{line} {fn}")
    return [f"{a[0]}: {a[1]}, {b[0]}: {b[1]}   in {len(g)}: {', '.join(sorted(g))}" for (a, b), g in groups.items() if len(g) > 2]


POINTS = [
    ("1a arms of a match on Option or Result", lambda f: grep(f, r"^\s*(Ok|Err|Some|None)\b[^;]*=>")),
    ("1b let-else on Option or Result", lambda f: grep(f, r"let (Some|Ok)\(.*\) = .*else")),
    ("1c a 0 that means none, or an index and one", lambda f: grep(f, r"\b(link|last|first|next) (!=|==|>) 0|\b(last|first|next|link): 0\b|= \[0; (1024|4096)\]|(heads|nexts|firsts): \[0; 1024\]|(heads|nexts|firsts): \[u32|(first|last|next|link): (usize|u32),|(i|index) as u32 \+ 1|Frees\(usize\)|\w+ = (i|place|e) \+ 1;")),
    ("1d a flag with a value beside it", lambda f: grep(f, r"\w+: bool,$|-> (anyhow::)?(Result<)?bool\b.*record")),
    ("1e a number that stands for success, want or nothing", lambda f: grep(f, r"=> \(0, 0\)|\(99, 0\)|\(\) -> u8")),
    ("1f enums without PartialEq and Debug", lambda f: [f"{n}:{t[:m.start()].count(chr(10)) + 1}: {m.group(2)}" for n, t in f.items() for m in re.finditer(r"((?:#\[derive[^\n]*\]\s*)*)(?:pub )?enum (\w+)", t) if "PartialEq" not in m.group(1)]),
    ("2 functions of one shape", twins),
    ("3a an index counted by hand", lambda f: grep(f, r"\b\w+ (\+|-)= 1;")),
    ("3b loops over a range of places", lambda f: grep(f, r"for \w+ in .*\.\.")),
    ("3c while", lambda f: grep(f, r"^\s*while ")),
    ("4a derivable or convertible by hand", lambda f: grep(f, r"impl.*\b(Clone|PartialEq|Eq|PartialOrd|Ord|Default|Debug) for|fn (equals|told|number|form|layer_name|why|same|number_or|outcome|index|edge_triple|encode|decode)\b")),
    ("4b casts", lambda f: grep(f, r"\bas (u8|u16|u32|u64|usize|i32|i64)\b")),
    ("5a a clause of three or more functions", clauses),
    ("5b two parameters that travel together through three or more functions", together),
    ("6 fixed arrays", lambda f: grep(f, r"^\s*(pub(\(crate\))? )?\w+: \[")),
    ("7a choices between steps", lambda f: grep(f, r"if words\.is\(|match self \{|match \(state|operation\.on_words|Direction::(Forward|Reverse) =>")),
]


def main():
    args = [a for a in sys.argv[1:] if a != "-v"]
    files = sources(args[0] if args else None)
    for title, find in POINTS:
        found = list(find(files))
        print(f"{title}: {len(found)}")
        if "-v" in sys.argv:
            for place in found:
                print(f"    {place}")


main()
