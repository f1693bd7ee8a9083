"""Counts the places in src/ that an older form of the language left, by point of docs/DESIGN-PASS.md.

    python3 tools/places.py [-v] [COMMIT]

Reads the checkout, or COMMIT, and prints for each kind of place how many there are in each crate; -v prints the places too."""
import re
import subprocess
import sys
from collections import Counter, defaultdict
from pathlib import Path


def sources(commit):
    if commit is None:
        for p in sorted(Path("crates").glob("*/src/**/*.rt")):
            yield str(p), p.read_text()
        return
    names = subprocess.run(["git", "ls-tree", "-r", "--name-only", commit, "crates"], capture_output=True, text=True, check=True).stdout.split()
    for n in names:
        if re.match(r"crates/[^/]+/src/.*\.rt$", n):
            yield n, subprocess.run(["git", "show", f"{commit}:{n}"], capture_output=True, text=True, check=True).stdout


def code(text):
    """The text without comments and ghost clauses, at the same places."""
    text = re.sub(r"//[^\n]*", lambda m: " " * len(m.group()), text)
    return re.sub(r"(?m)^\s*(ghost|ensures|requires)\b[^\n]*", lambda m: " " * len(m.group()), text)


def enums(text):
    for m in re.finditer(r"\benum (\w+)[^{]*\{(.*?)\n\}", text, re.S):
        variants = [v.strip() for v in re.findall(r"(?m)^    ([A-Z]\w*(?:\([^)]*\))?),?", m.group(2))]
        yield m.start(), m.group(1), variants


def option_shaped(variants):
    fields = sorted(v.count(",") + 1 if "(" in v else 0 for v in variants)
    return fields == [0, 1]


RE = {
    "1b error carried as an Option, or rewrapped by a match": [
        r"if let Some\((\w+)\) = [^{]+\{\s*return Err\(\1\)", r"if let Some\([^)]*\)+ = [^{]+\{\s*return Err\(\w+::", r"Some\((\w+)\) => Err\(\1\)", r"Err\((\w+)\) => Err\(", r"Some\((\w+)\) => Err\(",
        r"\{\s*Some\([^)]*\) => [^\n]*\n\s*None => Err\(", r"let Some\([^=]*= [^;]*else \{\s*return Err\("],
    "1c Option or Result taken apart where a method does it": [
        r"None => (None|0|false|true|&\[\]|b|\w+ == 0),?\n", r"Err\(_\) => (false|\w+Err|PointState)", r"\{ (Some\([^{}]*\)) \} else \{ None \}",
        r"\{\s*Some\([^{};]*\)\s*\} else \{\s*None\s*\}", r"\{\s*None\s*\} else \{\s*Some\([^{};]*\)\s*\}", r"Some\((\w+)\) => Some\("],
    "1d number for a kind or a refusal": [r"\.number\(\) ==", r"number: u8", r"Unread\(u8", r"\bstate == [A-Z]", r"octet == [A-Z]"],
    "1e a Result in parts, or a Result in a Result": [r"refusal: Option<", r"Result<Result<"],
    "3a loop that counts": [r"\bwhile (?!let\b)", r"\bfor _?\w+ in 0\.\.", r"\.iter\(\)\.enumerate\(\)"],
    "3b loop that searches, counts or collects": [r"for [^\n]* in (?!0\.\.)[^\n]*\{\n(?:[^\n]*\n){1,4}?\s*(return (true|false|Some|None)|\w+ \+= 1|\w+\.push)"],
    "3c element or default, by an index test": [r"if \w+ < \w+(\.\w+)*\.len\(\) \{\s*\w+(\.\w+)*\[\w+\]", r"if \w+ < [A-Z_]+ \{ self\.\w+\[\w+\]", r"if \w+ < (self\.)?\w+(\.\w+)*(\.len\(\))? \{\s*(\*self\.)?\w+(\.\w+)*(\[\w+\]|\(\w+\)) ?="],
    "4a equality by hand": [r"fn same\(", r"\.same\(", r"(?<!\.)\bhas\(", r"\bis_text\("],
    "4b test of a variant by a match of bools": [r"match [^{]*\{(\s*[^{}\n]*=> (true|false),\n)+\s*\}"],
    "4c conversion by hand": [r"fn (side|other_side|lifted|done_answer|settled_answer|passed_answer|unread|or_refused)\b"],
    "7a struct or impl that carries one function": [r"impl<?.*\b(Claim|Probe|Code)<?.* for "],
    "7b switch on which step or test to run": [r"enum (Part|Filter)\b", r"match (part|filter) \{"],
}

GROUPS = [("reader", "heap", "rows"), ("index", "rows", "heap"), ("tables", "index", "rows"), ("station", "states", "track"), ("tables", "route", "k"),
          ("front", "joint", "rear"), ("first", "second"), ("from", "to"), ("points", "signals"), ("rows", "at"), ("heap", "octets")]


def main():
    args = [a for a in sys.argv[1:] if a != "-v"]
    verbose = "-v" in sys.argv
    found = defaultdict(Counter)
    places = defaultdict(list)

    def put(kind, name, text, at, what):
        found[kind][name.split("/")[1]] += 1
        places[kind].append(f"{name}:{text.count(chr(10), 0, at) + 1}: {what}")

    bodies = defaultdict(list)
    for name, raw in sources(args[0] if args else None):
        text = code(raw)
        for at, enum, variants in enums(text):
            if option_shaped(variants):
                put("1a enum of the shape of Option", name, text, at, enum)
        for kind, regexes in RE.items():
            seen = set()
            for r in regexes:
                for m in re.finditer(r, text):
                    line = text.count("\n", 0, m.start())
                    if line not in seen:
                        seen.add(line)
                        put(kind, name, text, m.start(), m.group().split("\n")[0].strip()[:80])
        for m in re.finditer(r"fn (\w+)[^(]*\(([^{]*?)\)\s*(?:->[^{]*)?\s*\{(.*?)\n(?:    )?\}", text, re.S):
            params = re.findall(r"(\w+):", m.group(2))
            for g in GROUPS:
                if all(p in params for p in g):
                    put("5 parameters that travel together", name, text, m.start(), f"{m.group(1)}({', '.join(g)})")
                    break
            body = re.sub(r"b?\"[^\"]*\"|b?'[^']*'|\b\w+\b(?!\()", "_", re.sub(r"\s+", " ", m.group(3)))
            if len(body) > 12:
                bodies[body].append((name, text, m.start(), m.group(1)))
    for body, fns in bodies.items():
        if len(fns) > 1:
            for name, text, at, fn in fns:
                put("2 functions that differ only in a type, a field or a constant", name, text, at, fn)
    for kind in sorted(found):
        print(f"{sum(found[kind].values()):4} {kind}: " + ", ".join(f"{c} {n}" for c, n in sorted(found[kind].items())))
        if verbose:
            for p in places[kind]:
                print("       " + p)


main()
