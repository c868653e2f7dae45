#!/usr/bin/env python3
"""Counts the places of each point of docs/DESIGN-PASS.md in the sources of a checkout.

    python3 tools/places.py [FOLDER] [-v]

FOLDER is the top of a checkout, this one if none is given; -v prints each place. A place is a match of one of the patterns
below in a file of crates/*/src, outside comments; for facts and parameters it is a text that stands in three functions or
more. A place that stays has a line `// Stays: ..` beside it, and those are counted too.
"""
import collections
import pathlib
import re
import sys

# Point, name of the pattern, pattern. They are tried on the text of a file with its comments blanked out.
PATTERNS = [
    (1, "arm that an option's or a result's method or `?` does", r"None => (?:None\b|false\b|\{\}|return\b)|Some\(_\) => (?:true|false|None\b|return\b)|Err\(_\) => (?:None\b|false\b|return\b|Err\()|Err\((\w+)\) => (?:Err|Some)\(\1\b"),
    (1, "let else that only hands on", r"let (?:Some|Ok)\([^=;{}]*\) = [^;{}]*? else \{\s*return (?:None|Err\(anyhow|Some\(0\))"),
    (1, "bool for done or not", r"fn (?:push|offer|attempt|expand_record|expand_layer|put_entry|fill)\b(?:(?!\bfn\b)[^{])*?-> bool\b"),
    (1, "none for too little room", r"fn (?:run|walk_leg|walk_by|fetch|write_sheet)\b(?:(?!\bfn\b)[^{])*?-> Option<"),
    (1, "flag beside the value", r"\bheld: bool,"),
    (1, "own shape of a result", r"\bpub\(crate\) answer: u8,|\bpub\(crate\) fault: Option<"),
    (1, "check that answers its fault as an option", r"(?m)^ *(?:pub\(crate\) )?fn \w*(?:fault|refusal)\w*(?:<[^(]*>)?\((?:(?!\bfn\b)[^{])*?-> Option<\w*(?:Fault|Refusal)>|-> anyhow::Result<Option<Difference>>"),
    (1, "number for a kind, a way or a refusal", r"(?<!fn try_from\()\b(?:kind|byte|way|answer): u8\b|Result<[^;{}=]*, u8>"),
    (3, "while or loop", r"(?m)^ *(?:while|loop)\b"),
    (3, "loop that a library method does", r"for (\w+) in [^{\n]*\{\s*(?:if [^{]*\{\s*return (?:true|false);\s*\}|\*\1 = 0;|self\.push\(\*\1\);)\s*\}"),
    (3, "rows taken off what is left, or counted beside the loop", r"let mut rest = \w+;|\b(?:count|row) [+-]= 1;"),
    (4, "number of an enum by a match", r"fn (?:code|kind_of)\([^{]*\{[^{}]*\}\s*\{\s*match"),
    (4, "text of an enum or of an answer by a function", r"fn (?:text|tell|tell_count|refuse|layer_word|word\(self)\b"),
    (4, "decimal by hand", r"\b48 \+ "),
    (4, "zero by hand", r"Relayed \{\s*setting: 0,\s*relay: 0,?\s*\}|Interlock \{\s*valve: 0,\s*position: 0,\s*other: 0,\s*stands: 0,?\s*\}|Link \{ one: 0, other: 0 \}|Question \{\s*start: 0,"),
    (4, "text made to be appended", r"format!\(in [^)]*\(\); [^)]*\)\?\.as_str\(\)|format!\(in heap; [^)]*\)\?;\s*text\.push_str"),
    (6, "index beside a slice", r"\b(?:begins|ends|links|heads|before|present|next|end): (?:u16|u32|usize),"),
    (7, "switch on a number that says which way", r"match way\b"),
]

# Functions or types that say the same for another type, size or constant.
TWINS = {
    "search_leg": r"fn search_leg(?:_with_index)?\b",
    "measure": r"pub fn measure(?:_with_index)?\b",
    "plan": r"^pub fn plan(?:_with_index)?\b",
    "Sequencer::plan": r"^ +pub fn plan(?:_with_index)?\b",
    "held": r"fn held_(?:positions|interlocks|links)\b",
    "word, double, quad": r"pub fn (?:word|double|quad)\((?!self)",
    "track fault": r"pub enum TrackFault\b",
    "two stations": r"pub struct (?:Ends|Link) ",
    "positions' fault": r"fn (?:first_)?positions_fault\b",
    "interlock's fault": r"fn (?:row_fault|interlock_fault)\b",
    "rows' fault": r"fn (?:interlocks_fault|links_fault)\b",
    "link's fault": r"fn (?:link_fault|fault_in)\b",
    "looking through records": r"fn (?:first_place|first_record|find|record_of)\b",
    "first fault": r"fn made_fault\b|fn data_fault\b",
    "bench A": r"fn bench_a\b",
    "ring with a spur": r"one: 2, other: 4 \}|link\(3, 0\), link\(2, 4\)\]",
    "tell": r"fn (?:tell|refuse)\b",
    "calls for C of a kind of plant": r"fn jidorafu_measure_",
}

SETS = [("start", "target", "bound"), ("records", "index"), ("lookup", "plant", "leg"), ("rows", "entries"), ("setting", "valve")]


def bare(text):
    return re.sub(r"//[^\n]*", lambda m: " " * len(m.group()), text)


def functions(text):
    for m in re.finditer(r"\bfn (\w+)[^({]*\(((?:[^()]|\([^()]*\))*)\)((?:(?!\bfn\b)[^;])*?)\n? *\{", text):
        yield m


def arrays(text):
    """Array fields of structs that have two of them, or a count beside one."""
    for m in re.finditer(r"\bstruct \w+[^{};]*\{", text):
        body = block(text, m.end() - 1)
        found = [m.end() - 1 + a.start() for a in re.finditer(r"\w+: \[\w+; \w+\],", body)]
        counts = re.search(r"\b(?:valves|rows|count|length|begins|end): (?:u8|u16|usize),", body)
        sizes = re.findall(r"; (\w+)\],", body)
        if counts or len(sizes) > len(set(sizes)):
            yield from found


def block(text, at):
    """The text between the brace at this place and its own."""
    depth = 0
    for i in range(at, len(text)):
        depth += {"{": 1, "}": -1}.get(text[i], 0)
        if depth == 0:
            return text[at:i]
    return text[at:]


def counted(text):
    """Loops over a range or by enumerate whose counter stands in an index."""
    for m in re.finditer(r"(?m)^ *for (?:(\w+) in [^{\n]*\.\.[^{\n]*|\((\w+), \w+\) in [^{\n]*\.enumerate\(\)[^{\n]*)\{", text):
        counter = m.group(1) or m.group(2)
        if re.search(r"\w\[[^\]]*\b" + counter + r"\b|\.get\(" + counter + r"\b", block(text, m.end() - 1)):
            yield m


def main():
    args = [a for a in sys.argv[1:] if a != "-v"]
    verbose = "-v" in sys.argv
    top = pathlib.Path(args[0] if args else pathlib.Path(__file__).parent.parent)
    files = sorted(top.glob("crates/*/src/**/*.rt"))
    texts = {f: bare(f.read_text()) for f in files}

    def place(f, at):
        return f"{f.relative_to(top / 'crates')}:{texts[f].count(chr(10), 0, at) + 1}"

    totals = collections.Counter()

    def told(point, name, places):
        totals[point] += len(places)
        print(f"{point}  {len(places):3}  {name}")
        if verbose:
            for p in places:
                print(f"          {p}")

    for point, name, pattern in PATTERNS:
        if point > 1:
            continue
        told(point, name, [place(f, m.start()) for f in files for m in re.finditer(pattern, texts[f])])
    for name, pattern in TWINS.items():
        found = [place(f, m.start()) for f in files for m in re.finditer(pattern, texts[f], re.M)]
        if len(found) > 1:
            told(2, f"twins: {name}: {len(found)}, of which one would do", found[1:])
    for point, name, pattern in PATTERNS:
        if point in (3, 4):
            told(point, name, [place(f, m.start()) for f in files for m in re.finditer(pattern, texts[f])])
    told(3, "for whose counter is an index", [place(f, m.start()) for f in files for m in counted(texts[f])])
    facts = collections.defaultdict(set)
    for f in files:
        crate = f.relative_to(top / "crates").parts[0]
        name = ""
        for n, line in enumerate(texts[f].splitlines()):
            start = re.search(r"\bfn (\w+)", line)
            if start:
                name = f"{f.relative_to(top / 'crates')}:{n + 1}"
            clause = re.match(r" *requires(?: \w+)? \{ (.*) \}$", line)
            if clause:
                facts[(crate, re.sub(r"\.(?:old|now|entry)\b", "", clause.group(1)))].add(name)
    for (crate, fact), places in sorted(facts.items()):
        if len(places) > 2:
            told(5, f"fact in {len(places)} functions of {crate}: {fact[:70]}", sorted(places))
    for names in SETS:
        places = []
        for f in files:
            for m in functions(texts[f]):
                given = set(re.findall(r"\b(\w+): ", m.group(2)))
                if given.issuperset(names):
                    places.append(place(f, m.start()))
        if len(places) > 2:
            told(5, "parameters that go together: " + ", ".join(names), places)
    for point, name, pattern in PATTERNS:
        if point > 5:
            told(point, name, [place(f, m.start()) for f in files for m in re.finditer(pattern, texts[f])])
    told(6, "array with a count beside it, or parallel arrays", [place(f, at) for f in files for at in arrays(texts[f])])
    lines = sum(len(p.read_text().splitlines()) for p in top.glob("crates/*/proofs/**/*.antt"))
    answers = sum(len(re.findall(r"(?m)^pub [\w-]+ : goal\.", p.read_text())) for p in top.glob("crates/*/proofs/**/Answers.antt"))
    print(f"8  {answers:3}  answers to goals, in {lines} lines of proofs")
    totals[8] = answers
    print("in all: " + ", ".join(f"point {p}: {totals[p]}" for p in range(1, 9)))
    stays = [f"{f.relative_to(top / 'crates')}:{n + 1}: {line.strip()}" for f in files for n, line in enumerate(f.read_text().splitlines()) if "// Stays:" in line]
    print(f"places with a line that says why they stay: {len(stays)}")
    if verbose:
        for line in stays:
            print(f"          {line}")


main()
